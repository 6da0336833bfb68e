"""The readings of a run, by its script and report: which were due, which came, when, and by which try; and the frames of its links. It shares nothing with
the programs."""
import collections
import re

LATE, MOST_NAMED = 60_000, 6
REMARK = re.compile(r"#@ (\d+)(?:\.(\d{1,3}))? (\w+) (.*)")


class Reading:
    """A reading of a meter: when it was due, and, where it came, at which event, when, and by which try. Times are thousandths of a second."""

    def __init__(self, due):
        self.due, self.came = due, None

    def comes(self, event, time, nth):
        if self.came is None or event < self.came[0]:
            self.came = event, time, nth


def links_of(truth):
    """The frames to one node that flew over each link, both ways, and how many of them never came there."""
    links = collections.defaultdict(lambda: [0, 0])
    for flight in truth.flights.values():
        to = truth.addressee(flight)
        if to is not None and to != flight.node:
            link = links[min(flight.node, to), max(flight.node, to)]
            link[0] += 1
            link[1] += not any(node == to for _, node, _, _ in flight.heard)
    return [[*map(str, nodes), *map(str, links[nodes])] for nodes in sorted(links)]


class Readings:
    """All of a run: `script` are its lines, `truth` what became of its datagrams (run_truth.Truth)."""

    def __init__(self, script, truth):
        self.truth, self.times, self.clock, self.names = truth, [0], 0, {}
        self.sends = {it.event: it for it in truth.sends.values()}
        self.nodes, spares, tries, ticks = 0, set(), [], 0
        for line in script:
            words = line.split()
            if line.startswith("#@ name ") and len(words) > 3:
                self.names[int(words[2])] = line.split(" ", 3)[3]
            if remark := REMARK.fullmatch(line):
                time = int(remark[1]) * 1000 + int((remark[2] or "0").ljust(3, "0"))
                self.clock = max(self.clock, time)
                said = dict(it.split("=", 1) for it in remark[4].split() if "=" in it)
                if remark[3] == "try":
                    tries.append((len(self.times) - 1, time, int(said["node"]), said["reading"], int(said["k"])))
                elif remark[3] == "spare":
                    spares.add(int(said["node"]))
            elif line and not line.startswith("#"):
                self.nodes += words[0] in ("coordinator", "meter")
                ticks += int(words[1]) * 1000 if words[0] == "tick" and truth.answers[len(self.times)][0] == "ok" else 0
                self.clock = max(self.clock, ticks)
                self.times.append(self.clock)
        self.meters = [it for it in range(1, self.nodes) if it not in spares]
        self.by_key = {}
        for event, time, node, key, nth in tries or self.tries_of_sends():
            if node in self.meters:
                self.tried(event, time, node, key, nth)

    def tries_of_sends(self):
        """Without remarks each datagram of a meter to the coordinator is a reading, and the same octets again another try of it."""
        seen = collections.Counter()
        for event, (_, _, words) in self.truth.answers.items():
            if words[0] == "send" and words[1] != "0" and words[2] == "0":
                key = int(words[1]), words[3].lower()
                seen[key] += 1
                yield event, self.times[event], *key, seen[key]

    def tried(self, event, time, node, key, nth):
        reading = self.by_key.setdefault((node, key), Reading(time))
        send = self.sends.get(event)
        if send and (send.node, send.to) == (0, node):
            send = self.reply(send, node)
        elif send and (send.node, send.to) != (node, 0):
            send = None
        if send and send.came:
            reading.comes(send.came, max(time, self.times[send.came]), nth)

    def reply(self, request, node):
        """What a meter sends the coordinator first after a request came to it, before it is asked again."""
        for it in self.sends.values():
            if request.came and it.event > request.event:
                if (it.node, it.to) == (0, node):
                    return None
                if (it.node, it.to) == (node, 0) and it.event > request.came:
                    return it
        return None

    def of(self, node):
        return [it for (meter, _), it in self.by_key.items() if meter == node]

    def row(self, node):
        """The first cells of the row of a meter: all but why readings are missing."""
        own = self.of(node)
        came = [it for it in own if it.came]
        took = sorted(it.came[1] - it.due for it in came)
        first = sum(it.came[2] <= 1 and it.came[1] - it.due <= LATE for it in came)
        arrivals = [own[0].due, *sorted(it.came[1] for it in came), self.clock] if own else [0]
        silence = max((b - a for a, b in zip(arrivals, arrivals[1:])), default=0)
        seconds = [str((it + 500) // 1000) for it in ([took[(len(took) - 1) // 2], took[-1]] if took else [])] or ["", ""]
        numbers = [len(own), len(came), len(own) - len(came), first]
        return [str(node), self.names.get(node, ""), *map(str, numbers), *seconds, str((max(silence, 0) + 500) // 1000)]

    def first_line(self):
        """The first line of an account, or None where the run has no readings."""
        if not self.by_key:
            return None
        came = sum(it.came is not None for it in self.by_key.values())
        lost = collections.Counter(node for (node, _), it in self.by_key.items() if it.came is None)
        named = [self.names.get(it, f"meter {it}") + (f" ({lost[it]})" if lost[it] > 1 else "") for it in sorted(lost)]
        more = len(named) - MOST_NAMED
        others = "" if more < 1 else " and 1 meter more" if more == 1 else f" and {more} meters more"
        return f"{came} of {len(self.by_key)} readings came" + ("; missing: " if named else "") + ", ".join(named[:MOST_NAMED]) + others
