"""Counts a simulated run anew, from its script with its remarks and from the report of a replay, and says where `line_sim measure` differs.

It knows the lines of a script, of a report, and the remarks, and shares nothing with the programs. What the air alone knows is not counted here: how long
frames were on it, how many repeats there were, and when a meter meant to begin to join. Of these it is asked only that they agree with one another.
"""
import collections

READING, RECEIPT = 1, 3
ONE_SECOND = 1000


def events_of(lines, entries):
    """Yields each event of a script as (second of the line's clock, milliseconds of the last remark, words, entry), and each remark as
    (None, its milliseconds, words, None)."""
    clock, at, entries = 0, 0, iter(entries)
    for line in lines:
        words = line.split()
        if line.startswith("#@ "):
            at = int(words[1].replace(".", ""))
            yield None, at, words[2:], None
        elif words and not line.startswith("#"):
            entry = next(entries, None)
            if words[0] == "tick":
                clock += int(words[1])
            yield clock, at, words, entry


def named(words):
    """The values of a remark by their names."""
    return dict(word.split("=", 1) for word in words if "=" in word)


class Counted:
    """What the script and its report say of the counts."""

    def __init__(self, lines, entries, polled):
        self.polled = polled
        self.words, self.remarks = collections.Counter(), collections.Counter()
        self.title, self.line = "", {}
        # The readings by meter and round: when each was due; of those that came the least and the most milliseconds that it took; those that are known of.
        self.due, self.took, self.known = {}, {}, set()
        # Each datagram with its node; each flight with its node and the flight that it goes on from; how many hops each reading took.
        self.sends, self.flights, self.hops, self.plain, self.moved = {}, {}, [], set(), set()
        self.gone, self.changes, self.rings, self.clock = collections.Counter(), [], set(), 0
        for clock, at, words, entry in events_of(lines, entries):
            if entry is None:
                self.remark(at, words)
            else:
                self.clock = clock
                self.event(clock, words, entry)

    def remark(self, at, words):
        kind, values = words[0], named(words)
        self.remarks[kind] += 1
        if kind == "title":
            self.title = " ".join(words[1:])
        elif kind == "line":
            self.line = values
        elif kind == "try":
            self.due.setdefault((int(values["node"]), int(values["reading"])), at)
        elif kind in ("lost", "unacknowledged", "dropped"):
            self.gone["dropped" if kind == "dropped" else "given up", int(values["flight"]) in self.plain] += 1
        elif kind == "unreached" and self.changes:
            self.changes[-1]["unreached"] += 1

    def event(self, clock, words, entry):
        kind = words[0]
        self.words[kind, entry.word] += 1
        if kind == "send" and entry.verdict == "ok":
            self.sends[len(self.sends) + 1] = int(words[1]), bytes.fromhex(words[3])
        if kind in ("deliver", "lose"):
            self.moved.add(int(words[1]))
        self.change(clock, words, entry)
        for said in entry.said:
            if said[0] == "fly":
                flight = int(said[1])
                self.flights[flight] = int(said[2]), int(words[1]) if kind == "deliver" and entry.word == "Relayed" else None
                if not int(said[3][:2], 16) & 8:
                    self.plain.add(flight)
            elif said[0] == "up":
                origin, octets = self.sends[int(said[2])]
                # What an attacker gave has come over no hop that is known.
                self.came(clock, int(said[1]), octets, self.hops_from(origin, int(words[1])) if kind == "deliver" else 0)

    def hops_from(self, origin, flight):
        """How many flights a datagram took: back from the last one to the first of its origin."""
        hops, node = 1, self.flights[flight][0]
        while node != origin and (flight := self.flights[flight][1]) is not None:
            hops, node = hops + 1, self.flights[flight][0]
        return hops

    def came(self, clock, node, octets, hops):
        reading = int.from_bytes(octets[1:3], "big"), int.from_bytes(octets[3:5], "big")
        if len(octets) < 5:
            return
        if octets[0] == READING and node == 0:
            if reading not in self.took:
                since = clock * ONE_SECOND - self.due[reading]
                # The remark's milliseconds are cut off, and so is the clock's second.
                self.took[reading] = max(0, since - 1), since + ONE_SECOND
                self.hops.append(hops)
            if self.polled:
                self.known.add(reading)
        elif octets[0] == RECEIPT and node == reading[0]:
            self.known.add(reading)

    def change(self, clock, words, entry):
        kind = words[0]
        if kind == "rekey" and entry.word == "Drawn":
            change = {"index": int(words[1]), "began": clock, "challenges": 0, "done": 0, "unreached": 0, "orders": 0, "took": None}
            self.changes.append(change)
        if not self.changes:
            return
        change = self.changes[-1]
        if kind == "challenge":
            change["challenges"] += 1
        elif kind == "activate" and words[1] != "0":
            change["orders"] += 1
        elif kind == "activate" and entry.word == "Activated" and change["took"] is None:
            change["took"] = clock - change["began"]
        change["done"] += sum(said[0] == "done" for said in entry.said)


def spread(numbers):
    """The median, what 95 of 100 do not pass, and the greatest, as `measure` takes them of sorted numbers."""
    numbers = sorted(numbers)
    if not numbers:
        return {"median": None, "most": None, "last": None}
    places = {"median": 50, "most": 95, "last": 100}
    return {name: numbers[min(len(numbers) * hundredths // 100, len(numbers) - 1)] for name, hundredths in places.items()}


def lies_between(least, said, most):
    return least is said is most or None not in (least, said, most) and least <= said <= most


def wrong_counts(lines, entries, last, status, figures, polled):
    """Returns what is wrong with the counts of a run, by its script, the entries and the last line of its report, the status of `run` and the figures of
    `measure`.
    """
    run, wrong = Counted(lines, entries, polled), []

    def same(name, expected, said=None):
        said = figures[name] if said is None else said
        if said != expected:
            wrong.append(f"{name}: {said}, and {expected} by the script")

    same("title", run.title)
    same("seed", int(run.line["seed"]))
    same("meters", int(run.line["meters"]))
    same("whole", status != 7)
    _, _, flights, _, _, forged = last.split()
    same("flights", int(flights))
    same("forged", int(forged))
    same("events", sum(run.words.values()))
    answers = {(it["event"], it["answer"]): it["count"] for it in figures["answers"]}
    same("answers", dict(run.words), answers)
    if run.clock > figures["until_s"]:
        wrong.append(f"until_s: {figures['until_s']}, and the clock of the line is {run.clock}")
    same("join_tries", sum(count for (kind, _), count in run.words.items() if kind == "join"))
    same("restarts", sum(count for (kind, _), count in run.words.items() if kind == "restart"))
    same("readings", len(run.due))
    same("tries", run.remarks["try"])
    same("came", len(run.took))
    same("known", len(run.known))
    same("most_hops", max(run.hops, default=0))
    same("hops_hundredths", sum(run.hops) * 100 // len(run.hops) if run.hops else None)
    least, most = (spread([took[at] for took in run.took.values()]) for at in (0, 1))
    for name, said in figures["came_ms"].items():
        if not lies_between(least[name], said, most[name]):
            wrong.append(f"came_ms.{name}: {said}, and {least[name]} to {most[name]} by the script")
    by_hops = {}
    for hops, took in zip(run.hops, run.took.values()):
        by_hops.setdefault(hops, []).append(took)
    same("by_hops", [(it, len(by_hops[it])) for it in sorted(by_hops)], [(it["hops"], it["came"]) for it in figures["by_hops"]])
    for it in figures["by_hops"]:
        least, most = (spread([took[at] for took in by_hops.get(it["hops"], [])]) for at in (0, 1))
        for name, said in it["came_ms"].items():
            if not lies_between(least[name], said, most[name]):
                wrong.append(f"by_hops {it['hops']}, {name}: {said}, and {least[name]} to {most[name]} by the script")
    join = figures["join_ms"]
    if not (join["median"] is join["last"] is None or join["median"] <= join["most"] <= join["last"]):
        wrong.append(f"join_ms: {join}")
    frames = figures["frames"]
    same("frames_sent", sum(frames["sent"].values()))
    same("collisions", sum(frames["collision"].values()))
    for name, what in (("given_up", "given up"), ("no_quiet", "dropped")):
        same(f"frames.{name}.plain", run.gone[what, True], frames[name]["plain"])
        same(f"frames.{name} but plain", run.gone[what, False], sum(frames[name].values()) - frames[name]["plain"])
    if figures["frames_sent"] < len(run.moved):
        wrong.append(f"frames_sent: {figures['frames_sent']}, and {len(run.moved)} flights came to a node")
    same("changes", run.changes)
    return wrong
