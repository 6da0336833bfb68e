"""Reads a script and its report, and says which promises of docs/PROMISES.md the report breaks.

It knows the report's lines and the head of a frame, and shares nothing with the program. The report is one of `replay`, with its frames. In
a run in which somebody has a group key, and forges frames by it, only those promises are asked that hold of every run.
"""
import collections

FRAME_REFUSALS = set("Halted Malformed NotForMe NoKey BadTag Replayed PeersFull".split())
HEARD = set(
    "Up Held Relayed Answered Learned Reported Broken Carried Challenged Replied Keyed Took Done Noted Declined Left Activated "
    "Acked Bup Beacon Beaconed Path".split()
)
REFUSED = FRAME_REFUSALS | set(
    "Store BadUnit NoRoute HopsSpent NotBetter CostSpent RoutesFull NotAllowed NoSession SessionsFull NoRandom Form OtherSession BadMac "
    "BadChannel NoSuccess NotHeld BufferFull SeqSpent CounterSpent Blacklisted NotAwaited Old OriginsFull NotScanning Revisited PathLong".split()
)
# What each kind of line may be answered.
ANSWERS = {
    "coordinator": {"Made"},
    "meter": {"Made"},
    "depot": {"Joined"},
    "near": {"Set"},
    "counter": {"Set"},
    "number": {"Set"},
    "allow": set("Allowed Halted MetersFull Store".split()),
    "rekey": set("Drawn Halted IndexActive Store".split()),
    "challenge": set("Challenged Halted NotAllowed SessionsFull NoRandom WaitingFull SeqSpent CounterSpent Store".split()),
    "activate": set("Ordered Activated Halted NotAllowed NotIssued NotHeld WaitingFull SeqSpent CounterSpent Store".split()),
    "kick": set("Kicked Halted NotAllowed Store".split()),
    "rand": set("Given Halted RandomsFull".split()),
    "join": set("Asked NoAddress Halted AlreadyJoined".split()),
    "leave": set("Left Halted NotJoined Store".split()),
    "send": set("Sent Waiting NoAddress Halted NotJoined BadSize ToSelf WaitingFull SeqSpent CounterSpent Store".split()),
    "break": set("Broken NoAddress Halted".split()),
    "restart": {"Restarted"},
    "cut": {"Set"},
    "show": {"Shown"},
    "deliver": HEARD | REFUSED,
    "inject": HEARD | REFUSED,
    "lose": {"Lost"},
    "tick": {"Ticked"},
    "checks": {"Set"},
    "bcast": set("Sent Halted NotJoined BadSize NumberSpent CounterSpent Store".split()),
    "scan": set("Scanning Halted AlreadyJoined".split()),
    "choose": set("Asked Halted AlreadyJoined NoBeacon".split()),
    "path": set("Traced NoAddress Halted NotJoined ToSelf NoRoute CounterSpent Store".split()),
}
TABLE = {"route": 64, "peer": 64, "key": 2, "floor": 16}

Entry = collections.namedtuple("Entry", "number verdict word said")


def entries_of(report):
    """Returns the entries of a report, and its last line."""
    entries, last = [], ""
    for line in report:
        words = line.split()
        if words[0] in ("bad", "end"):
            last = line
        elif len(words) == 3 and words[1] in ("ok", "no"):
            entries.append(Entry(int(words[0]), words[1], words[2], []))
        else:
            entries[-1].said.append(words)
    return entries, last


def sealed_head(octets):
    """Returns target, sender and counter of a sealed frame, in hexadecimal and as a number; None of a plain one."""
    frame = bytes.fromhex(octets)
    if not frame[0] & 8:
        return None
    return frame[6:4:-1].hex(), frame[8:6:-1].hex(), int.from_bytes(frame[10:14], "little")


def has_loop(hops):
    """Whether someone comes back to where it was, by these next hops."""
    for start in hops:
        at, passed = start, set()
        while at in hops and at not in passed:
            passed.add(at)
            at = hops[at]
        if at in passed:
            return True
    return False


class Judge:
    """What is known of a run so far, and the promises that it broke."""

    def __init__(self, forging):
        self.broken, self.forging = [], forging
        self.sends, self.upped, self.ups = {}, set(), 0
        # The datagrams that each node sent to all, and of each that was handed up its octets.
        self.broadcasts, self.bupped, self.octets_by = collections.defaultdict(set), set(), {}
        self.octets_of, self.sent, self.accepted = {}, set(), collections.defaultdict(set)
        self.address_of, self.greatest = {}, {}
        # The keys that the coordinator may hold by index, those that it ever held, and those that each meter may hold.
        self.ring, self.stood, self.issued = collections.defaultdict(set), set(), collections.defaultdict(set)
        # The meters that may join, and of each that was kicked the keys that had stood in the ring up to then.
        self.allowed, self.barred = set(), {}
        self.took, self.done, self.forged = collections.Counter(), collections.Counter(), 0
        self.view = {}

    def ask(self, holds, *what):
        if not holds:
            self.broken.append(" ".join(map(str, what)))

    def rises(self, strictly, what, value):
        """A value that is looked at again and again never falls."""
        before = self.greatest.get(what)
        self.ask(before is None or before < value or before == value and not strictly, "fell:", what, before, value)
        self.greatest[what] = value

    def event(self, line, entry):
        words = line.split()
        self.ask(entry.word in ANSWERS[words[0]], "answer", line[:60], entry.word)
        self.keys_move(words, entry.word)
        if words[0] == "send" and entry.verdict == "ok":
            self.sends[len(self.sends) + 1] = (words[2], words[3].lower())
        if words[0] == "bcast" and entry.verdict == "ok":
            self.broadcasts[words[1]].add(words[2].lower())
        if words[0] in ("deliver", "inject"):
            self.came(words, entry)
        if words[0] != "show" and line != "break 0 0":
            self.view = {}
        self.ask(sum(said[0] == "fly" for said in entry.said) <= 24, "frames of one event", entry.number)
        for said in entry.said:
            getattr(self, "said_" + said[0])(entry, *said[1:])
        if words[0] == "show":
            self.shown(words[1], entry)

    def keys_move(self, words, answer):
        """Keeps which keys the coordinator may hold and may have issued. Where a write failed, the old and the new may be there."""
        kind = words[0]
        known = set().union(*self.ring.values())
        if kind == "coordinator":
            self.ring["0"] = {words[2].lower()}
        elif kind == "rekey" and answer in ("Drawn", "Store"):
            self.ring[words[1]] = {words[2].lower()} | (self.ring[words[1]] if answer == "Store" else set())
        elif kind == "depot" or kind == "allow" and answer in ("Allowed", "Store"):
            self.allowed.add(words[1])
            self.barred.pop(words[1], None)
            if kind == "depot":
                self.issued[words[1]] |= known
        elif kind == "kick" and answer == "Kicked":
            self.allowed.discard(words[1])
            self.barred[words[1]] = set(self.stood)
        elif kind in ("deliver", "inject") and answer in ("Keyed", "Store"):
            for meter in self.allowed:
                self.issued[meter] |= known
        self.stood |= set().union(*self.ring.values())

    def came(self, words, entry):
        """A node accepts a sealed frame once, and one that goes to a single node is accepted by one alone. Only what nobody sent is forged."""
        if words[0] == "deliver":
            self.ask(words[1] in self.octets_of, "a flight that nobody sent:", words[1])
            node, octets = words[2], self.octets_of.get(words[1], "00")
        else:
            node, octets = words[1], words[3].lower()
        head = sealed_head(octets)
        accepts = head and entry.word not in FRAME_REFUSALS | {"Store"}
        if self.forging and entry.word != "Store":
            forged = any(said[0] == "forged" for said in entry.said)
            self.ask(forged == bool(accepts and octets not in self.sent), "forged, or not:", entry.number)
        if accepts:
            earlier = self.accepted[octets]
            self.ask(node not in earlier, "accepted again at", node, "in event", entry.number)
            self.ask(head[0] == "ffff" or not earlier - {node} or self.forging, "accepted by two: event", entry.number)
            earlier.add(node)

    def said_fly(self, _, flight, node, octets):
        head = sealed_head(octets)
        self.octets_of[flight] = octets
        self.sent.add(octets)
        self.ask(len(octets) <= 800, "a frame of more than 400 octets: flight", flight)
        if head:
            self.ask(self.address_of.setdefault(head[1], node) == node, "one address, two nodes:", head[1])
            self.rises(True, ("counter sent by", node), head[2])

    def said_up(self, _, node, send, octets):
        self.ups += 1
        if self.forging:
            return
        self.ask(send not in self.upped, "handed up twice: send", send)
        self.upped.add(send)
        self.ask(self.sends.get(int(send)) == (node, octets), "handed up, but not sent so: send", send, "at", node)

    def said_bup(self, _, node, origin, number, octets):
        """A node hands a broadcast up once, over any restarts, and only what another node sent so before."""
        if self.forging:
            return
        self.ask((node, origin, number) not in self.bupped, "a broadcast handed up twice:", node, origin, number)
        self.bupped.add((node, origin, number))
        sender = self.address_of.get(origin)
        self.ask(sender != node and octets in self.broadcasts[sender], "a broadcast that nobody sent so:", node, origin, number)
        self.ask(self.octets_by.setdefault((origin, number), octets) == octets, "two broadcasts of one number:", origin, number)

    def said_agent(self, _, node, address, total):
        self.ask(address < "fffe" and int(total) <= 65535 + 255, "no agent:", node, address, total)

    def said_path(self, _, node, *walk):
        self.ask(2 <= len(walk) <= 16 and len(set(walk)) == len(walk), "no way:", node, *walk)
        if not self.forging:
            self.ask(self.address_of.get(walk[0]) == node, "a way from another node:", node, *walk)

    def said_forged(self, entry, *_):
        self.forged += 1
        self.ask(self.forging, "forged:", entry.number)

    def said_grant(self, _, node, address):
        self.ask(address != "0000" and self.address_of.setdefault(address, node) == node, "one address, two nodes:", address)

    def said_took(self, _, node):
        self.took[node] += 1

    def said_done(self, _, node):
        self.done[node] += 1
        self.ask(self.done[node] <= self.took[node], "done, but not taken:", node)

    def said_node(self, _, node, address, *rest):
        if address == "halted":
            return
        if address != "-":
            self.ask(self.address_of.setdefault(address, node) == node, "one address, two nodes:", address)
        for name, value in zip(("next counter", "own number"), rest[1:]):
            if value.isdigit():
                self.rises(False, (name, node), int(value))

    def said_key(self, *_):
        pass

    said_route = said_peer = said_floor = said_key

    def shown(self, node, entry):
        """What `show` says of a node: tables within their sizes, ranks and marks that never fall, issued keys, and no loop of routes."""
        rows = collections.defaultdict(list)
        for said in entry.said:
            rows[said[0]].append(said[1:])
        for name, size in TABLE.items():
            self.ask(len(rows[name]) <= size, "table past its size:", name, "of", node)
        for address, number, cost, _ in rows["route"]:
            self.rises(False, ("rank of", address, "at", node), (int(number), -int(cost)))
        for address, counter in rows["peer"]:
            self.rises(False, ("mark of", address, "at", node), int(counter))
        if self.forging:
            return
        for _, key in rows["key"]:
            known = set().union(*self.ring.values()) if node == "0" else self.issued[node] & self.barred.get(node, self.issued[node])
            self.ask(key in known, "a key that was not issued, at", node)
        self.view[node] = {address: hop for address, _, _, hop in rows["route"] if hop != "-"}
        for target in {address for routes in self.view.values() for address in routes}:
            hops = {at: self.address_of.get(routes[target]) for at, routes in self.view.items() if target in routes}
            self.ask(not has_loop(hops), "a loop of routes to", target)


def broken_promises(script, report, forging=False):
    """Returns what is wrong with a report of this script, in which somebody forges frames or nobody does."""
    events = [line for line in script if line and not line.startswith("#")]
    entries, last = entries_of(report)
    judge = Judge(forging)
    judge.ask([entry.number for entry in entries] == list(range(1, len(entries) + 1)), "events are not numbered from 1")
    for line, entry in zip(events, entries):
        judge.event(line, entry)
    words = last.split()
    if words[:1] == ["end"]:
        counts = [len(events), len(judge.octets_of), len(judge.sends), judge.ups, judge.forged]
        judge.ask(words[1:] == list(map(str, counts)), "counts:", last, counts)
    else:
        judge.ask(words[:1] == ["bad"] and words[2:] == ["flight"], "last line:", last)
    return judge.broken
