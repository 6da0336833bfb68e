"""What became of all that was asked of a line, by its script and the full report: where each datagram came, ended or is, which joinings, orders and path
requests were done, and what a route request reached. It opens frames with the keys of the script, and shares nothing with the programs.

What a report does not say, and what is not known here: which rank or route a node keeps; its marks after a restart, which are at least the greatest counter
that it accepted; whether the mark was written where a node answered Store, so that the frame may come again. A run in which somebody forges frames is followed
as if nobody did.
"""
import collections
import dataclasses

import sealing
from safe_run import FRAME_REFUSALS, entries_of

REASSEMBLY, WAITING, SESSION = 60, 30, 120
# What ends a datagram at a node that accepted its frame.
ENDS = set("NoRoute HopsSpent CounterSpent BufferFull Reported BadUnit".split())
SEALED, PLAIN = 8, 15


@dataclasses.dataclass
class Flight:
    """A frame that flew. `target` is a short address, an EUI in hexadecimal, or None for all; `unit` what it carries, as far as it is read."""

    number: int
    event: int
    node: int
    octets: str
    target: object
    sender: object = None
    counter: object = None
    unit: dict = dataclasses.field(default_factory=dict)
    heard: list = dataclasses.field(default_factory=list)
    lost: object = None
    taken: object = None

    def first_hearing(self):
        return self.heard[0] if self.heard else None


@dataclasses.dataclass
class Place:
    """Where a piece of a datagram is, or how it ended: `kind` is flies, waits, held, came, or ended with its word."""

    kind: str
    event: int
    node: int = None
    flight: int = None
    word: str = None
    clock: int = 0
    held: object = None


def unit_of(payload):
    """What the first octets of a payload say."""
    unit = {"kind": "other"}
    if payload and payload[0] & 0xF0 == 0xB0:
        long = payload[0] == 0xBF
        unit["hops"] = payload[1] if long else payload[0] & 15
        payload = payload[2 if long else 1 :]
        unit["origin"], unit["final"] = payload[:2].hex(), payload[2:4].hex()
        payload = payload[4:]
    if payload[:1] == b"\x41":
        unit |= {"kind": "data", "place": 0, "begin": payload[1:]}
    elif payload[:1] and payload[0] >> 3 == 0x18:
        unit |= {"kind": "data", "place": 0, "size": int.from_bytes(payload[:2], "big") & 0x7FF, "tag": payload[2:4].hex(), "begin": payload[5:]}
    elif payload[:1] and payload[0] >> 3 == 0x1C:
        unit |= {"kind": "data", "place": 8 * payload[4], "size": int.from_bytes(payload[:2], "big") & 0x7FF, "tag": payload[2:4].hex(), "begin": b""}
    elif payload[:2] == b"\x40\x01" and payload[2:3] in (b"\1", b"\2"):
        names = ("request", "origin", "sought") if payload[2] == 1 else ("reply", "origin", "to")
        unit |= {"kind": names[0], "number": payload[3:5].hex(), names[1]: payload[7:9].hex(), names[2]: payload[9:11].hex()}
    elif payload[:2] == b"\x40\x02":
        unit |= {"kind": "joining", "code": payload[2], "eui": payload[3:11].hex()}
    elif payload[:2] == b"\x40\x05":
        unit |= {"kind": "path"}
    return unit


def tag_fits(aes, frame):
    return sealing.sealed(aes, frame[:15], sealing.payload_of(aes, frame)) == frame


class Keys:
    """The group keys that the script has, by index, the newest last."""

    def __init__(self):
        self.by_index = collections.defaultdict(list)

    def add(self, index, key):
        self.by_index[index].append(sealing.Aes(bytes.fromhex(key)))

    def payload(self, frame):
        """The first octets of a sealed frame's payload: enough for the headers and for two dozen octets of a datagram."""
        keys = self.by_index[frame[14]][::-1]
        fitting = keys if len(keys) == 1 else [it for it in keys if tag_fits(it, frame)]
        if not fitting:
            return b""
        text = frame[15:-4][:32]
        return sealing.masked(fitting[0], sealing.nonce_of(frame[:15]), text)[: len(text)]


def flight_of(number, event, node, octets, keys):
    frame = bytes.fromhex(octets)
    if frame[0] & 7 != 1:
        return Flight(number, event, node, octets, None)
    if frame[0] & SEALED:
        target = frame[6:4:-1].hex()
        unit = unit_of(keys.payload(frame))
        unit["length"] = len(frame)
        return Flight(number, event, node, octets, None if target == "ffff" else target, frame[8:6:-1].hex(), int.from_bytes(frame[10:14], "little"), unit)
    is_down = frame[1] & 0x0C == 0x0C
    target = frame[12:4:-1].hex() if is_down else frame[6:4:-1].hex()
    return Flight(number, event, node, octets, None if target == "ffff" else target, unit=unit_of(frame[PLAIN:]))


class Send:
    """A datagram: who sent it to whom at which event and second, its octets, and its pieces by their place; a body that waits is the piece None."""

    def __init__(self, number, event, clock, words):
        self.number, self.event, self.clock, self.node, self.to, self.octets = number, event, clock, int(words[1]), int(words[2]), bytes.fromhex(words[3])
        self.came, self.pieces, self.ways, self.request = None, {}, collections.defaultdict(list), None

    def begins(self, unit):
        return self.octets[: len(unit["begin"])] == unit["begin"] and unit.get("size", len(self.octets)) == len(self.octets)


class Truth:
    """A run, followed from event to event."""

    def __init__(self, script, report):
        self.entries, _ = entries_of(report)
        self.lines = [(number, it) for number, it in enumerate(script, 1) if it and not it.startswith("#")]
        self.keys, self.clock, self.names = Keys(), 0, []
        self.home, self.eui = {}, {}
        self.flights, self.by_octets, self.sends, self.refused = {}, {}, {}, set()
        # The greatest counter that each node accepted of each sender.
        self.marks = collections.defaultdict(lambda: -1)
        # The datagrams that wait, those that wait or have pieces gathered, and the last request of each node for each address.
        self.bodies, self.kept, self.requests = [], {}, {}
        self.dones, self.tooks, self.paths, self.obeyed = [], [], [], []
        self.sessions, self.ended_sessions, self.orders = {}, [], []
        self.waiting_joinings, self.left_joinings, self.answers, self.forged = [], set(), {}, set()
        for entry, (_, line) in zip(self.entries, self.lines):
            self.event(entry, line.split())

    # What there is

    def address(self, node):
        return next((it for it, at in self.home.items() if at == node), None)

    def addressee(self, flight):
        if flight.target is None:
            return None
        return self.home.get(flight.target) if len(flight.target) == 4 else self.eui.get(flight.target)

    def newcomer(self, node):
        if node not in self.home.values():
            self.home[f"{len(self.home):04x}"] = node

    # One event

    def event(self, entry, words):
        number, kind = entry.number, words[0]
        self.answers[number] = (entry.verdict, entry.word, words)
        made = [it for it in entry.said if it[0] == "fly"]
        self.set_up(words, entry)
        if kind in ("deliver", "inject"):
            node = int(words[2] if kind == "deliver" else words[1])
        elif kind in ("allow", "rekey", "challenge", "activate", "kick", "tick", "lose"):
            node = 0
        else:
            node = int(words[1]) if len(words) > 1 and words[1].isdigit() else None
        new = [flight_of(int(it[1]), number, int(it[2]), it[3], self.keys) for it in made]
        for it in new:
            self.flights[it.number] = it
            # Plain frames may be equal: then nobody knows whose octets an `inject` has.
            self.by_octets[it.octets] = it if it.octets not in self.by_octets else None
            if it.unit.get("kind") == "request" and it.unit["origin"] == self.address(it.node):
                self.requests[it.node, it.unit["sought"]] = it
        for said in entry.said:
            self.said(number, said)
        if kind == "tick" and entry.verdict == "ok":
            self.clock += int(words[1])
            self.time_passes(number)
        if kind == "send":
            self.send(number, entry, words, new)
        elif kind == "lose" and int(words[1]) in self.flights:
            self.lose(number, self.flights[int(words[1])])
        elif kind in ("deliver", "inject"):
            self.hears(number, node, entry, words, new)
        else:
            self.leaves(number, node, new)
        self.joins(number, node, entry, words, new)
        if kind == "restart" or entry.word == "Left" and kind in ("leave", "deliver", "inject") or entry.word == "Store":
            self.node_ends(number, node, {"restart": "restart"}.get(kind, entry.word))

    def set_up(self, words, entry):
        if words[0] in ("coordinator", "meter"):
            node = len(self.names)
            self.names.append(node)
            self.eui[words[1].lower()] = node
            if words[0] == "coordinator":
                self.keys.add(0, words[2])
                self.home["0000"] = node
        elif words[0] == "rekey" and entry.word in ("Drawn", "Store"):
            self.keys.add(int(words[1]), words[2])
        elif words[0] == "depot":
            self.newcomer(int(words[1]))

    def said(self, number, said):
        if said[0] == "grant":
            self.home.setdefault(said[2], int(said[1]))
        elif said[0] == "up" and int(said[2]) in self.sends and self.sends[int(said[2])].came is None:
            self.sends[int(said[2])].came = number
        elif said[0] == "done":
            self.dones.append((number, int(said[1])))
        elif said[0] == "took":
            self.tooks.append((number, int(said[1])))
        elif said[0] == "path":
            self.paths.append((number, int(said[1])))
        elif said[0] == "forged":
            self.forged.add(number)

    # Datagrams

    def send(self, number, entry, words, new):
        if entry.verdict != "ok":
            self.refused.add(number)
            self.leaves(number, int(words[1]), new)
            return
        it = self.sends[len(self.sends) + 1] = Send(len(self.sends) + 1, number, self.clock, words)
        if entry.word == "Waiting":
            it.pieces[None] = Place("waits", number, it.node, clock=self.clock)
            self.bodies.append(it)
            self.kept[it.number] = it
            it.request = self.requests.get((it.node, self.address(it.to)))
        else:
            self.flies(it, new, number)

    def flies(self, send, flights, number):
        """The pieces of a datagram leave its sender."""
        send.pieces.pop(None, None)
        for flight in flights:
            if flight.unit.get("kind") == "data":
                flight.unit["send"] = send
                send.pieces[flight.unit["place"]] = Place("flies", number, flight.node, flight.number)
                send.ways[flight.unit["place"]].append(flight.number)

    def leaves(self, number, node, new):
        """Datagrams that waited leave: the first that waits with these octets for that address."""
        data = [it for it in new if it.unit.get("kind") == "data" and "send" not in it.unit]
        while data:
            first = data[0]
            same = [it for it in data if it.unit.get("tag") == first.unit.get("tag")] if "tag" in first.unit else [first]
            data = [it for it in data if it not in same]
            for send in self.bodies:
                if send.node == node and self.address(send.to) == first.unit["final"] and send.begins(first.unit):
                    self.bodies.remove(send)
                    self.flies(send, same, number)
                    break

    def lose(self, number, flight):
        if flight.taken is None and flight.lost is None:
            flight.lost = number
            self.piece_becomes(flight, Place("ended", number, flight=flight.number, word="Lost"))

    def piece_becomes(self, flight, place):
        send = flight.unit.get("send")
        if send and send.pieces.get(flight.unit["place"]) is not None:
            send.pieces[flight.unit["place"]] = place

    def hears(self, number, node, entry, words, new):
        """A node hears a frame of the run, brought to it by a delivery or by the same octets."""
        flight = self.flights.get(int(words[1])) if words[0] == "deliver" else self.by_octets.get(words[3].lower())
        if flight is None:
            self.leaves(number, node, new)
            return
        is_for = flight.target is None or self.addressee(flight) == node
        if is_for:
            flight.heard.append((number, node, entry.word, words[0]))
        accepted = entry.word not in FRAME_REFUSALS | {"Store"}
        if accepted and flight.counter is not None:
            self.marks[node, flight.sender] = max(self.marks[node, flight.sender], flight.counter)
        if entry.verdict == "ok" and is_for and flight.taken is None:
            flight.taken = number
        if is_for and flight.unit.get("kind") == "data" and accepted:
            self.datagram_goes(number, node, entry, flight, new)
        elif is_for and entry.word == "Store":
            self.piece_becomes(flight, Place("ended", number, node, flight.number, "Store"))
        self.leaves(number, node, new)

    def datagram_goes(self, number, node, entry, flight, new):
        if entry.word == "Relayed":
            on = next((it for it in new if it.unit.get("kind") == "data" and it.unit["place"] == flight.unit["place"] and "send" not in it.unit), None)
            if on and flight.unit.get("send"):
                on.unit["send"] = flight.unit["send"]
                flight.unit["send"].ways[flight.unit["place"]].append(on.number)
                self.piece_becomes(flight, Place("flies", number, node, on.number))
        elif entry.word == "Held":
            send = flight.unit.get("send")
            begun = [it.clock for it in send.pieces.values() if it and it.kind == "held" and it.node == node] if send else []
            if send:
                self.kept[send.number] = send
            self.piece_becomes(flight, Place("held", number, node, flight.number, clock=min([self.clock, *begun]), held=number))
        elif entry.word == "Up":
            self.piece_becomes(flight, Place("came", number, node, flight.number))
        elif entry.word in ENDS:
            self.piece_becomes(flight, Place("ended", number, node, flight.number, entry.word))

    def node_ends(self, number, node, word):
        """All that a node gathered and all that waited at it ends."""
        for send in self.kept.values():
            for place, it in send.pieces.items():
                if it.kind in ("held", "waits") and it.node == node:
                    send.pieces[place] = Place("ended", number, node, it.flight, word, held=it.held or it.kind)
        self.bodies = [it for it in self.bodies if it.node != node]
        self.waiting_joinings = [it for it in self.waiting_joinings if it[0] != node]
        self.sessions = {it: begun for it, begun in self.sessions.items() if it[0] != node}

    def time_passes(self, number):
        self.kept = {it.number: it for it in self.kept.values() if any(at.kind in ("held", "waits") for at in it.pieces.values())}
        for send in self.kept.values():
            for place, it in send.pieces.items():
                if it.kind == "held" and self.clock - it.clock >= REASSEMBLY or it.kind == "waits" and self.clock - it.clock >= WAITING:
                    send.pieces[place] = Place("ended", number, it.node, it.flight, "tick", held=it.held or it.kind)
        self.bodies = [it for it in self.bodies if None in it.pieces and it.pieces[None].kind == "waits"]
        self.waiting_joinings = [it for it in self.waiting_joinings if self.clock - it[3] < WAITING]
        for key, begun in list(self.sessions.items()):
            if self.clock - begun >= SESSION:
                self.ended_sessions.append((number, key[1]))
                del self.sessions[key]

    # Joinings and orders

    def about(self, words):
        """The meter that a joining message or an order of this event is about."""
        kind = words[0]
        source = self.flights.get(int(words[1])) if kind == "deliver" else None
        if kind == "inject" and len(words[3]) >= 2 * PLAIN:
            source = flight_of(0, 0, 0, words[3].lower(), self.keys)
        if source is not None:
            return self.eui.get(source.unit["eui"]) if source.unit.get("kind") == "joining" else None
        return int(words[1]) if kind in ("join", "choose", "challenge", "activate", "kick", "allow") else None

    def joins(self, number, node, entry, words, new):
        """Sessions of either end, what ends joinings and orders, and joining messages that wait for a route."""
        kind, word, meter = words[0], entry.word, self.about(words)
        if word in ("Asked", "Replied"):
            self.sessions["meter", meter] = self.clock
        elif word == "Challenged":
            self.sessions[0, meter] = self.clock
        elif word in ("Took", "Declined") and node == meter:
            self.sessions.pop(("meter", meter), None)
        elif word in ("Done", "Kicked"):
            self.sessions.pop((0, meter), None)
        if word in ("Activated", "Left") and kind in ("deliver", "inject"):
            self.obeyed.append((number, node))
        if kind in ("activate", "kick") and entry.verdict == "ok" and meter != 0:
            self.orders.append((number, meter))
        if kind in ("restart", "leave") and entry.verdict == "ok":
            self.sessions.pop(("meter", node), None)
        makes = word in ("Challenged", "Replied", "Keyed", "Took", "Done", "Carried", "Ordered") and meter is not None
        self.messages(number, node, meter if makes else None, [self.eui.get(it.unit["eui"]) for it in new if it.unit.get("kind") == "joining"])

    def messages(self, number, node, maker, made):
        """A message about a meter that an event made waits where no flight of the event has it; the first that waits of others leaves."""
        if maker is not None and maker not in made:
            self.waiting_joinings.append((node, maker, number, self.clock))
        for meter in made:
            waiting = next((it for it in self.waiting_joinings if it[:2] == (node, meter)), None)
            if meter != maker and waiting:
                self.waiting_joinings.remove(waiting)
                self.left_joinings.add(waiting[1:3])

    # What a request reached

    def of_kind(self, kind):
        return [it for it in self.flights.values() if it.unit.get("kind") == kind]

    def request_of(self, send, until):
        """Of the route request that a datagram waited for, up to an event: its flights, the nodes that took it, where it was answered, and the replies."""
        if send.request is None:
            return None
        first = send.request.unit
        flood = [it for it in self.of_kind("request") if (it.unit["origin"], it.unit["number"]) == (first["origin"], first["number"])]
        hearings = [it for flight in flood for it in flight.heard if it[0] <= until]
        heard = sorted({node for _, node, word, _ in hearings if word in ("Relayed", "Answered")})
        answered = {event for event, _, word, _ in hearings if word == "Answered"}
        replies = [it for it in self.of_kind("reply") if (it.unit["to"], it.unit["origin"]) == (first["origin"], first["sought"])]
        replies = [it for it in replies if min(answered) <= it.event <= until] if answered else []
        return flood, heard, answered, replies
