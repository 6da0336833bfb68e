#!/usr/bin/env python3
"""Writes what is played on a target, by two proved programs: calls of meters and of coordinators with their answers, what these nodes then have stored, and
sealed frames.

    tools/plain_rust/vectors.py LINE_REPLAY METER_HOST FOLDER      the paths of the programs; it writes vectors.json and vectors.bin

The nodes are those of examples/, where each line is a call of a node, or brings it one. What a meter is asked, answers and stores is taken from meter_host
(tools/meter_host/played.py), and its frames are those of line_replay's report. What a coordinator is asked and answers is taken from the report. What it has
stored follows from what `show` says of it after a restart, and from what its book was told, by docs/FORMATS.md, "Store"; the same is done of each meter, and
has to be what meter_host gave to be stored. Each frame is sealed again by .ci/sealing.py, apart from both programs.
"""
import json
import os
import re
import struct
import subprocess
import sys

sys.dont_write_bytecode = True
TOP = os.path.dirname(os.path.dirname(os.path.dirname(os.path.abspath(__file__))))
sys.path[:0] = [f"{TOP}/tools/meter_host", f"{TOP}/.ci"]
import played  # noqa: E402
from sealing import Aes, payload_of, sealed  # noqa: E402

# The calls of a coordinator alone, and what it answers beside frames and datagrams.
OPEN_COORDINATOR, ALLOW, DEPOT, REKEY, CHALLENGE, ACTIVATE, ACTIVATE_SELF, KICK = range(0x20, 0x28)
ALLOWED, GRANTED, GIVEN_OUT = 0x85, 0x86, 0x87
# The parts of vectors.bin.
FRAME, NODE, STARTS, STORED, LAST = range(0x30, 0x35)
COORDINATOR = "Halted MetersFull NotAllowed IndexActive NotHeld NotIssued SessionsFull NoRandom WaitingFull SeqSpent CounterSpent Store"
REFUSALS = {**played.REFUSALS, **dict.fromkeys(range(ALLOW, KICK + 1), COORDINATOR)}
SETUP = {"coordinator", "meter", "depot", "near"}
LONGEST_WHOLE = 375


class Shown:
    """What `show` says of a node."""

    def __init__(self, lines):
        self.address, self.active, counter, number = lines[0][2:]
        self.counter, self.number = int(counter), int(number)
        self.keys = {int(it[1]): bytes.fromhex(it[2]) for it in lines if it[0] == "key"}
        self.ranks = {int(it[1], 16): (int(it[2]), int(it[3])) for it in lines if it[0] == "route"}
        self.peers = {int(it[1], 16): int(it[2]) for it in lines if it[0] == "peer"}
        self.floors = {int(it[1]): int(it[2]) for it in lines if it[0] == "floor"}


class Stores:
    """What the nodes of a script have stored at its end, by what line_replay shows of them after each line, and after a restart."""

    def __init__(self, program, lines):
        self.count = sum(it[0] in ("coordinator", "meter") for it in lines)
        self.ranks, self.peers = ([[] for _ in range(self.count)] for _ in range(2))
        self.tags, self.had_ring = [0] * self.count, [False] * self.count
        self.last = [None] * self.count
        self.addresses = {0: 0}
        for words in lines:
            if words[0] == "depot":
                self.addresses[int(words[1])] = len(self.addresses)
            elif words[0] == "near":
                self.is_near(int(words[1]), int(words[2]))
        script, asked = [], []
        for words in lines:
            script.append(" ".join(words))
            asked.append(words)
            if words[0] not in SETUP:
                script += self.shows(asked)
        script += [f"restart {node}" for node in range(self.count)]
        asked += [["restart"]] * self.count
        script += self.shows(asked)
        done = subprocess.run([program, "replay", "-q"], input="\n".join(script) + "\n", capture_output=True, text=True, check=False)
        # 6: a frame is forged, as some examples show.
        if done.returncode not in (0, 6):
            raise ValueError(f"line_replay ended with {done.returncode}: {done.stdout[-200:]}")
        self.follow(asked, blocks_of(done.stdout))

    def shows(self, asked):
        asked += [["show", str(node)] for node in range(self.count)]
        return [f"show {node}" for node in range(self.count)]

    def is_near(self, one, other):
        self.ranks[one].append(self.addresses[other])
        self.ranks[other].append(self.addresses[one])

    def follow(self, asked, blocks):
        """Takes note of the order in which ranks and senders come, which is that of their slots."""
        for words, block in zip(asked, blocks):
            if words[0] == "send" and block[0][1] == "ok" and len(words[3]) > 2 * LONGEST_WHOLE:
                self.tags[int(words[1])] += 1
            if words[0] != "show":
                continue
            node, shown = int(words[1]), Shown(block[1:])
            for known, found in ((self.ranks[node], shown.ranks), (self.peers[node], shown.peers)):
                new = [it for it in found if it not in known]
                if len(new) > 1:
                    raise ValueError(f"node {node} has more than one new entry after {words}")
                known += new
            self.had_ring[node] |= shown.address != "-"
            self.last[node] = shown

    def of(self, node):
        """The records of a node, without those of a book."""
        shown, records = self.last[node], {}
        if self.had_ring[node]:
            held = b"".join(bytes([index in shown.keys]) + shown.keys.get(index, bytes(16)) for index in (0, 1))
            joined = shown.address != "-"
            records[1] = bytes([1]) + bytes.fromhex(shown.address) + bytes([int(shown.active)]) + held if joined else bytes(38)
        # A limit of 0, an own number of 1 and a tag of 0 are those of an empty slot.
        records |= {2: struct.pack(">I", shown.counter)} if shown.counter else {}
        records |= {3: struct.pack(">H", shown.number)} if shown.number > 1 else {}
        records |= {4: struct.pack(">H", self.tags[node])} if self.tags[node] else {}
        records |= {5: b"".join(struct.pack(">H", shown.floors.get(it, 0)) for it in range(16))} if shown.floors else {}
        records |= {0x100 + at: struct.pack(">HI", it, shown.peers[it]) for at, it in enumerate(self.peers[node])}
        records |= {0x200 + at: struct.pack(">HHH", it, *shown.ranks[it]) for at, it in enumerate(self.ranks[node])}
        return records


def blocks_of(report):
    """The lines of a report by its events."""
    blocks = []
    for words in map(str.split, report.splitlines()):
        if words[0].isdecimal():
            blocks.append([])
        if blocks:
            blocks[-1].append(words)
    return blocks


class Book:
    """What a coordinator was told of meters, and which keys it issued to them."""

    def __init__(self):
        self.entries, self.held = {}, {}

    def allow(self, eui, psk):
        """Enters a meter, and says which address it has."""
        entry = self.entries.setdefault(eui, {"address": len(self.entries) + 1, "issued": {}})
        entry |= {"psk": psk, "allowed": True}
        return entry["address"]

    def issue(self, eui):
        self.entries[eui]["issued"] = dict(self.held)

    def kick(self, eui):
        self.entries[eui] |= {"allowed": False, "issued": {}}

    def records(self):
        made = {}
        for at, (eui, it) in enumerate(self.entries.items()):
            held = b"".join(bytes([index in it["issued"]]) + it["issued"].get(index, bytes(16)) for index in (0, 1))
            made[0x1000 + at] = eui + it["psk"] + struct.pack(">HB", it["address"], it["allowed"]) + held
        return made


class Play(played.Play):
    """A script whose meters meter_host holds, and whose coordinator is that of the report."""

    def __init__(self, line_replay, meter_host, name):
        super().__init__(meter_host, name)
        self.line_replay, self.book, self.asked, self.senders, self.keys = line_replay, Book(), [], [None], []
        self.eui = self.active = self.first = None

    def event(self, words, report):
        super().event(words, report)
        if words[0] == "send" and report[0][1] == "ok":
            self.senders.append(int(words[1]))
        if words[0] == "restart" and words[1] == "0":
            self.asked.append("starts")
            self.ask(OPEN_COORDINATOR, self.eui + self.first, report)
        for kind, octets in self.of_coordinator(words):
            self.ask(kind, octets, report)
        if report[0][1] == "ok":
            self.take_note(words, report[0][2])

    def of_coordinator(self, words):
        """The calls of the coordinator that a line is."""
        kind, given, now = words[0], words[1:], struct.pack(">Q", self.now)
        if kind == "coordinator":
            self.eui, self.first = map(bytes.fromhex, given)
            self.keys.append(self.first)
            self.asked.append("starts")
            return [(OPEN_COORDINATOR, self.eui + self.first)]
        if kind == "tick":
            return [(played.TIME, now)]
        if kind in ("depot", "allow"):
            meter = self.meters[int(given[0])]
            return [(DEPOT if kind == "depot" else ALLOW, meter.eui + meter.psk)]
        if kind == "rekey":
            self.keys.append(bytes.fromhex(given[1]))
            return [(REKEY, bytes([int(given[0])]) + self.keys[-1])]
        if kind == "activate" and given[0] == "0":
            return [(ACTIVATE_SELF, bytes([int(given[1])]))]
        if kind in ("challenge", "kick", "activate"):
            eui = self.meters[int(given[0])].eui
            more = {"challenge": now, "kick": b"", "activate": bytes([int(given[-1])]) + now}
            return [({"challenge": CHALLENGE, "kick": KICK, "activate": ACTIVATE}[kind], eui + more[kind])]
        return [(it, octets) for node, it, octets in self.calls(words) if node == 0]

    def ask(self, kind, octets, report):
        """Takes down a call of the coordinator, with what it answered by the report."""
        items = [[GIVEN_OUT, it[3]] for it in report if it[0] == "fly" and it[2] == "0"]
        for _, _, number, datagram in (it for it in report if it[:2] == ["up", "0"]):
            sender = self.addresses[self.senders[int(number)]]
            items.append([played.UP, struct.pack(">HI", sender, 1).hex() + datagram])
        if kind == ALLOW:
            items += [[ALLOWED, it[2]] for it in report if it[0] == "grant"]
        elif kind == DEPOT:
            address = len(self.book.entries) + 1
            items.append([GRANTED, (struct.pack(">HB", address, self.active) + self.book.held[self.active]).hex()])
        call = {"in": [kind, octets.hex()], "out": items}
        if report[0][1] == "no":
            call["refusal"] = report[0][2]
        items.append([played.ENDED, f"01{REFUSALS[kind].split().index(call['refusal']) + 1:02x}" if "refusal" in call else "00"])
        self.asked.append(call)

    def take_note(self, words, answer):
        """What a line that was not refused does to the book and the keys of the coordinator."""
        meter = self.meters[int(words[1])] if words[0] in ("depot", "allow", "kick") else None
        if words[0] == "coordinator":
            self.book.held[0], self.active = self.first, 0
        elif words[0] in ("depot", "allow"):
            self.book.allow(meter.eui, meter.psk)
            if words[0] == "depot":
                self.book.issue(meter.eui)
        elif words[0] == "rekey":
            self.book.held[int(words[1])] = bytes.fromhex(words[2])
        elif words[0] == "activate" and words[1] == "0":
            self.active = int(words[2])
        elif words[0] == "kick":
            self.book.kick(meter.eui)
        elif answer == "Keyed":
            self.book.issue(self.joining(bytes.fromhex(self.flights[int(words[1])])))

    def joining(self, frame):
        """The meter whose JOIN a frame carries."""
        if (opened := opening(self.keys, frame)) is None:
            payload = frame[15:]
        else:
            payload = opened[1]
        found = [it.eui for it in self.meters[1:] if b"\2\1" + it.eui in payload]
        if len(found) != 1:
            raise ValueError(f"{self.name}: a frame carries the JOIN of {len(found)} meters")
        return found[0]

    def written(self):
        """All nodes with their calls and their records."""
        stores = Stores(self.line_replay, self.lines)
        for number, meter in enumerate(self.meters[1:], 1):
            if stores.of(number) != meter.records:
                raise ValueError(f"{self.name}: meter {number} has stored {meter.records}, and not {stores.of(number)}")
        records = in_words(stores.of(0) | self.book.records())
        coordinator = {"eui": self.eui.hex(), "key": self.first.hex(), "calls": self.asked, "records": records}
        return {"example": self.name, "coordinator": coordinator, "meters": [it.written() for it in self.meters[1:]]}


def in_words(records):
    return {f"{slot:04x}": it.hex() for slot, it in sorted(records.items())}


def opening(keys, frame):
    """The key and the payload of a sealed frame, None where none of the keys seals it."""
    if frame[9] != 0x0D:
        return None
    for key in keys:
        aes = Aes(key)
        payload = payload_of(aes, frame)
        if sealed(aes, frame[:15], payload) == frame:
            return key, payload
    return None


def frames(plays):
    """One sealed frame of each length, to one node and to all, with its key and its payload."""
    found = {}
    for play in plays:
        for octets in play.flights.values():
            frame = bytes.fromhex(octets)
            place = len(frame), frame[5:7] == b"\xff\xff"
            if place in found or (opened := opening(play.keys, frame)) is None:
                continue
            found[place] = {"key": opened[0].hex(), "payload": opened[1].hex(), "frame": octets}
    return [it for _, it in sorted(found.items())]


def item(kind, octets):
    return struct.pack(">BH", kind, len(octets)) + octets


def in_octets(known, plays):
    """The same as items, for a target: the frames, then each node with its calls, each before its answer, and its records."""
    made, calls, nodes = [], 0, 0
    for it in known:
        key, payload, frame = (bytes.fromhex(it[name]) for name in ("key", "payload", "frame"))
        made.append(item(FRAME, key + struct.pack(">H", len(payload)) + payload + frame))
    for play in plays:
        for role, node in [(1, play["coordinator"]), *((0, it) for it in play["meters"])]:
            made.append(item(NODE, bytes([role]) + play["example"].encode()))
            nodes += 1
            for call in node["calls"]:
                if call == "starts":
                    made.append(item(STARTS, b""))
                    continue
                calls += 1
                made.append(item(call["in"][0], bytes.fromhex(call["in"][1])))
                for kind, octets in call["out"][:-1]:
                    made.append(item(kind, bytes.fromhex(octets)))
                ended = bytes.fromhex(call["out"][-1][1]).ljust(2, b"\0")
                made.append(item(played.ENDED, ended + call.get("refusal", "").encode()))
            made.append(item(STORED, struct.pack(">H", len(node["records"]))))
            made += [item(played.RECORD, struct.pack(">I", int(slot, 16)) + bytes.fromhex(it)) for slot, it in node["records"].items()]
    made.append(item(LAST, struct.pack(">HHI", len(known), nodes, calls)))
    return b"".join(made), nodes, calls


def main(line_replay, meter_host, folder):
    """Writes both files."""
    names = sorted(it[:-7] for it in os.listdir(f"{TOP}/examples") if it.endswith(".script"))
    plays = [it for it in (Play(line_replay, meter_host, name) for name in names) if not played.BEYOND & {words[0] for words in it.lines}]
    for play in plays:
        play.run()
    known, written = frames(plays), [it.written() for it in plays]
    with open(f"{folder}/vectors.json", "w", encoding="utf-8") as file:
        json.dump({"frames": known, "plays": written}, file, indent=1)
        file.write("\n")
    octets, nodes, calls = in_octets(known, written)
    with open(f"{folder}/vectors.bin", "wb") as file:
        file.write(octets)
    print(f"{len(known)} frames, {calls} calls of {nodes} nodes in {len(plays)} examples")


if __name__ == "__main__":
    if len(sys.argv) != 4 or not all(re.search("/", it) for it in sys.argv[1:3]):
        sys.exit(__doc__)
    main(*sys.argv[1:])
