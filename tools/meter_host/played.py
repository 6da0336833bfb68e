#!/usr/bin/env python3
"""Has the program meter_host play the meters of examples/, by its items alone, and compares it with what line_replay reported of them.

    tools/meter_host/played.py METER_HOST [EXAMPLE..]    the path of the program, and examples by name; else all whose lines are calls of a meter

Each meter of the script is a program of its own, and gets what the script's lines bring to it: a grant of the workshop, a neighbour, a random value, to
join, to send, a frame. The coordinator is that of the report: its frames are taken from there. What a meter sends has to be its flights of the report,
to the octet, so line_replay's coordinator would answer it as it did; and how each call ended, that it joined with this address, and what it handed up
have to be what the report says. It is the owner's side in Python, with the format of docs/FORMATS.md, "Calls of a meter and their answers".
"""
import os
import re
import struct
import subprocess
import sys

TOP = os.path.dirname(os.path.dirname(os.path.dirname(os.path.abspath(__file__))))
# Lines that bring a meter to do what is no call of meter_host.
BEYOND = {"bcast", "path", "scan", "choose", "checks", "cut", "counter", "number"}
LOAD, OPEN, GRANT, NEIGHBOUR, RANDOM, JOIN, LEAVE, TIME, SEND, FRAME, BROKE, VERSION = range(1, 13)
ENDED, RECORD, SENT, UP, JOINED = range(0x80, 0x85)
# The refusals of a call, from 1 on (docs/FORMATS.md).
REFUSALS = {
    NEIGHBOUR: "NotBetter RoutesFull Store",
    RANDOM: "Halted RandomsFull",
    JOIN: "Halted AlreadyJoined",
    LEAVE: "Halted NotJoined Store",
    SEND: "Halted NotJoined BadSize ToSelf WaitingFull SeqSpent CounterSpent Store",
    FRAME: "Halted Malformed NotForMe NoKey BadTag Replayed PeersFull Store BadUnit NoRoute HopsSpent NotBetter CostSpent RoutesFull NotAllowed NoSession"
           " SessionsFull NoRandom Form OtherSession BadMac BadChannel NoSuccess NotHeld BufferFull SeqSpent CounterSpent Store",
}


class Wrong(Exception):
    """The meter did something else than the report says."""


class Answer:
    """The answer to a call."""

    def __init__(self):
        self.frames, self.up, self.joined, self.status, self.refusal = [], None, None, None, None


class Meter:
    """A meter that meter_host holds, with its store."""

    def __init__(self, program, eui, psk):
        self.program, self.eui, self.psk, self.records, self.tool, self.calls = program, eui, psk, {}, None, []
        self.start()

    def start(self):
        """Starts it over what it stored."""
        self.end()
        self.calls.append("starts")
        self.tool = subprocess.Popen([self.program], stdin=subprocess.PIPE, stdout=subprocess.PIPE)
        if self.call(VERSION, struct.pack(">H", 1)).status != 0:
            sys.exit(f"{self.program} does not speak version 1 of the items")
        for slot, octets in sorted(self.records.items()):
            self.call(LOAD, struct.pack(">I", slot) + octets)
        self.call(OPEN, self.eui + self.psk)

    def end(self):
        """Ends the program, as a loss of power does."""
        if self.tool:
            self.tool.kill()
            self.tool.communicate()

    def item(self):
        """The next item of an answer."""
        kind, count = struct.unpack(">BH", self.tool.stdout.read(3))
        return kind, self.tool.stdout.read(count)

    def call(self, kind, octets=b""):
        """Makes a call, stores what it gives, and returns the rest of its answer."""
        self.tool.stdin.write(struct.pack(">BH", kind, len(octets)) + octets)
        self.tool.stdin.flush()
        answer, items = Answer(), []
        while answer.status is None:
            it, given = self.item()
            items.append([it, given.hex()])
            if it == RECORD:
                self.records[struct.unpack(">I", given[:4])[0]] = given[4:]
            elif it == SENT:
                answer.frames.append(given[4:].hex())
            elif it == UP:
                answer.up = given[6:].hex()
            elif it == JOINED:
                answer.joined = given.hex()
            else:
                answer.status = given[0]
                if answer.status == 1:
                    answer.refusal = REFUSALS[kind].split()[given[1] - 1]
        if kind not in (LOAD, VERSION):
            named = {"refusal": answer.refusal} if answer.refusal else {}
            self.calls.append({"in": [kind, octets.hex()], "out": items, **named})
        return answer

    def written(self):
        """What it was asked, answered and stored."""
        records = {f"{slot:04x}": it.hex() for slot, it in sorted(self.records.items())}
        return {"eui": self.eui.hex(), "psk": self.psk.hex(), "calls": self.calls, "records": records}


class Play:
    """A script with its report, whose meters the program holds."""

    def __init__(self, program, name):
        self.program, self.name, self.meters, self.addresses, self.flights, self.now, self.seen = program, name, [None], {0: 0}, {}, 0, set()
        with open(f"{TOP}/examples/{name}.script", encoding="utf-8") as file:
            self.lines = [it.split() for it in file if it.strip() and not it.startswith("#")]
        with open(f"{TOP}/examples/{name}.frames.report", encoding="utf-8") as file:
            self.reported = [[]]
            for words in map(str.split, file):
                if words[0].isdecimal():
                    self.reported.append([])
                self.reported[-1].append(words)
        self.key = None

    def calls(self, words):
        """The calls that a line is: the node, the kind, and the octets."""
        kind, given, at = words[0], words[1:], struct.pack(">Q", self.now)
        number = int(given[0]) if given and given[0].isdecimal() else None
        if kind == "depot":
            return [(number, GRANT, struct.pack(">HB", self.addresses[number], 0) + self.key)]
        if kind == "near":
            pair = number, int(given[1])
            return [(one, NEIGHBOUR, struct.pack(">HB", self.addresses[other], int(given[2])) + at) for one, other in (pair, pair[::-1])]
        if kind == "rand":
            return [(number, RANDOM, bytes.fromhex(given[1]))]
        if kind == "join":
            return [(number, JOIN, struct.pack(">H", self.addresses[int(given[1])]) + at)]
        if kind == "send":
            return [(number, SEND, struct.pack(">HI", self.addresses[int(given[1])], 1) + at + bytes.fromhex(given[2]))]
        if kind == "deliver":
            return [(int(given[1]), FRAME, struct.pack(">BI", int(given[2]), 1) + at + bytes.fromhex(self.flights[number]))]
        if kind == "inject":
            return [(number, FRAME, struct.pack(">BI", int(given[1]), 1) + at + bytes.fromhex(given[2]))]
        if kind == "leave":
            return [(number, LEAVE, b"")]
        if kind == "break":
            return [(number, BROKE, struct.pack(">H", self.addresses[int(given[1])]))]
        if kind == "tick":
            return [(node, TIME, at) for node in range(1, len(self.meters))]
        return []

    def before(self, words):
        """What a line is beside calls."""
        if words[0] == "coordinator":
            self.key = bytes.fromhex(words[2])
        elif words[0] == "meter":
            self.meters.append(Meter(self.program, bytes.fromhex(words[1]), bytes.fromhex(words[2])))
        elif words[0] in ("depot", "allow"):
            self.addresses.setdefault(int(words[1]), len(self.addresses))
        elif words[0] == "tick":
            self.now += int(words[1])
        elif words[0] == "restart" and words[1] != "0":
            self.meters[int(words[1])].start()

    def event(self, words, report):
        """Plays a line, and compares."""
        self.before(words)
        frames, ups, joined = [], [], []
        for node, kind, octets in self.calls(words):
            if node == 0:
                continue
            answer = self.meters[node].call(kind, octets)
            ended = report[0][2] if report[0][1] == "no" else None
            if answer.refusal != ended or answer.status not in (0, 1):
                raise Wrong(f"node {node} ended with {answer.status} {answer.refusal}")
            frames += [[str(node), it] for it in answer.frames]
            ups += [[str(node), answer.up]] if answer.up is not None else []
            joined += [[str(node), answer.joined]] if answer.joined is not None else []
        flights = [it for it in report if it[0] == "fly"]
        self.flights |= {int(number): octets for _, number, _, octets in flights}
        self.same("frames", frames, [it[2:] for it in flights if it[2] != "0"])
        self.same("handed up", ups, [[it[1], it[3]] for it in report if it[0] == "up" and it[1] != "0"])
        self.same("joined", joined, [[it[1], f"{self.addresses[int(it[1])]:04x}"] for it in report if it[0] == "took"])
        self.seen |= {"join"} if joined else set()
        self.seen |= {"up"} if [it for it in report if it[0] == "up"] else set()

    @staticmethod
    def same(what, found, wanted):
        """That a part of an answer is what the report says."""
        if found != wanted:
            raise Wrong(f"{what}: {found}, and not {wanted}")

    def run(self):
        """Plays all lines."""
        for number, words in enumerate(self.lines, 1):
            try:
                self.event(words, self.reported[number])
            except Wrong as wrong:
                sys.exit(f"{' '.join(words)} (event {number}): {wrong}")
        for meter in self.meters[1:]:
            meter.end()


def main(program, *names):
    """Plays the examples."""
    known = sorted(it[:-7] for it in os.listdir(f"{TOP}/examples") if it.endswith(".script"))
    plays = [play for play in (Play(program, name) for name in names or known) if not BEYOND & {it[0] for it in play.lines}]
    for play in plays:
        play.run()
    seen = {it: sum(it in play.seen for play in plays) for it in ("join", "up")}
    meters, lines = sum(len(it.meters) - 1 for it in plays), sum(len(it.lines) for it in plays)
    print(f"meter_host: {meters} meters played {len(plays)} examples, {lines} lines, as line_replay reported them: in {seen['join']} a meter joined, "
          f"in {seen['up']} a datagram arrived")


if __name__ == "__main__":
    if len(sys.argv) < 2 or not re.search("/", sys.argv[1]):
        sys.exit(__doc__)
    main(*sys.argv[1:])
