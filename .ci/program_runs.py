"""Runs of the program line_replay: how it is built, a run over an input, a run that is asked line by line, and what is to be found in them."""
import contextlib
import glob
import hashlib
import os
import re
import shutil
import subprocess
import sys
import tempfile
import time

from safe_run import broken_promises

TOP = os.path.dirname(os.path.dirname(os.path.abspath(__file__)))
KEPT = f"{TOP}/target/hostile"
# The allocation that fails, in the program as it is built: its number stands twice in the code, and is changed there.
NEVER = 0x5EEDFACE
SECONDS = 300

STATUS = {"Fine": 0, "BadScript": 1, "Usage": 2, "Memory": 3, "ReadFault": 4, "WriteFault": 5, "Forged": 6}


class Part:
    """The cases of a part and what they found."""

    def __init__(self, name):
        self.name, self.cases, self.found, self.begun = name, 0, 0, time.time()
        # How many frames were tried by themselves.
        self.alone = 0
        for it in glob.glob(f"{KEPT}/{name}.*.script"):
            os.remove(it)

    def case(self, holds, what, script=()):
        self.cases += 1
        if not holds:
            self.finding(what, script)

    def finding(self, what, script=()):
        self.found += 1
        print(f"FOUND in {self.name}: {what}", flush=True)
        if script:
            path = f"{KEPT}/{self.name}.{self.found}.script"
            with open(path, "w", encoding="utf-8") as it:
                it.writelines(f"{line}\n" for line in script)
            print(f"    the script: {path}", flush=True)

    def end(self):
        spent = time.time() - self.begun
        row = re.search(rf"^\| `{self.name}` \| ([\d,]+) \|", open(f"{TOP}/docs/MEASUREMENTS.md", encoding="utf-8").read(), re.M)
        before = int(row[1].replace(",", "")) if row else self.cases
        note = "" if before == self.cases else f" docs/MEASUREMENTS.md has {before:,} cases"
        print(f"| `{self.name}` | {self.cases:,} | {self.found} | {spent:.0f} s |{note}", flush=True)
        return self.found == 0


def sources():
    """Returns a sum of all that the program is made from."""
    total = hashlib.sha256()
    for at, folders, files in sorted(os.walk(f"{TOP}/crates")):
        folders[:] = [it for it in folders if it != "out"]
        for file in sorted(files):
            if file.endswith(".rt"):
                total.update(f"{at}/{file}\n".encode() + open(f"{at}/{file}", "rb").read())
    return total.hexdigest()


def built():
    """Compiles the program, unproved, and takes it while `rt try` runs it. Returns its octets."""
    stamp, program = f"{KEPT}/sources", f"{KEPT}/line_replay"
    now = sources()
    if not os.path.exists(program) or not os.path.exists(stamp) or open(stamp, encoding="ascii").read() != now:
        os.makedirs(KEPT, exist_ok=True)
        with contextlib.suppress(FileNotFoundError):
            os.remove(program)
        with tempfile.TemporaryDirectory() as folder:
            words = ["rt", "try", "--fail-alloc", str(NEVER), "--", "drill", "60"]
            how = {"cwd": f"{TOP}/crates/line_replay", "env": {**os.environ, "TMPDIR": folder}, "stdin": subprocess.DEVNULL}
            tool = subprocess.Popen(words, stdout=subprocess.PIPE, stderr=subprocess.STDOUT, **how)
            while tool.poll() is None and not running_in(folder, program):
                time.sleep(0.05)
            log = tool.communicate()[0].decode(errors="replace")
        if not os.path.exists(program):
            sys.exit(f"the program was not found while `rt try` ran it:\n{log}")
        with open(stamp, "w", encoding="ascii") as it:
            it.write(now)
    with open(program, "rb") as it:
        return it.read()


def running_in(folder, program):
    """Copies the program that runs below a folder of `rt try`, with its output beside it. Returns whether there is one."""
    for at, _, files in os.walk(folder):
        if "program" in files and "stdout" in files:
            with contextlib.suppress(OSError):
                shutil.copy(f"{at}/program", f"{program}.new")
                os.rename(f"{program}.new", program)
                return True
    return False


# The program that is run, except where an allocation is to fail.
PROGRAM = os.path.abspath(os.environ.get("LINE_REPLAY", f"{KEPT}/line_replay"))


class Ran:
    """What a run came to."""

    def __init__(self, words, octets=b"", program=None, **how):
        if "stdin" not in how:
            how["input"] = octets
        how.setdefault("stdout", subprocess.PIPE)
        try:
            ran = subprocess.run([program or PROGRAM, *words], stderr=subprocess.PIPE, timeout=SECONDS, check=False, **how)
        except subprocess.TimeoutExpired:
            self.status, self.out, self.err, self.lines = None, b"", b"no end", []
            return
        self.status, self.out, self.err = ran.returncode, ran.stdout or b"", ran.stderr
        self.lines = self.out.decode(errors="replace").splitlines()

    def says(self):
        return f"status {self.status} {self.err[:300].decode(errors='replace')}"

    def ended(self, *names):
        """Whether the run ended with one of these statuses, and the program's checks had nothing to say."""
        return not self.err and self.status in [STATUS[it] for it in names]


def example(name):
    with open(f"{TOP}/examples/{name}.script", "rb") as it:
        return it.read()


def text(lines):
    return "".join(f"{line}\n" for line in lines).encode()


# Scenarios: what is set up, who hears whom, and what is done. After each of its lines all flights are brought to who hears them.

MAKE = ["coordinator 0000000000000001 000102030405060708090a0b0c0d0e0f"] + [
    f"meter {number + 1:016x} {16 * number:02x}{number:030x}" for number in range(1, 6)
]
RANDOM = [f"{number:032x}" for number in range(1, 9)]
LONG = "5a" * 800


class Scenario:
    def __init__(self, meters, joined, links, lines, near=(), more=()):
        self.setup = MAKE[: meters + 1] + [f"depot {meter}" for meter in joined] + [f"near {a} {b} {1 + (a + b) % 7}" for a, b in near]
        self.setup += more
        self.hears = {node: sorted({a + b - node for a, b in links if node in (a, b)}) for node in range(meters + 1)}
        self.lines = lines


SCENARIOS = {
    "discovery": Scenario(4, [1, 2, 3, 4], [(1, 2), (1, 3), (2, 4), (3, 4)], ["send 1 4 aa01", "send 4 1 aa02", "break 1 2", "send 1 4 aa03"]),
    "pieces": Scenario(3, [1, 2, 3], [(1, 2), (2, 3)], [f"send 1 3 {LONG}", "send 3 1 bb01", f"send 1 2 {'66' * 400}"]),
    "an error": Scenario(3, [1, 2, 3], [(1, 2), (2, 3)], ["send 1 3 dd01", "break 2 3", "send 1 3 dd02", "send 1 3 dd03"]),
    "over the air": Scenario(
        1, [], [(0, 1)], ["join 1 0", "allow 1", f"rand 0 {RANDOM[0]}", f"rand 1 {RANDOM[1]}", "join 1 0", "send 1 0 cc01", "leave 1"]
    ),
    "by an agent": Scenario(
        2, [1], [(0, 1), (1, 2)], ["allow 2", f"rand 0 {RANDOM[0]}", f"rand 2 {RANDOM[1]}", "join 2 1", "send 2 0 cc02", "send 0 2 cc03"]
    ),
    "rotation and kick": Scenario(
        2,
        [1, 2],
        [(0, 1), (0, 2)],
        ["rekey 1 " + "30" * 16, f"rand 0 {RANDOM[0]}", f"rand 1 {RANDOM[1]}", "challenge 1", "activate 1 1", "activate 0 1"]
        + ["send 1 0 ee01", "kick 2", "rekey 0 " + "40" * 16, "send 2 0 ee02", "join 2 0", "send 0 1 ee03"],
        [(0, 1), (0, 2)],
    ),
    "checks": Scenario(
        3, [1, 2, 3], [(1, 2), (2, 3)], ["send 1 3 ff01", "tick 2", "send 3 1 ff02", "tick 300", "send 1 3 ff03"], more=["checks"]
    ),
    "broadcasts": Scenario(4, [1, 2, 3, 4], [(0, 1), (1, 2), (2, 3), (3, 4), (1, 3)], ["bcast 0 ab01", "bcast 4 ab02", "bcast 0 ab03"]),
    "a scan": Scenario(
        3,
        [1, 2],
        [(0, 1), (0, 2), (1, 3), (2, 3)],
        ["allow 3", f"rand 0 {RANDOM[0]}", f"rand 3 {RANDOM[1]}", "scan 3", "choose 3 1", "send 3 0 ac01"],
        [(0, 1), (0, 2)],
    ),
    "paths": Scenario(3, [1, 2, 3], [(0, 1), (1, 2), (2, 3)], ["send 0 3 ad01", "path 0 3", "path 3 0", "break 1 2", "path 0 3"]),
}


class Over(Exception):
    """The program ended."""


class Line:
    """A run of `replay` that is given one line after the other. What a line led to is there as soon as the next one is answered."""

    # This line changes nothing. It is said after each, so that its answer tells where the answer before ends.
    MARK = "break 0 0"

    def __init__(self, scenario):
        self.errors = tempfile.TemporaryFile()
        self.tool = subprocess.Popen([PROGRAM, "replay"], stdin=subprocess.PIPE, stdout=subprocess.PIPE, stderr=self.errors, text=True)
        self.script, self.report, self.events, self.wrong = [], [], 0, []
        self.flights, self.drained, self.hears = [], 0, scenario.hears
        self.say(*scenario.setup, mark=False)

    def say(self, *lines, mark=True):
        """Says lines, and returns the lines of the report about them."""
        if mark:
            lines = [*lines, self.MARK]
        self.script += lines
        self.events += len(lines)
        try:
            self.tool.stdin.writelines(f"{line}\n" for line in lines)
            self.tool.stdin.flush()
        except BrokenPipeError:
            raise Over from None
        heard, last = [], f"{self.events} "
        while not heard or not heard[-1].startswith(last):
            line = self.tool.stdout.readline().rstrip("\n")
            if not line:
                raise Over
            heard.append(line)
            if line.startswith("fly "):
                self.flights.append(line.split()[2:])
        self.report += heard
        return heard[:-1] if mark else heard

    @contextlib.contextmanager
    def judged(self, part, what, forging=False):
        """Judges the report of a run once all was said, or the program has ended before."""
        with contextlib.suppress(Over):
            yield
        rest = ""
        with contextlib.suppress(BrokenPipeError):
            rest = self.tool.communicate(timeout=SECONDS)[0]
        self.tool.wait(SECONDS)
        self.errors.seek(0)
        err = self.errors.read()
        self.errors.close()
        self.report += rest.splitlines()
        wrong = self.wrong + broken_promises(self.script, self.report, forging)
        if err or self.tool.returncode not in ((0, STATUS["Forged"]) if forging else (0,)):
            wrong.append(f"status {self.tool.returncode} {err[:300]}")
        part.case(not wrong, f"{what}: {'; '.join(wrong[:4])}", self.script)

    def drop(self):
        """Ends a run that nothing is asked of."""
        self.tool.kill()
        self.tool.communicate()
        self.errors.close()

    def steps(self, lines):
        """Gives lines one by one, each followed by the deliveries of all flights that are then under way."""
        for line in lines:
            yield line
            while self.drained < len(self.flights):
                flight = self.drained
                self.drained += 1
                sender = int(self.flights[flight][0])
                for node in self.hears[sender]:
                    yield f"deliver {flight + 1} {node} {1 + (sender + node) % 7}"

    def repeat_all(self):
        """Brings each flight to each node once more, and shows all nodes."""
        nodes = range(len(self.hears))
        self.say(*[f"deliver {flight + 1} {node} 1" for flight in range(len(self.flights)) for node in nodes])
        self.say(*[f"show {node}" for node in nodes])
