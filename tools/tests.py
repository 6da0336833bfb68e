"""Tests of the tools, on texts that are written here: python3 tools/tests.py. LINE_REPLAY names the program, as .ci/rows takes it."""
import hashlib
import importlib.machinery
import importlib.util
import os
import re
import shutil
import subprocess
import tempfile
import unittest

TOP = os.path.dirname(os.path.dirname(os.path.abspath(__file__)))
NODES = ["coordinator 0000000000000001 000102030405060708090a0b0c0d0e0f", "meter 0000000000000002 000102030405060708090a0b0c0d0e0f"]


def ran(*words, text="", **settings):
    """Runs a command. Returns its status and what it wrote to both outputs."""
    how = {"stdout": subprocess.PIPE, "stderr": subprocess.PIPE, "env": {**os.environ, **settings}}
    done = subprocess.run([f"{TOP}/{words[0]}", *words[1:]], input=text.encode("utf-8", "surrogateescape"), check=False, **how)
    return done.returncode, done.stdout.decode("utf-8", "surrogateescape"), done.stderr.decode("utf-8", "replace")


def setUpModule():
    """What a first call says is none of what is looked at."""
    for name in Program.NAMES:
        subprocess.run([f"{TOP}/{name}", "--where"], stdout=subprocess.DEVNULL, check=True)


class Deliveries(unittest.TestCase):
    def bad(self, lines, said, ending="\n"):
        status, _, errors = ran("tools/deliveries", text="".join(it + ending for it in lines))
        self.assertEqual((status, errors.count("\n")), (1, 1), errors)
        self.assertNotIn("Traceback", errors)
        self.assertIn(said, errors)

    def test_a_sketch_gets_its_deliveries(self):
        with open(f"{TOP}/examples/two_meters.script", encoding="utf-8") as file:
            script = file.read().split("\n")
        sketch = [it for it in script if not it.startswith("deliver ")]
        nodes = max(at for at, it in enumerate(sketch) if it.startswith(("coordinator", "meter")))
        sketch[nodes + 1 : nodes + 1] = ["hears 1 2 3"]
        status, written, errors = ran("tools/deliveries", text="\n".join(sketch))
        self.assertEqual((status, errors), (0, ""))
        self.assertEqual([it for it in written.split("\n") if it.startswith("deliver")], [it for it in script if it.startswith("deliver")])

    def test_a_remark_of_an_event_stays_before_its_deliveries(self):
        remark = "#@ 0.000 try node=1 reading=1 k=1"
        sketch = [*NODES, "depot 1", "hears 0 1 1", "send 1 0 48", remark, "# of the next line", "tick 1", ""]
        status, written, errors = ran("tools/deliveries", text="\n".join(sketch))
        self.assertEqual((status, errors), (0, ""))
        lines = written.split("\n")
        at = lines.index("send 1 0 48")
        self.assertEqual(lines[at + 1], remark)
        self.assertTrue(lines[at + 2].startswith("deliver "), lines[at + 2])
        self.assertEqual(lines[-3:], ["# of the next line", "tick 1", ""])

    def test_a_bad_link_is_named_with_its_line(self):
        self.bad([*NODES, "hears 0 x 1"], "line 3 of the sketch: `x` is no number")
        self.bad([*NODES, "hears 0 1"], "line 3 of the sketch: the form is `hears <node> <node> <cost>`")
        self.bad([*NODES, "hears 0 1 0"], "line 3 of the sketch: a cost is 1 to 255")
        self.bad([*NODES, "deaf 1 1"], "line 3 of the sketch: node 1")
        self.bad([*NODES, "hears 0 9 1"], "line 3 of the sketch: there is no node 9: nodes are 0 to 1 here")
        self.bad(["hears 0 9 1", *NODES, "tick 1"], "line 1 of the sketch: there is no node 9")
        self.bad([*NODES, "tick 1", "", "hears 2 1 1"], "line 5 of the sketch: there is no node 2")

    def test_a_link_may_stand_before_its_nodes(self):
        self.assertEqual(ran("tools/deliveries", text="\n".join(["hears 0 1 1", *NODES, "tick 1", ""]))[::2], (0, ""))

    def test_a_bad_line_is_named_with_its_line(self):
        self.bad(["# a remark", *NODES, "hears 0 1 1", "sned 0 1 00"], "line 5 of the sketch: line_replay does not take it: form")
        self.bad([*NODES, "# \udcff", "tick 1 \udcff"], "line 4 of the sketch: line_replay does not take it: form")

    def test_carriage_returns_are_named(self):
        self.bad(NODES, "line 1 of the sketch: it ends with a carriage return (CRLF", ending="\r\n")

    def test_a_program_that_is_not_there_is_named(self):
        status, _, errors = ran("tools/deliveries", text="tick 1\n", LINE_REPLAY="/nowhere/line_replay")
        self.assertEqual(status, 1)
        self.assertIn("/nowhere/line_replay", errors)
        self.assertNotIn("Traceback", errors)


class FromCsv(unittest.TestCase):
    MAPPING = """zone = "+01:00"
[log]
time = "time"
meter = "meter"
event = "event"
detail = "detail"
[words]
read = "reading"
lost = "unread"
off = "power off"
on = "power on"
up = "joins"
"moved *" = { is = "parent", detail = 'to (?P<node>\\S+) at (?P<lqi>\\d+)' }
[coordinator]
names = ["DCU"]
"""
    HEAD = "time,meter,event,detail\n"
    READ = "2026-11-29 01:00:00,A,read,17\n"

    def made(self, log, mapping=MAPPING, words=(), **others):
        """Runs it over files of these texts. Returns its status, the lines that it wrote, and its errors with the folder taken out."""
        with tempfile.TemporaryDirectory() as room:
            for name, text in {"map.toml": mapping, "log.csv": log, **others}.items():
                with open(f"{room}/{name}", "wb") as file:
                    file.write(text if isinstance(text, bytes) else text.encode())
            status, written, errors = ran("tools/from_csv", f"{room}/map.toml", f"{room}/log.csv", *words)
            return status, written.split("\n")[:-1], errors.replace(f"{room}/", "")

    def lines(self, *made, **others):
        """What it writes of a log, without comments."""
        status, written, errors = self.made(*made, **others)
        self.assertEqual(status, 0, errors)
        return [it for it in written if not it.startswith("#")]

    def bad(self, said, *made, **others):
        status, written, errors = self.made(*made, **others)
        self.assertEqual((status, written), (1, []), errors)
        self.assertNotIn("Traceback", errors)
        self.assertIn(said, errors)

    def test_a_log_becomes_a_sketch_that_plays(self):
        status, written, errors = self.made(self.HEAD + self.READ + "2026-11-29 01:02:00,A,lost,\n")
        self.assertEqual(status, 0)
        self.assertIn("#@ clock 2026-11-29T01:00:00+01:00", written)
        self.assertIn("#@ name 1 A", written)
        self.assertIn("tick 120", written)
        for at, second in ((1, 0), (2, 120)):
            send = [it for it, line in enumerate(written) if line.startswith("send 1 0 ")][at - 1]
            self.assertEqual(written[send + 1], f"#@ {second}.000 try node=1 reading={at} k=1")
        told = [it[len("from_csv: - ") :] for it in errors.split("\n") if it.startswith("from_csv: - ")]
        self.assertEqual([f"# - {it}" for it in told], written[-len(told) :])
        self.assertTrue(any("hear each other: nothing says who hears whom" in it for it in told))
        self.assertTrue(any("a meter whose reading did not come sent it all the same" in it for it in told))
        self.assertEqual(ran("tools/deliveries", text="\n".join(written) + "\n")[::2], (0, ""))

    def test_the_same_log_gives_the_same_sketch(self):
        self.assertEqual(self.made(self.HEAD + self.READ), self.made(self.HEAD + self.READ))

    def test_joining_links_and_power(self):
        log = self.HEAD + "2026-11-29 01:00:00,A,moved over,to DCU at 200\n2026-11-29 01:00:01,B,up,\n2026-11-29 01:00:02,B,moved over,to A at 9\n"
        log += "2026-11-29 01:00:03,B,moved over,to DCU at 200\n2026-11-29 01:00:04,A,off,\n2026-11-29 01:00:05,A,on,\n"
        lines = [it.rsplit(" ", 1)[0] if it.startswith(("rand", "coord", "meter")) else it for it in self.lines(log)]
        kept = ["depot 1", "hears 0 1 1", "hears 1 2 1", "allow 2", "rand 0", "rand 2", "join 2 1", "tick 2", "break 2 1", "deaf 2 1", "hears 2 0 1"]
        self.assertEqual(lines[3:], [*kept, "tick 1", "deaf 1 0", "tick 1", "restart 1", "hears 1 0 1"])

    def test_a_reading_may_be_unheard_or_left_out(self):
        log = self.HEAD + "2026-11-29 01:00:00,A,lost,\n"
        unheard = self.lines(log, self.MAPPING + "[assume]\nunread = 'unheard'\n")
        self.assertEqual([it.split()[0] for it in unheard], ["coordinator", "meter", "depot", "hears", "deaf", "send", "hears"])
        self.assertEqual(len(self.lines(log, self.MAPPING + "[assume]\nunread = 'left out'\n")), 4)
        self.assertIn("#@ 0.000 try node=1 reading=1 k=1", self.made(log, self.MAPPING + "[assume]\nunread = 'left out'\n")[1])

    def test_costs_follow_from_lqi(self):
        links = "[links]\nfile = 'links.csv'\nlqi = 'lqi'\n[costs]\nlqi = [[200, 1], [100, 4]]\n"
        table = {"links.csv": "meter,parent,lqi\nA,DCU,255\nB,A,100\n"}
        self.assertEqual([it for it in self.lines(self.HEAD + self.READ, self.MAPPING + links, **table) if it[0] == "h"], ["hears 0 1 1", "hears 1 2 4"])
        table["links.csv"] += "C,A,99\n"
        self.bad("links.csv:4:3: the table [costs] lqi ends at 100", self.HEAD + self.READ, self.MAPPING + links, **table)

    def test_a_part_of_the_time(self):
        log = self.HEAD + self.READ + "2026-11-29 02:00:00,A,read,18\n2026-11-29 03:00:00,A,read,19\n"
        lines = self.lines(log, words=["--from", "2026-11-29 01:30", "--to", "2026-11-29T01:30:00+00:00"])
        self.assertEqual(len([it for it in lines if it.startswith("send")]), 1)

    def test_rows_out_of_order_and_an_hour_that_is_there_twice(self):
        log = self.HEAD + "2026-10-25 02:50:00,A,read,1\n2026-10-25 02:10:00,A,read,2\n2026-10-25 03:00:00,A,read,3\n"
        self.assertEqual([it for it in self.lines(log) if it.startswith("tick")], ["tick 2400", "tick 600"])
        vienna = self.lines(log, self.MAPPING.replace("+01:00", "Europe/Vienna"))
        self.assertEqual([it for it in vienna if it.startswith("tick")], ["tick 1200", "tick 3000"])

    def test_what_is_wrong_with_a_log_has_its_place(self):
        self.bad("log.csv:3:1: `29.11.` is no time", self.HEAD + self.READ + "29.11.,A,read,1\n")
        self.bad("log.csv:2:3: [words] of the mapping has no `reed`", self.HEAD + self.READ.replace("read", "reed"))
        self.bad("log.csv:2:2: no meter is named here", self.HEAD + self.READ.replace(",A,", ",,"))
        self.bad("log.csv:2:2: `reading` is of a meter", self.HEAD + self.READ.replace(",A,", ",DCU,"))
        self.bad("log.csv:3: 3 fields, and the first row has 4", self.HEAD + self.READ + "2026-11-29 01:00:00,A,read\n")
        self.bad("log.csv:2:4: `over` has not the form of", self.HEAD + self.READ.replace("read,17", "moved up,over"))
        self.bad("log.csv:2: no CSV from here on", self.HEAD + '2026-11-29 01:00:00,A,"read,17\n')
        self.bad("log.csv:2:4: octets that are no utf-8", (self.HEAD + self.READ).encode().replace(b"17", b"\xe4"))
        self.bad("log.csv:1: it is empty", "")
        self.bad("log.csv: no row became an event", self.HEAD)
        self.bad("log.csv:1: 2 columns are called `event`", self.HEAD.replace("detail", "event"))
        self.bad("log.csv:1: no column is called `time`", "Time;meter;event;detail\n")
        self.bad("log.csv:3: more than a year", self.HEAD + self.READ + self.READ.replace("2026", "1970"))
        self.bad("log.csv:1001:2: `M1000` is meter 1000", self.HEAD + "".join(self.READ.replace("A", f"M{it}") for it in range(1, 1001)))
        self.bad("and 5 more", self.HEAD + self.READ.replace("read", "reed") * 25)

    def test_what_is_wrong_with_a_mapping_has_its_place(self):
        for said, old, new in (
            ("map.toml:1:8: ", 'zone = "+01:00"', "zone = +"),
            ("map.toml:1:1: `Nowhere/There` is no zone", "+01:00", "Nowhere/There"),
            ("map.toml:3:1: no key of [log] is called `tim`; did you mean `time`?", 'time = "time"', 'tim = "time"'),
            ("map.toml:2:1: [log] has to name the column of the time", 'time = "time"\n', ""),
            ("map.toml:8:1: a word is one of: reading,", '"reading"', '"redding"'),
            ("map.toml:13:1: the pattern of the detail has no meaning", "(?P<node>", "(?P<node"),
            ("map.toml:14:1: no table or key is called `coordinators`", "[coordinator]", "[coordinators]"),
            ("map.toml:15:1: `names` is a list", '["DCU"]', '"DCU"'),
            ("map.toml:17:1: `eui` has 16 hexadecimal digits", '["DCU"]', '["DCU"]\n[meters]\nA = { eui = "12" }'),
            ("map.toml:3:1: unknown encoding: latin-77", 'time = "time"', 'encoding = "latin-77"\ntime = "time"'),
            ("log.csv: it is no utf-16", 'time = "time"', 'encoding = "utf-16"\ntime = "time"'),
        ):
            self.assertIn(old, self.MAPPING)
            self.bad(said, self.HEAD + self.READ, self.MAPPING.replace(old, new))

    def test_files_that_are_not_there_and_other_words(self):
        status, _, errors = ran("tools/from_csv", "/nowhere/map.toml", "/nowhere/log.csv")
        self.assertEqual((status, errors), (1, "from_csv: /nowhere/map.toml: No such file or directory\n"))
        self.assertEqual(ran("tools/from_csv", "one")[0], 2)


class Program(unittest.TestCase):
    NAMES = ("line_replay", "line_view", "line_sim")

    def test_help_says_what_the_words_mean(self):
        for name in self.NAMES:
            for word in ("--help", "help", "-h"):
                status, said, errors = ran(name, word)
                self.assertEqual((status, errors), (0, ""), name)
                self.assertTrue(said.startswith(f"usage: {name} "), said)
                self.assertIn("statuses: 0 all went well", said)

    def test_a_file_as_a_word_gets_a_hint(self):
        with tempfile.NamedTemporaryFile() as file:
            for name, word in (("line_replay", "replay"), ("line_view", "explain"), ("line_sim", "run")):
                for words, command in (([word, file.name], word), ([file.name], None)):
                    status, _, errors = ran(name, *words)
                    self.assertEqual(status, 2)
                    self.assertIn("the input comes by standard input", errors)
                    self.assertIn(f"./{name} {command or ''}", errors)

    def test_each_status_has_a_line(self):
        for name, word in (("line_replay", "replay"), ("line_view", "check"), ("line_sim", "run")):
            for status, shell in ((1, f"echo nonsense | ./{name} {word}"), (2, f"./{name} nonsense"), (4, f"./{name} {word} < /"), (4, f"./{name} {word} <&-"),
                                  (5, f"./{name} nonsense >/dev/full"), (5, f"./{name} nonsense >&-")):
                done = subprocess.run(["bash", "-c", shell], cwd=TOP, stdout=subprocess.PIPE, stderr=subprocess.PIPE, text=True, check=False)
                self.assertEqual(done.returncode, status, shell)
                said = [it for it in done.stderr.split("\n") if it]
                self.assertIn("no command: " if status == 2 else f"{name}: status {status}", said[-1])

    def test_a_status_stays_where_nobody_hears_its_line(self):
        for shell, status in (("./line_replay nonsense 2>&-", 2), ("./line_replay replay < / 2>/dev/full", 4), ("./line_replay vectors 2>&-", 0)):
            self.assertEqual(subprocess.run(["bash", "-c", shell], cwd=TOP, stdout=subprocess.DEVNULL, check=False).returncode, status, shell)

    def test_a_run_that_is_full_says_when(self):
        text = '[place]\nkind = "street"\nmeters = 150\n'
        words = ["--set", 'readings.every="15m"', "--set", 'readings.from="1h"']
        with tempfile.NamedTemporaryFile() as file:
            how = {"cwd": TOP, "input": text, "stderr": subprocess.PIPE, "text": True, "check": False}
            for command in ("run", "measure"):
                file.truncate(0)
                with open(file.name, "w", encoding="utf-8") as output:
                    done = subprocess.run(["./line_sim", command, *words], stdout=output, **how)
                self.assertEqual(done.returncode, 7)
                self.assertRegex(done.stderr, r"^line_sim: status 7: the run was full before its time, at \d+:\d\d:\d\d of the line's clock")
            done = subprocess.run(["./line_sim", "measure", *words], stdout=subprocess.PIPE, **how)
            self.assertRegex(done.stderr, r"^line_sim: status 7: the run was full before its time \(")

    def test_without_the_toolchain_proving_says_what_it_needs(self):
        how = {"cwd": TOP, "env": {**os.environ, "PATH": "/usr/bin:/bin"}, "capture_output": True, "text": True, "check": False}
        if shutil.which("rt", path=how["env"]["PATH"]) or os.path.exists(f"{TOP}/crates/line_replay/out/line_replay"):
            self.skipTest("the toolchain is there, or a proved program")
        done = subprocess.run(["./line_replay", "--prove"], **how)
        self.assertEqual((done.returncode, done.stdout, done.stderr.count("\n")), (70, "", 1), done.stderr)
        self.assertIn("proving needs rt, the command of the toolchain", done.stderr)

    def test_a_signal_reaches_the_program(self):
        with subprocess.Popen([f"{TOP}/line_replay", "replay"], stdin=subprocess.PIPE, stdout=subprocess.PIPE, stderr=subprocess.PIPE) as tool:
            tool.stdin.write(b"coordinator 0000000000000001 000102030405060708090a0b0c0d0e0f\n")
            tool.stdin.flush()
            tool.stdout.readline()
            tool.terminate()
            self.assertEqual(tool.wait(10), 143)
            self.assertIn(b"ended by signal 15", tool.stderr.read())


class Dist(unittest.TestCase):
    """What a maker vendors is made, has its sums, builds without a warning of rustc, and does what its page says."""

    def test_it_is_made_and_builds(self):
        with tempfile.TemporaryDirectory() as room:
            status, said, errors = ran("tools/plain_rust/dist", f"{room}/dist")
            self.assertEqual(status, 0, errors)
            self.assertIn("laws left out", said)
            texts = self.sums(f"{room}/dist")
            for path, text in texts.items():
                self.assertNotIn("allow(unused", text, path)
                self.assertFalse(path.startswith("rust/") and "A law, proved in Rattle" in text, path)
            self.builds(f"{room}/dist")

    def sums(self, folder):
        """Holds the files against their sums, and returns those that are texts by their names."""
        with open(f"{folder}/MANIFEST", encoding="utf-8") as file:
            sums = {path: known for known, path in (line.rstrip("\n").split("  ", 1) for line in file)}
        texts = {}
        for path, known in sums.items():
            with open(f"{folder}/{path}", "rb") as file:
                octets = file.read()
            self.assertEqual(hashlib.sha256(octets).hexdigest(), known, path)
            if not path.endswith(".bin"):
                texts[path] = octets.decode()
        return texts

    def run_in(self, folder, *words, text=None):
        """Runs a command in a folder, for which warnings are errors."""
        how = {**os.environ, "CARGO_NET_OFFLINE": "true", "RUSTFLAGS": "-D warnings"}
        return subprocess.run(words, cwd=folder, env=how, input=text, capture_output=True, text=True, check=False)

    def made(self, folder, *words, text=None):
        """What a command in a folder writes, where it says nothing else."""
        done = self.run_in(folder, *words, text=text)
        self.assertEqual((done.returncode, done.stderr), (0, ""), f"{words} {done.stdout[-2000:]}")
        return done.stdout

    def builds(self, folder):
        """Builds the crate, with all features and with the one that is always there, where cargo and its crates are."""
        settings = f"{os.environ.get('KENNELMORN_PROGRAMS', f'{TOP}/target/programs')}/plain/.cargo/config.toml"
        if not shutil.which("cargo") or not os.path.exists(settings):
            self.skipTest("no cargo, or none of the crates that it needs")
        for it in ("rust", "c", "test/rust"):
            os.makedirs(f"{folder}/{it}/.cargo")
            shutil.copy(settings, f"{folder}/{it}/.cargo/config.toml")
        for words in (("--all-features", "--all-targets"), ("--no-default-features",), ()):
            self.made(f"{folder}/rust", "cargo", "check", "-q", *words)
        self.examples(folder)
        self.misuses(f"{folder}/rust")
        self.plays(folder)

    def examples(self, folder):
        """A meter over flash ends well, and nodes with further reach do what the reports say."""
        self.made(f"{folder}/rust", "cargo", "build", "-q", "--all-features", "--examples")
        self.assertIn("then a bit changes: bits have changed", self.made(folder, "rust/target/debug/examples/flash"))
        scripts = sorted(it[:-7] for it in os.listdir(f"{folder}/test") if it.endswith(".script"))
        self.assertEqual(len(scripts), 5)
        unsaid = ("node ", "key ", "route ", "peer ", "floor ", "end ")
        for name in scripts:
            with open(f"{folder}/test/{name}.script", encoding="utf-8") as script, open(f"{folder}/test/{name}.report", encoding="utf-8") as report:
                wanted = [it for it in report.read().splitlines() if not it.startswith(unsaid)]
                self.assertEqual(self.made(folder, "rust/target/debug/examples/further_reach", text=script.read()).splitlines(), wanted, name)

    def misuses(self, folder):
        """What nobody may do with an accepted frame or a chain does not compile: the uses are those of .ci/refused_uses, which tries them in Rattle."""
        loader = importlib.machinery.SourceFileLoader("refused_uses", f"{TOP}/.ci/refused_uses")
        refused = importlib.util.module_from_spec(importlib.util.spec_from_loader("refused_uses", loader))
        loader.exec_module(refused)
        for _, source, uses in refused.PARTS.values():
            source = "#![allow(unused)]\n" + re.sub(r"^use ", "use kennelmorn_node::", source, flags=re.MULTILINE) + "\nfn main() {}\n"
            for place, use, _, code in [(None, "", None, None), *uses]:
                with open(f"{folder}/examples/misuse.rs", "w", encoding="utf-8") as file:
                    file.write(refused.with_use(source, uses, place, use))
                done = self.run_in(folder, "cargo", "check", "-q", "--all-features", "--example", "misuse")
                self.assertEqual(set(re.findall(r"^error\[(\w+)\]", done.stderr, re.MULTILINE)), {code} - {None}, f"{use} {done.stderr}")
        os.remove(f"{folder}/examples/misuse.rs")

    def plays(self, folder):
        """The vectors are played by the crate and by the library, and a changed one is found."""
        right = r"player: \d+ frames, \d+ calls of \d+ nodes, 0 wrong\n$"
        self.assertRegex(self.made(f"{folder}/test/rust", "cargo", "run", "-q"), right)
        if not (cc := shutil.which(os.environ.get("CC", "cc"))):
            return
        self.made(f"{folder}/c", "cargo", "build", "-q", "--profile", "small")
        words = (cc, "-std=c11", "-Wall", "-Wextra", "-Wpedantic", "-Werror", "-I../c", "-o", "player", "player.c", "../c/target/small/libmeter.a")
        self.made(f"{folder}/test", *words)
        self.assertRegex(self.made(f"{folder}/test", "./player"), right)
        with open(f"{folder}/test/vectors.bin", "r+b") as file:
            octets = bytearray(file.read())
            octets[len(octets) // 2] ^= 1
            file.seek(0)
            file.write(octets)
        self.made(f"{folder}/test", *words)
        done = subprocess.run(["./player"], cwd=f"{folder}/test", capture_output=True, text=True, check=False, timeout=60)
        self.assertNotEqual(done.returncode, 0)
        self.assertNotRegex(done.stdout, right)


if __name__ == "__main__":
    unittest.main()
