"""Scripts to look at by line_view, in four sets, and what its commands write of them: for .ci/viewer_sums, .ci/sentences and .ci/verdicts."""
import concurrent.futures
import functools
import glob
import importlib.machinery
import importlib.util
import os
import subprocess
import sys
import tomllib

sys.dont_write_bytecode = True
TOP = os.path.dirname(os.path.dirname(os.path.abspath(__file__)))
COMMANDS = {"explain": ["explain"], "explain-all": ["explain", "--all"], "page": ["page"], "capture": ["capture"], "check": ["check", "--json"]}
SETS = ("examples", "simulated", "rows", "drawn")
DRAWN, JOBS = 500, 2


def tool(name):
    """A script of this folder as a module."""
    loader = importlib.machinery.SourceFileLoader(name, f"{TOP}/.ci/{name}")
    module = importlib.util.module_from_spec(importlib.util.spec_from_loader(name, loader))
    loader.exec_module(module)
    return module


@functools.cache
def program(name):
    return tool("simulated").program(name)


def ran(words, octets, name="line_view"):
    """What a program writes, and its status. `name` is one of this repository, or a path."""
    it = subprocess.run([name if "/" in name else program(name), *words], input=octets, stdout=subprocess.PIPE, stderr=subprocess.DEVNULL, check=False)
    return it.stdout, it.returncode


def read(path):
    with open(path, "rb") as it:
        return it.read()


def each(call, items, jobs=JOBS):
    """What a call gives for each item, in order, so many at a time."""
    with concurrent.futures.ThreadPoolExecutor(jobs) as pool:
        yield from pool.map(call, items)


def of_files(pattern):
    return [(os.path.basename(it), functools.partial(read, it)) for it in sorted(glob.glob(f"{TOP}/{pattern}"))]


def made(words, path):
    return ran(["run", *words], read(path), "line_sim")[0]


def of_descriptions():
    """What line_sim makes of each description, by its own seed."""
    return [(os.path.basename(it), functools.partial(made, [], it)) for it in sorted(glob.glob(f"{TOP}/examples/simulated/*.toml"))]


def of_rows():
    """The input of each row that is a script, each once."""
    rows, found = tool("rows"), {}
    for path in sorted(glob.glob(f"{TOP}/rows/*.rows")):
        for row in rows.read(path):
            for number, (words, octets) in enumerate(row.runs(), 1):
                is_script = row.program == "line_view" and words[:1] not in ([], ["keys"]) or words[:1] == ["replay"]
                if row.program in ("line_replay", "line_view") and is_script:
                    found.setdefault(octets, f"{os.path.basename(path)}: {row.name}, run {number}")
    return [(name, lambda octets=octets: octets) for octets, name in found.items()]


def of_draws(count=DRAWN, first=1):
    """Scripts of lines that are drawn from their number, as .ci/simulated draws them."""
    draws, names = tool("simulated"), sorted(glob.glob(f"{TOP}/examples/simulated/*.toml"))
    descriptions = [tomllib.loads(read(it).decode()) for it in names]

    def one(number):
        at = number % len(names)
        return made(draws.options_of(number, descriptions[at]), names[at])

    return [(f"drawn run {number}", functools.partial(one, number)) for number in range(first, first + count)]


def scripts(name, count=DRAWN):
    """The scripts of a set: a name, and a call that gives the octets."""
    return {
        "examples": lambda: of_files("examples/*.script"),
        "simulated": of_descriptions,
        "rows": of_rows,
        "drawn": lambda: of_draws(count),
    }[name]()
