"""What is written into a file: the few places where the dialect differs from Rust. Each kind is counted, and REASONS says why it is there."""
import json
import os

import derives
from deletions import drop, drop_space_before
from lexer import Stop, closing, rust_tokens, solid, step

HERE = os.path.dirname(os.path.abspath(__file__))
PATCHES = json.load(open(os.path.join(HERE, "patches.json"), encoding="utf-8"))
FRAMES = json.load(open(os.path.join(HERE, "frames.json"), encoding="utf-8"))
REASONS = {
    "test entry": "Rust passes a test no handle of the runtime: std::test::check makes one",
    "program entry": "the program begins by C's entry and not in Rust's runtime, which changes standard streams that are closed",
    "to_vec with an allocator": "Rust's own to_vec of a slice is found before that of a trait, so the trait's has another name",
    "collect with an allocator": "so is Rust's own collect of an iterator",
    "derive written out": "the macros would take as long to build as the nodes",
    "root lines": "no_std, the name std for the shim over core and alloc, and no warning of what only a contract used",
    "prelude line": "names that Rattle has everywhere: Vec, String, HostRuntime, AllocGlobal",
    "patch": "a text of patches.json, with its reason there",
    "frame of its own": "a hint: on bare metal its buffers are not on the stack of the calls beside it (frames.json)",
    "check at the border": "a clause of a public call, which nobody proves of a caller in Rust (border.json)",
}
PRELUDE = {"Vec", "String", "Box", "HostRuntime", "AllocGlobal"}
NO_MAIN = "#![cfg_attr(not(test), no_main)]\n"
ROOT = "#![no_std]\n#![allow(unused)]\n#[macro_use]\nextern crate rattle_std as std;\n\n"


def insert(ts, i, text):
    """Writes a text before the place i."""
    ts[i:i] = rust_tokens(text, True)


def entries(ts, tally):
    """The entries of tests, and of the program."""
    for i in range(len(ts) - 1, -1, -1):
        if ts[i].gone or ts[i].text != "fn" or ts[i].kind != "ident":
            continue
        name = step(ts, i)
        opening = step(ts, name)
        if ts[opening].text != "(":
            continue
        close = closing(ts, opening)
        words = solid(ts[opening + 1 : close])
        if words[1:] not in ([":", "HostRuntime"], [":", "HostRuntime", ","]):
            continue
        body = close
        while ts[body].gone or ts[body].text != "{":
            body += 1
        if solid(ts[max(0, i - 24) : i])[-4:] == ["#", "[", "test", "]"]:
            tally["test entry"] += 1
            insert(ts, closing(ts, body) + 1, ")\n}")
            drop(ts, opening + 1, close)
            insert(ts, close + 1, f" {{\n    std::test::check(|{words[0]}: HostRuntime|")
        elif ts[name].text == "main":
            tally["program entry"] += 1
            insert(ts, closing(ts, body) + 1, "\n\nstd::program!(main);")


def allocations(ts, tally):
    """`.to_vec(alloc)` and `.collect(alloc)`"""
    for i in range(len(ts) - 1, -1, -1):
        if ts[i].gone or ts[i].text not in ("to_vec", "collect") or ts[step(ts, i, -1)].text != ".":
            continue
        opening = step(ts, i)
        if ts[opening].text == "(" and solid(ts[opening + 1 : closing(ts, opening)]):
            name = ts[i].text
            tally[f"{name} with an allocator"] += 1
            ts[i].gone = True
            insert(ts, i, f"{name}_in")


def patches(ts, name, tally):
    """The texts that no rule covers. Each old text stands in its file exactly once."""
    for patch in PATCHES:
        if patch["file"] != name:
            continue
        if "append" in patch:
            ts.extend(rust_tokens("\n\n" + patch["append"], True))
        else:
            replace(ts, patch["old"], patch["new"])
        tally["patch"] += 1


def frames(ts, name, tally):
    """The functions that are not made a part of their caller on bare metal, where the stack is small: all that one call may need would lie in one frame, also
    what only one of its ways needs. It is a hint of Rust, which changes no result."""
    for function in FRAMES.get(name, ()):
        found = [i for i, t in enumerate(ts) if t.kind == "ident" and t.text == "fn" and not t.gone and ts[step(ts, i)].text == function]
        if len(found) != 1:
            raise Stop(f"frames.json names a function that is not there once: {function}")
        first = step(ts, found[0], -1)
        while ts[first].text in ("pub", "const", "(", "crate", ")"):
            first = step(ts, first, -1)
        first = step(ts, first)
        margin = ts[first - 1].text.rpartition("\n")[2] if ts[first - 1].kind == "space" else ""
        hints = '#[cfg_attr(target_os = "none", inline(never))]\n' + margin
        before = [i for i in range(first) if ts[i].is_solid() and not ts[i].gone][-7:]
        if "".join(ts[i].text for i in before) == "#[inline(always)]":
            drop(ts, before[0], before[-1] + 1)
            hints += '#[cfg_attr(not(target_os = "none"), inline(always))]\n' + margin
        insert(ts, first, hints)
        tally["frame of its own"] += 1


def replace(ts, old, new):
    """Replaces a sequence of tokens."""
    wanted = [t.text for t in rust_tokens(old) if t.is_solid()]
    places = [i for i, t in enumerate(ts) if t.is_solid() and not t.gone]
    found = [k for k in range(len(places) - len(wanted) + 1) if [ts[p].text for p in places[k : k + len(wanted)]] == wanted]
    if len(found) != 1:
        raise Stop("a patch that does not fit: " + old)
    first, last = places[found[0]], places[found[0] + len(wanted) - 1]
    drop(ts, first, last + 1)
    insert(ts, first, new)


def head(ts, name, is_root, tally):
    """The lines of a root, and the line for the dialect's prelude, before the first item."""
    lines = ""
    if is_root:
        lines += (NO_MAIN if name.endswith("/main.rt") else "") + ROOT
        tally["root lines"] += 1
    if PRELUDE & {t.text for t in ts if t.kind == "ident" and not t.gone}:
        lines += "use std::dialect::*;\n\n"
        tally["prelude line"] += 1
    if not lines:
        return
    i = 0
    while i < len(ts) and (ts[i].gone or not ts[i].is_solid() or is_inner(ts, i)):
        i = closing(ts, step(ts, step(ts, i))) + 1 if is_inner(ts, i) else i + 1
    # the comments of the first item stay with it
    while i > 0 and (ts[i - 1].gone or ts[i - 1].kind == "space" and ts[i - 1].text.count("\n") < 2 or is_outer_comment(ts[i - 1])):
        i -= 1
    insert(ts, i, "\n\n" + lines)


def is_inner(ts, i):
    """Whether an attribute of the whole file begins at i."""
    return not ts[i].gone and ts[i].text == "#" and ts[step(ts, i)].text == "!"


def is_outer_comment(t):
    """Whether it is a comment, and not one of the whole file."""
    return t.kind == "comment" and not t.text.startswith("//!")


def all_of_them(ts, name, is_root, tally):
    """Every rewrite but the checks at the border."""
    entries(ts, tally)
    allocations(ts, tally)
    patches(ts, name, tally)
    derives.all_of_them(ts, tally)
    frames(ts, name, tally)
    head(ts, name, is_root, tally)
