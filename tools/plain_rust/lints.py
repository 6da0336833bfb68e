#!/usr/bin/env python3
"""What clippy has to say of the one crate that tools/plain_rust/dist makes: the texts of lints.json, each of which takes the place of another one.

    tools/plain_rust/lints.py       writes lints.json anew

The forms of the source are those that are proved. What `cargo clippy --fix` does about them is kept in lints.json, and where a lint is about the shape of a
call or a type, which stays, an `expect` stands there. dist puts these texts in place, and says how many do not fit any more: then this is due.
`.ci/plain_rust dist` finds what clippy says that is new.
"""
import difflib
import importlib.machinery
import importlib.util
import json
import os
import re
import shutil
import subprocess
import sys
import tempfile

HERE = os.path.dirname(os.path.abspath(__file__))
TOP = os.path.dirname(os.path.dirname(HERE))
LIST = f"{HERE}/lints.json"
# The builds in which there are other texts.
BUILDS = [(flags, words) for flags in ("-C target-cpu=x86-64", "-C target-cpu=x86-64-v2") for words in (("--all-features",), ("--no-default-features",), ())]


def read(path):
    with open(path, encoding="utf-8") as file:
        return file.read()


def write(path, text):
    with open(path, "w", encoding="utf-8") as file:
        file.write(text)


def put(folder):
    """Puts the texts in place, below the crate's `src`. Returns how many are there, and the files of those that do not fit any more."""
    rows, unfit = json.loads(read(LIST)), []
    for path, old, new in rows:
        text = read(f"{folder}/{path}") if os.path.exists(f"{folder}/{path}") else ""
        if text.count(old) == 1:
            write(f"{folder}/{path}", text.replace(old, new))
        else:
            unfit.append(path)
    return len(rows) - len(unfit), unfit


def hunks(path, old, new):
    """The changed places of a file from its top on, each with so many lines around it that it is there once."""
    old, new, rows = old.splitlines(keepends=True), new.splitlines(keepends=True), []
    for kind, first, last, start, end in difflib.SequenceMatcher(None, old, new, autojunk=False).get_opcodes():
        if kind == "equal":
            continue
        # The places before it are changed when it is put in place.
        now, stop, around, text = new[:start] + old[first:], start + last - first, 0, ""
        while not text or "".join(now).count(text) != 1:
            before, after = now[max(0, start - around) : start], now[stop : stop + around]
            text = "".join(before + now[start:stop] + after)
            around += 1
        rows.append([path, text, "".join(before + new[start:end] + after)])
    return rows


def clippy(folder, *words, flags):
    how = {**os.environ, "CARGO_NET_OFFLINE": "true", "RUSTFLAGS": flags, "CARGO_TARGET_DIR": f"{folder}/target"}
    return subprocess.run(["cargo", "clippy", "-q", "--lib", *words], cwd=folder, env=how, capture_output=True, text=True, check=False)


def warnings(folder):
    """The places of what is left: file, line, lint."""
    found = set()
    for flags, words in BUILDS:
        done = clippy(folder, "--message-format=json", *words, flags=flags)
        for line in done.stdout.splitlines():
            it = json.loads(line).get("message", {})
            code = (it.get("code") or {}).get("code", "")
            if code.startswith("clippy::"):
                span = next(span for span in it["spans"] if span["is_primary"])
                found.add((span["file_name"], span["line_start"], code))
            elif it.get("level") == "error":
                sys.exit(it["rendered"])
    return found


def expect(folder, found):
    """Writes what is expected before each item."""
    for path in {it[0] for it in found}:
        lines = read(f"{folder}/{path}").split("\n")
        for at, lint in sorted(((at, lint) for file, at, lint in found if file == path), reverse=True):
            top = at - 1
            while lines[top - 1].strip().startswith("#["):
                top -= 1
            margin = re.match(r"\s*", lines[at - 1]).group(0)
            lines.insert(top, f"{margin}#[expect({lint})]")
        write(f"{folder}/{path}", "\n".join(lines))


def main():
    """Writes the list."""
    loader = importlib.machinery.SourceFileLoader("dist", f"{HERE}/dist")
    dist = importlib.util.module_from_spec(importlib.util.spec_from_loader("dist", loader))
    loader.exec_module(dist)
    settings = f"{os.environ.get('KENNELMORN_PROGRAMS', f'{TOP}/target/programs')}/plain/.cargo"
    with tempfile.TemporaryDirectory() as room:
        # The crate is made without the texts that there are now.
        dist.lints.LIST = f"{room}/none.json"
        write(dist.lints.LIST, "[]\n")
        dist.exported(f"{room}/export")
        dist.rust(f"{room}/rust", f"{room}/export")
        if os.path.exists(settings):
            shutil.copytree(settings, f"{room}/rust/.cargo")
        shutil.copytree(f"{room}/rust/src", f"{room}/was")
        for flags, words in BUILDS:
            clippy(f"{room}/rust", "--fix", "--allow-no-vcs", *words, flags=flags)
        for _ in range(4):
            if not (found := warnings(f"{room}/rust")):
                break
            expect(f"{room}/rust", found)
        rows = []
        for at, _, names in sorted(os.walk(f"{room}/was")):
            for name in sorted(names):
                path = os.path.relpath(f"{at}/{name}", f"{room}/was")
                rows += hunks(path, read(f"{at}/{name}"), read(f"{room}/rust/src/{path}"))
    with open(LIST, "w", encoding="utf-8") as file:
        json.dump(rows, file, indent=1, ensure_ascii=False)
        file.write("\n")
    print(f"lints: {len(rows)} texts; {len(found)} warnings are left")


if __name__ == "__main__":
    main()
