"""Checks of what a public call requires, at the border of the node crates.

Rattle proves at each call that its `requires` hold; a caller in Rust proves nothing. So each clause of a public function of the crates in
border.json becomes a check at the beginning of the body, which stops with the name of the call and the clause. A clause that is neither a plain bound
(by a number, or by a constant that the file names) nor in border.json stops the export: somebody has to say what is checked. A parameter whose type has
an invariant and public fields is checked too.
"""
import json
import os
import re

from lexer import CLAUSES, Stop, closing, rust_tokens, solid, step

HERE = os.path.dirname(os.path.abspath(__file__))
BORDER = json.load(open(os.path.join(HERE, "border.json"), encoding="utf-8"))
BOUND = re.compile(r"(\S.*) ([≤<]) (\S.*)")
VALUE = re.compile(r"(?:length (\w+)\.(?:now|old)|([a-z]\w*))")
CONSTANTS = re.compile(r"\s*Rattle\.(\w+)\.specs\.declared\.([\w.]+)\.TheConstants\.\{([\w, \n]*)\}")
TURNED = {"<": ">", "<=": ">="}


def constants(ts, crate):
    """The constants that the clauses of a file may name, each with its path in Rust: the file's own, and those that a `ghost use` brings."""
    paths = {}
    for i, t in enumerate(ts):
        if t.kind == "ident" and t.text == "const" and ts[step(ts, step(ts, i))].text == ":":
            name = ts[step(ts, i)].text
            paths[name] = name
        elif t.kind == "antt" and (match := CONSTANTS.fullmatch(t.text)):
            home, module, names = match.groups()
            at = f"crate::{module.replace('.', '::')}" if home == crate else home
            paths |= {name: f"{at}::{name}" for name in re.findall(r"\w+", names)}
    return paths


def bound(text, paths):
    """The test of a clause that compares a parameter, or its length, with a number or a constant; None where it is no such clause."""
    if not (match := BOUND.fullmatch(text)):
        return None
    left, sign, right = match.group(1), match.group(2).replace("≤", "<="), match.group(3)
    if not VALUE.fullmatch(left):
        left, sign, right = right, TURNED[sign], left
    if not (value := VALUE.fullmatch(left)):
        return None
    tested = f"{value.group(1)}.len()" if value.group(1) else value.group(2)
    if right.isdecimal():
        return f"{tested} {sign} {right}"
    # the types of the two may differ, as u16 and usize do
    return f"({tested} as u64) {sign} ({paths[right]} as u64)" if right in paths else None


def check_of(crate, name, text, paths):
    """The test of a clause in Rust, or None where border.json says why it has none. `paths` has the constants by name."""
    if test := bound(text, paths):
        return test
    for row in BORDER["clauses"]:
        if crate in row["crates"] and row["clause"] == text:
            return row.get("check")
    raise Stop(f"a clause without a check: {crate}: {name}: {text}")


def required(ts, i):
    """The clauses `requires` of the function at i, as pairs of name and text, and the place of its body."""
    found, j = [], i
    while ts[j].kind != "punct" or ts[j].text not in ("{", ";"):
        if ts[j].kind == "ident" and ts[j].text == "requires":
            end = j
            while ts[end].kind != "antt":
                end += 1
            names = [t.text for t in ts[j + 1 : end] if t.kind == "ident"]
            found.append((names[0] if names else "", " ".join(ts[end].text[1:-1].split())))
            j = end
        j += 1
    return found, j


def is_public(ts, i):
    """Whether the `fn` at i is `pub`, and not `pub(crate)`."""
    return ts[step(ts, i, -1)].text == "pub"


def whole(ts, i):
    """The checks of parameters of the function at i whose type has an invariant and public fields, as pairs of name and test."""
    opening = step(ts, step(ts, i))
    while ts[opening].text != "(":
        opening = step(ts, opening)
    words = solid(ts[opening : closing(ts, opening)])
    found = []
    for k in range(3, len(words)):
        if words[k] in BORDER["types"] and words[k - 2 : k] == [":", "&"]:
            found.append((words[k - 3], BORDER["types"][words[k]]["check"].format(words[k - 3])))
    return found


def asked(ts, i, crate, paths):
    """What the function at i asks for, as pairs of the name of a clause and its test, or None where it has none; and the place of its body."""
    clauses, body = required(ts, i)
    name = ts[step(ts, i)].text
    return [(clause, check_of(crate, name, text, paths)) for clause, text in clauses] + whole(ts, i), body


def public_calls(ts):
    """The places of the public functions, the last first."""
    return [i for i in range(len(ts) - 1, -1, -1) if ts[i].kind == "ident" and ts[i].text == "fn" and is_public(ts, i)]


def checks(ts, crate, tally):
    """Writes the checks of a file. It runs before the clauses are deleted."""
    if crate not in BORDER["crates"]:
        return
    paths = constants(ts, crate)
    for i in public_calls(ts):
        tests, body = asked(ts, i, crate, paths)
        name = ts[step(ts, i)].text
        lines = [f'\n        std::required!({test}, "{crate}: {name}: {clause}");' for clause, test in tests if test]
        tally["clause at the border"] += len(tests)
        tally["check at the border"] += len(lines)
        if lines:
            ts[body + 1 : body + 1] = rust_tokens("".join(lines), True)


def names(ts, crate):
    """The names of the clauses of a file that are checked, as `call: clause`, and of those that are not."""
    checked, unchecked, paths = [], [], constants(ts, crate)
    for i in public_calls(ts):
        for clause, test in asked(ts, i, crate, paths)[0]:
            (checked if test else unchecked).append(f"{ts[step(ts, i)].text}: {clause}")
    return checked, unchecked


__all__ = ["BORDER", "CLAUSES", "checks", "closing"]
