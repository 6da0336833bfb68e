"""One crate of an export: each of its crates becomes a module, the shim of Rattle's std too.

A path into a crate becomes one into its module. What is left out: the functions that only carry a law and do nothing, with what names them, and the permission
of unused code. A contract stands in the documentation of its function.
"""
import os
import re

from lexer import closing, rust_tokens, step, text_of

SHIM = "rattle_std"
LAW = "A law, proved in Rattle"
MACROS = {"format", "assert", "assert_eq", "assert_ne", "panic", "required", "program"}
# Lines of a root that are the crate's own business.
ROOT_LINES = re.compile(r"^#!\[(no_std|allow\(unused\))\]\n|^#\[macro_use\]\nextern crate rattle_std as std;\n|^extern crate alloc as heap;\n"
                        r"|^#\[cfg\(any\(test, feature = \"std\"\)\)\]\nextern crate std as host;\n", re.MULTILINE)
CLAUSES = ("requires", "ensures")
# A check of a clause, as border.py writes it.
CHECK = re.compile(r'\s*(?:\w+::)?required!\((.*), "[^"]*: (\w+)"\);')
FUNCTION, OF_TRAIT = re.compile(r"\s*pub (const )?fn "), re.compile(r"    fn ")
# In documentation: a label in backquotes, and the path where it is another one.
LINK = re.compile(r"\[`([^`\]]+)`\](?:\(([\w:]+)\))?")


class Names:
    """What paths are rewritten: the crates that become modules, and where these lie."""

    def __init__(self, crates, root="crate"):
        self.crates, self.root = set(crates), root

    def is_path(self, ts, i):
        """Whether the identifier at i begins a path."""
        before, after = step(ts, i, -1), step(ts, i)
        if ts[after].text != ":" or ts[step(ts, after)].text != ":":
            return False
        return before < 0 or ts[before].text not in (".", ":", "$")

    def rewrite(self, text, own, modules):
        """The text of a file of a crate, whose own modules have these names."""
        ts = rust_tokens("\n" + text)
        for i in range(len(ts) - 1, -1, -1):
            if ts[i].kind != "ident":
                continue
            name = ts[i].text
            if name == "crate" and own is not None and ts[step(ts, i)].text == ":":
                ts[i].text = f"crate::{own}"
            elif not self.is_path(ts, i):
                continue
            elif name == "std" or name == SHIM and own != SHIM:
                self.of_std(ts, i)
            elif name in self.crates and name != own and name not in modules:
                ts[i].text = f"{self.root}::{name}"
        without_labels(ts)
        with_idle_parameters(ts)
        return text_of(ts)[1:]

    def of_std(self, ts, i):
        """A path into the shim. A macro of it lies at the root."""
        colon = step(ts, step(ts, i))
        item = step(ts, colon)
        if ts[item].text in MACROS and ts[step(ts, item)].text == "!":
            ts[i].text = self.root
        else:
            ts[i].text = f"{self.root}::{SHIM}"


def laws(text):
    """The names of the functions of a file that only carry a law, and the file without them."""
    ts = rust_tokens(text)
    names = set()
    for i in range(len(ts) - 1, -1, -1):
        if ts[i].kind != "ident" or ts[i].text != "fn" or ts[i].gone:
            continue
        body = body_of(ts, i)
        if body is None or LAW not in "".join(t.text for t in ts[i:body]) or closing(ts, body) != step(ts, body):
            continue
        names.add(ts[step(ts, i)].text)
        drop_item(ts, i, closing(ts, body))
    return names, text_of(ts)


def body_of(ts, i):
    """The brace that begins the body of the function at i, or None where it has none."""
    i = step(ts, i)
    while ts[i].text not in ("{", ";"):
        i = step(ts, closing(ts, i) if ts[i].text in ("(", "[") else i)
    return i if ts[i].text == "{" else None


def drop_item(ts, i, end):
    """Deletes the item whose keyword stands at i and that ends there, with its comments and attributes."""
    first = i
    while first > 0 and (not ts[first - 1].is_solid() or ts[first - 1].text in ("pub", "(", ")", "crate", "]")):
        if ts[first - 1].kind == "space" and ts[first - 1].text.count("\n") > 1 or ts[first - 1].text.startswith("//!"):
            break
        first -= 1
        if ts[first].text == "]":
            while ts[first].text != "#":
                first -= 1
    for t in ts[first : end + 1]:
        t.gone = True


def without_labels(ts):
    """Deletes the labels of loops that no jump names."""
    named = {t.text for i, t in enumerate(ts) if t.kind == "lifetime" and ts[step(ts, i, -1)].text in ("break", "continue")}
    for i, t in enumerate(ts):
        if t.kind == "lifetime" and ts[step(ts, i)].text == ":" and ts[step(ts, step(ts, i))].text in ("for", "while", "loop"):
            if t.text not in named:
                ts[step(ts, i)].gone = t.gone = True
                if ts[i + 2].kind == "space":
                    ts[i + 2].gone = True


def with_idle_parameters(ts):
    """Marks the parameters that a function has for its contract alone, as Rust does, by an underscore."""
    for i, t in enumerate(ts):
        if t.kind != "ident" or t.text != "fn" or t.gone or ts[step(ts, i)].kind != "ident":
            continue
        opening = step(ts, i)
        while ts[opening].text != "(":
            opening = step(ts, opening)
        close = closing(ts, opening)
        body = body_of(ts, i)
        if body is None:
            continue
        used = {it.text for it in ts[body : closing(ts, body)] if it.kind == "ident"}
        strings = "".join(it.text for it in ts[body : closing(ts, body)] if it.kind == "string")
        depth = 0
        for k in range(opening, close):
            depth += {"(": 1, "[": 1, "<": 1, ")": -1, "]": -1, ">": -1}.get(ts[k].text, 0)
            if depth == 1 and ts[k].kind == "ident" and ts[step(ts, k)].text == ":" and ts[step(ts, k, -1)].text in ("(", ",", "mut"):
                if not ts[k].text.startswith("_") and ts[k].text not in used and "{" + ts[k].text not in strings and ts[step(ts, step(ts, k))].text != ":":
                    ts[k].text = "_" + ts[k].text


def traits_of(texts):
    """The names of the traits of some files: they are imported for their methods too."""
    return {name for text in texts for name in re.findall(r"\btrait (\w+)", text)} | {"ByteOrder"}


def unused_imports(text, traits):
    """The names that a file imports and does not use."""
    code = re.sub(r"//[^\n]*", "", text)
    words = re.findall(r"(?<!::)\b\w+", re.sub(r"^(?:pub )?use [^;]*;", "", code, flags=re.MULTILINE))
    listed = re.findall(r"^use [\w:]+::\{([^{}]*)\};", text, re.MULTILINE) + re.findall(r"^use [\w:]+::(\w+);", text, re.MULTILINE)
    names = {it.strip().split("::")[-1] for line in listed for it in line.split(",") if it.strip() and " as " not in it}
    return {it for it in names - traits if it not in words}


def without_names(text, gone):
    """A file without the imports of these names."""
    def kept(match):
        head, listed = match.group(1), [it.strip() for it in match.group(2).split(",") if it.strip()]
        left = [it for it in listed if it.split("::")[-1] not in gone]
        if len(left) == len(listed):
            return match.group(0)
        listed = left[0] if len(left) == 1 else f"{{{', '.join(left)}}}"
        return f"{head}{listed};\n" if left else ""

    text = re.sub(r"^((?:pub )?use [\w:]+::)\{([^{}]*)\};\n", kept, text, flags=re.MULTILINE)
    return re.sub(r"^(?:pub )?use [\w:]+::(\w+);\n", lambda match: "" if match.group(1) in gone else match.group(0), text, flags=re.MULTILINE)


def is_empty(text):
    """Whether nothing is left of a file but what it imports."""
    return not re.search(r"\b(fn|struct|enum|trait|impl|const|static|mod|type|macro_rules)\b", re.sub(r"//[^\n]*", "", text))


def contract_of(lines, at):
    """The comments between the signature of the function at a line and its body, where they have clauses."""
    found = []
    for line in lines[at:]:
        text = line.strip()
        if text.startswith("//"):
            found.append(text[3:])
        elif found or text in ("{", ";") or text.endswith((" {", "}", ";")):
            break
    return found if any(it.startswith(CLAUSES) for it in found) else []


def panics_of(lines, at):
    """What the documentation says of the checks at the begin of the body of the function at a line: each with its clause."""
    while lines[at].strip() not in ("{", ";", "}", "") and not lines[at].endswith((" {", "{}")):
        at += 1
    found = []
    while at + 1 < len(lines) and (check := CHECK.fullmatch(lines[at + 1])):
        found.append(f" - where `requires {check.group(2)}` does not hold, which is checked by `{check.group(1)}`")
        at += 1
    return ["", " # Panics", "", *found] if found else []


def with_contracts(text):
    """A file whose public functions, and those of its public traits, have their contracts in the documentation, and which calls stop."""
    lines, made, is_trait = text.split("\n"), [], False
    for at, line in enumerate(lines):
        is_trait = line.startswith("pub trait ") or is_trait and line != "}"
        is_public = FUNCTION.match(line) or is_trait and OF_TRAIT.match(line)
        top = len(made)
        while top > 0 and made[top - 1].strip().startswith("#["):
            top -= 1
        if is_public and top > 0 and made[top - 1].strip().startswith("///") and (clauses := contract_of(lines, at)):
            margin = re.match(r"\s*", line).group(0)
            shown = [*panics_of(lines, at), "", " # Contract", "", " ```text", *[f" {it}" for it in clauses], " ```"]
            made[top:top] = [f"{margin}///{it}" for it in shown]
        made.append(line)
    return "\n".join(made)


def with_links(text, crate, crates, gone):
    """A file whose documentation links to what is in the one crate, and not to what is gone."""
    def linked(match):
        label, path = match.group(1), (match.group(2) or match.group(1)).split("::")
        # Modules of a crate are private: what is named through one is not documented.
        if gone & set(path) or path[0] == "crate" and len(path) > 2 and path[1].islower():
            return f"`{label}`"
        if path[0] == "crate":
            path[:1] = ["crate", crate]
        elif path[0] in crates:
            path[:0] = ["crate"]
        elif not match.group(2):
            return match.group(0)
        return f"[`{label}`]({'::'.join(path)})"

    return re.sub(r"^[ \t]*//[/!].*$", lambda line: LINK.sub(linked, line.group(0)), text, flags=re.MULTILINE)


def read_sources(folder):
    """The files of a crate by their paths from its `src`."""
    files = {}
    for at, _, names in os.walk(folder):
        for name in names:
            path = os.path.join(at, name)
            with open(path, encoding="utf-8") as file:
                files[os.path.relpath(path, folder)] = file.read()
    return files


def module_of(files, crate, names):
    """The files of a crate as those of a module: its root is `mod.rs`. Returns them, and the names of its laws."""
    modules = {os.path.basename(path)[:-3] for path in files}
    found, made = set(), {}
    for path, text in files.items():
        more, made[path] = laws(text)
        found |= more
    gone = {path[:-3] for path, text in made.items() if path != "lib.rs" and is_empty(text)}
    made = {path: text for path, text in made.items() if path[:-3] not in gone}
    for path, text in made.items():
        text = re.sub(r"^(?:pub )?mod (\w+);\n", lambda match: "" if match.group(1) in gone else match.group(0), text, flags=re.MULTILINE)
        text = names.rewrite(ROOT_LINES.sub("", text), crate, modules)
        text = with_links(text, crate, names.crates, found | gone)
        text = re.sub(r"^([ \t]*///[^\n]*\n)\s*\n(?=[ \t]*(?:#\[|pub |fn ))", r"\1", with_contracts(text), flags=re.MULTILINE)
        made[path] = re.sub(r"\n{3,}", "\n\n", text).strip() + "\n"
    made["mod.rs"] = made.pop("lib.rs")
    return made, found


def write(folder, modules, head):
    """Writes the modules below a root whose head is given. Names of laws go from every import."""
    gone = set().union(*(found for _, found in modules.values()))
    traits = traits_of([text for files, _ in modules.values() for text in files.values()])
    for crate, (files, _) in modules.items():
        for path, text in files.items():
            to = os.path.join(folder, crate, path)
            os.makedirs(os.path.dirname(to), exist_ok=True)
            with open(to, "w", encoding="utf-8") as file:
                file.write(without_names(text, gone | unused_imports(text, traits)))
    with open(os.path.join(folder, "lib.rs"), "w", encoding="utf-8") as file:
        file.write(head)
