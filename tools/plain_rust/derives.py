"""Writes what `derive(Error)` and `derive(Serialize)` stand for, so that an export needs no macro that runs in the compiler: the three crates that such
macros stand on take longer to build than the ciphers and the nodes together, and a firmware has two crates less to look at."""
import re

from deletions import drop, drop_space_after
from lexer import Stop, closing, rust_tokens, solid, step

IMPORTS = {("thiserror", "Error"), ("serde", "Serialize")}


def imports(ts):
    """Deletes the imports of the two derives."""
    for i, t in enumerate(ts):
        if not t.gone and t.kind == "ident" and t.text == "use":
            end = i
            while ts[end].gone or ts[end].text != ";":
                end += 1
            words = solid(ts[i : end + 1])
            if len(words) == 6 and (words[1], words[4]) in IMPORTS:
                drop(ts, i, end + 1)
                if end + 1 < len(ts) and ts[end + 1].kind == "space":
                    ts[end + 1].text = ts[end + 1].text.replace("\n", "", 1)


def taken(ts, bracket, name):
    """Takes a name out of the derive at a bracket. Returns whether it was there."""
    end = closing(ts, bracket)
    if solid(ts[bracket : end + 1])[:2] != ["[", "derive"]:
        return False
    at = [k for k in range(bracket, end) if ts[k].text == name and not ts[k].gone]
    if not at:
        return False
    before = step(ts, at[0], -1)
    if ts[before].text != ",":
        raise Stop(f"a derive that begins with {name}")
    drop(ts, before, at[0] + 1)
    return True


def entries(ts, opening):
    """The parts of a body between its commas: of each its attribute's text (of `error`), if any, and its solid tokens without attributes and `pub`."""
    end, i, text, words, depth = closing(ts, opening), step(ts, opening), None, [], 0
    while i < end:
        if ts[i].text == "#" and depth == 0:
            bracket = step(ts, i)
            close = closing(ts, bracket)
            if ts[step(ts, bracket)].text == "error":
                text = said(ts, i)
            i = step(ts, close)
            continue
        depth += (ts[i].text in "([{<") - (ts[i].text in ")]}>")
        if ts[i].text == "," and depth == 0:
            yield text, words
            text, words = None, []
        elif ts[i].text != "pub":
            words.append(ts[i].text)
        i = step(ts, i)
    if words:
        yield text, words


def said(ts, i):
    """The text of `#[error("..")]` at i, which is deleted."""
    bracket = step(ts, i)
    end = closing(ts, bracket)
    words = solid(ts[bracket : end + 1])
    if words[1:3] != ["error", "("] or len(words) != 6:
        raise Stop("an error of no known form: " + " ".join(words))
    drop(ts, i, end + 1)
    drop_space_after(ts, end + 1)
    return words[3]


def arm(path, text, words):
    """How a variant, or a struct, is written: its pattern and what is done."""
    names = sorted(set(re.findall(r"\{(\w+)\}", text)))
    if not names:
        return f"{path} {{ .. }} => f.write_str({text})"
    if names == ["0"]:
        return f'{path}(it, ..) => core::write!(f, {text.replace("{0}", "{it}")})'
    if any(it.isdigit() for it in names) or not words:
        raise Stop("an error of no known form: " + text)
    return f"{path} {{ {', '.join(names)}, .. }} => core::write!(f, {text})"


def error(name, generic, text, entries_of):
    """An error of core: a struct has its text, an enum one for each variant. Where it is generic, it is one where its parameter can be written."""
    shown, whole = (f"<{generic}: core::fmt::Display>", f"<{generic}: core::fmt::Debug + core::fmt::Display>") if generic else ("", "")
    own = f"<{generic}>" if generic else ""
    arms = [arm("Self", text, entries_of)] if text else [arm(f"Self::{words[0]}", said_of, words[1:]) for said_of, words in entries_of]
    return f"""

impl{whole} core::error::Error for {name}{own} {{}}

impl{shown} core::fmt::Display for {name}{own} {{
    fn fmt(&self, f: &mut core::fmt::Formatter<'_>) -> core::fmt::Result {{
        match self {{
            {f''',
            '''.join(arms)},
        }}
    }}
}}"""


def serialized(name, lifetime, entries_of):
    """A struct that writes its fields in order."""
    lifetime = "<'_>" if lifetime else ""
    fields = [words[0] for _, words in entries_of]
    lines = "".join(f'\n        to.serialize_field("{it}", &self.{it})?;' for it in fields)
    return f"""

impl serde::Serialize for {name}{lifetime} {{
    fn serialize<S: serde::Serializer>(&self, to: S) -> Result<S::Ok, S::Error> {{
        use serde::ser::SerializeStruct;
        let mut to = to.serialize_struct("{name}", {len(fields)})?;{lines}
        to.end()
    }}
}}"""


def item_after(ts, i):
    """The item whose attributes end at i: its kind, name, parameter, text of the error, and the place of its body or of the semicolon."""
    text = None
    i = step(ts, i)
    while ts[i].text == "#":
        close = closing(ts, step(ts, i))
        if ts[step(ts, step(ts, i))].text == "error":
            text = said(ts, i)
        i = step(ts, close)
    while ts[i].text not in ("struct", "enum"):
        i = closing(ts, step(ts, i)) if ts[step(ts, i)].text == "(" else i
        i = step(ts, i)
    kind, i = ts[i].text, step(ts, i)
    name, i = ts[i].text, step(ts, i)
    parameter = ""
    if ts[i].text == "<":
        parameter, i = ts[step(ts, i)].text, step(ts, step(ts, i))
        if ts[i].text != ">":
            raise Stop(f"a derive of a type of no known form: {name}")
        i = step(ts, i)
    return kind, name, parameter, text, i


def all_of_them(ts, tally):
    """Writes both derives out."""
    imports(ts)
    for i in range(len(ts) - 1, -1, -1):
        if ts[i].gone or ts[i].kind != "punct" or ts[i].text != "#" or ts[step(ts, i)].text != "[":
            continue
        bracket = step(ts, i)
        is_error, is_written = taken(ts, bracket, "Error"), taken(ts, bracket, "Serialize")
        if not is_error and not is_written:
            continue
        kind, name, parameter, text, body = item_after(ts, closing(ts, bracket))
        inside = [] if ts[body].text == ";" else list(entries(ts, body))
        if is_error and (kind == "struct") != bool(text):
            raise Stop(f"an error of no known form: {name}")
        end = body if ts[body].text == ";" else closing(ts, body)
        if ts[body].text == "(":
            end = step(ts, end)
        made = (error(name, parameter, text, inside) if is_error else "") + (serialized(name, parameter, inside) if is_written else "")
        ts[end + 1 : end + 1] = rust_tokens(made, True)
        tally["derive written out"] += 1
