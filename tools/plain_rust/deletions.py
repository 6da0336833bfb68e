"""What is taken out of a file: contracts, and the few words that only the prover reads.

Each pass marks tokens as gone and counts what it took. A form that a pass does not know stops the export.
"""
import re

from lexer import CLAUSES, Stop, Token, closing, solid, step


def drop(ts, a, b):
    """Deletes the tokens a to b, b not among them."""
    for t in ts[a:b]:
        t.gone = True


def drop_space_before(ts, i):
    """Deletes the white space before the place i."""
    i -= 1
    while i >= 0 and (ts[i].gone or ts[i].kind == "space"):
        ts[i].gone = True
        i -= 1


def drop_space_after(ts, i):
    """Deletes the white space from the place i on."""
    while i < len(ts) and (ts[i].gone or ts[i].kind == "space"):
        ts[i].gone = True
        i += 1


def drop_head(ts, i):
    """Deletes what belongs to an item that begins at i and is deleted: its comments, its `pub`, its attributes."""
    i -= 1
    while i >= 0:
        t = ts[i]
        if t.gone:
            pass
        elif t.kind == "space":
            t.gone = True
            if t.text.count("\n") > 1:
                # a comment above a blank line is about something else
                t.gone, t.text = False, "\n\n"
                return
        elif t.kind == "comment" and not t.text.startswith("//!") or t.text == "pub":
            t.gone = True
        else:
            return
        i -= 1


def is_law(ts, i):
    """Whether the clauses at i belong to a law: `fn name()` with an empty body."""
    close = step(ts, i, -1)
    if ts[close].text != ")" or ts[step(ts, close, -1)].text != "(":
        return False
    while ts[i].text not in ("{", ";") or ts[i].kind != "punct":
        i += 1
    return ts[i].text == "{" and len(solid(ts[i : closing(ts, i) + 1])) == 2


def clauses(ts, tally):
    """`requires` and `ensures` become comments in their place."""
    i = 0
    while i < len(ts):
        if ts[i].kind == "ident" and ts[i].text in CLAUSES:
            end = i
            while ts[end].kind != "antt":
                end += 1
            law = is_law(ts, i) and not is_marked(ts, i)
            tally[ts[i].text] += 1
            said = "".join(t.text for t in ts[i : end + 1]).split("\n")
            drop(ts, i, end + 1)
            if law:
                tally["law"] += 1
                said.insert(0, "A law, proved in Rattle; here a function that does nothing.")
            pad = indent(ts, i)
            lines = f"\n{pad}".join("// " + line.strip() for line in said)
            end_of_line = end + 1 < len(ts) and ts[end + 1].kind == "space" and "\n" in ts[end + 1].text
            ts[end + 1 : end + 1] = [Token("comment", lines, True)] + ([] if end_of_line else [Token("space", "\n" + pad[4:], True)])
        i += 1


def is_marked(ts, i):
    """Whether the clause at i follows another of the same function."""
    j = i - 1
    while j >= 0 and (ts[j].gone or ts[j].kind == "space" or ts[j].made):
        if ts[j].made and ts[j].text.startswith("// A law"):
            return True
        j -= 1
    return False


def indent(ts, i):
    """The white space at the beginning of the line of the token at i."""
    before = ""
    while i > 0 and "\n" not in before:
        i -= 1
        before = ts[i].text + before
    line = before[before.rfind("\n") + 1 :]
    return line[: len(line) - len(line.lstrip())]


def ghosts(ts, tally):
    """`ghost use`, and ghost members, fields and parameters."""
    for i, t in enumerate(ts):
        if t.gone or t.kind != "ident" or t.text != "ghost":
            continue
        end = i
        while end < len(ts) and (ts[end].kind in ("ident", "space", "antt") or ts[end].text in (":", "=")):
            if end > i and ts[end].kind == "ident" and ts[end].text in CLAUSES + ("ghost", "pub"):
                break
            end += 1
        last = max(k for k in range(i, end) if ts[k].kind == "antt") + 1
        after = step(ts, last - 1)
        use = ts[step(ts, i)].text == "use"
        if use or ts[after].text in (";", ","):
            tally["ghost use" if use else "ghost field" if ts[after].text == "," else "ghost member"] += 1
            drop(ts, i, after + 1)
            drop_space_before(ts, i) if use else drop_head(ts, i)
        else:
            tally["ghost field" if ts[after].text == "}" else "ghost parameter"] += 1
            drop(ts, i, last)
            drop_head(ts, i) if ts[after].text == "}" else drop_space_before(ts, i)


def attributes(ts, tally):
    """`#[tactic(..)]`, `#[error_bound]`, and `Drop` among derives."""
    for i, t in enumerate(ts):
        if t.gone or t.text != "#" or t.kind != "punct":
            continue
        bracket = step(ts, i)
        if ts[bracket].text == "!":
            bracket = step(ts, bracket)
        if bracket >= len(ts) or ts[bracket].text != "[":
            continue
        end = closing(ts, bracket)
        name = ts[step(ts, bracket)].text
        if name in ("tactic", "error_bound"):
            tally[f"#[{name}]"] += 1
            drop(ts, i, end + 1)
            drop_space_after(ts, end + 1)
        elif name == "derive":
            derive(ts, i, bracket, end, tally)


def derive(ts, i, bracket, end, tally):
    """Takes `Drop` out of a derive."""
    at = [k for k in range(bracket, end) if ts[k].text == "Drop"]
    if not at:
        return
    tally["derive(Drop)"] += 1
    if solid(ts[bracket : end + 1]) == ["[", "derive", "(", "Drop", ")", "]"]:
        drop(ts, i, end + 1)
        drop_space_after(ts, end + 1)
    elif ts[step(ts, at[0], -1)].text == ",":
        drop(ts, step(ts, at[0], -1), at[0] + 1)
    else:
        comma = step(ts, at[0])
        drop(ts, at[0], comma + 1)
        drop_space_after(ts, comma + 1)


def bounds(ts, tally):
    """`Drop` as a bound: in Rust every value may be dropped."""
    for i in range(len(ts) - 1, -1, -1):
        if ts[i].gone or ts[i].kind != "ident" or ts[i].text != "Drop":
            continue
        before, after = step(ts, i, -1), step(ts, i)
        if ts[before].text == "+":
            drop(ts, before, i + 1)
            drop_space_before(ts, before)
        elif ts[before].text == ":":
            drop(ts, before, i + 1)
            if ts[after].text == "+":
                ts[before].gone = False
                drop(ts, i, after + 1)
                drop_space_after(ts, after + 1)
        elif ts[before].text == "impl":
            continue
        else:
            raise Stop("a Drop of no known form")
        tally["bound Drop"] += 1


def models(ts, tally):
    """`impl Model for ..`, which holds no code, and its import."""
    for i, t in enumerate(ts):
        if t.gone or t.kind != "ident":
            continue
        if t.text == "impl":
            body = i
            while ts[body].gone or ts[body].text not in ("{", ";"):
                body += 1
            head = solid(ts[i:body])
            if "for" in head and head[head.index("for") - 1] == "Model":
                end = closing(ts, body)
                if solid(ts[body + 1 : end]):
                    raise Stop("code in an impl of Model")
                tally["impl Model"] += 1
                drop(ts, i, end + 1)
                drop_head(ts, i)
        elif t.text == "use":
            model_import(ts, i, tally)


def model_import(ts, i, tally):
    """Takes `Model` out of an import of `std::marker`."""
    end = i
    while ts[end].text != ";":
        end += 1
    words = solid(ts[i:end])
    if words[:7] != ["use", "std", ":", ":", "marker", ":", ":"] or "Model" not in words:
        return
    tally["import of Model"] += 1
    at = next(k for k in range(i, end) if ts[k].text == "Model" and not ts[k].gone)
    if words[7:] == ["Model"]:
        drop(ts, i, end + 1)
        drop_space_before(ts, i)
    elif words[7:] == ["{", "Model", ",", "PhantomData", "}"]:
        brace, close = step(ts, at, -1), step(ts, end, -1)
        drop(ts, brace, step(ts, step(ts, at)))
        drop(ts, close, close + 1)
    else:
        raise Stop("an import of Model of no known form")


def formatters(ts, tally):
    """A formatter of Rattle is generic over its writer: `fn fmt<W: fmt::Write>(.. fmt::Formatter<W>)`."""
    for i, t in enumerate(ts):
        if t.gone or t.kind != "ident" or t.text not in ("fmt", "Formatter"):
            continue
        j = step(ts, i)
        if j >= len(ts) or ts[j].text != "<":
            continue
        end = closing_angle(ts, j)
        words = solid(ts[j:end])
        if words == ["<", "W", ":", "fmt", ":", ":", "Write", ">"]:
            tally["writer of a formatter"] += 1
        elif words != ["<", "W", ">"]:
            raise Stop("a formatter of no known form")
        drop(ts, j, end)


def closing_angle(ts, i):
    """The place after the next `>`."""
    while i < len(ts) and (ts[i].gone or ts[i].text != ">"):
        i += 1
    return i + 1


def handles(ts, tally):
    """`.expect(rt, "..")`: Rust's `expect` asks for no right to end the process."""
    for i, t in enumerate(ts):
        if t.gone or t.text != "expect" or ts[step(ts, i, -1)].text != ".":
            continue
        j = step(ts, step(ts, i))
        if ts[j].text == "&":
            j = step(ts, j)
        comma = step(ts, j)
        if ts[j].kind == "ident" and ts[comma].text == ",":
            drop(ts, step(ts, step(ts, i)), comma + 1)
            drop_space_after(ts, comma + 1)
            tally["handle of an expect"] += 1


# Calls without effect. What one answers is named where the prover is to have a fact of it.
READERS = ("count", "entries", "len", "number", "octets")


def readings(ts, tally):
    """`let _count = self.bodies.count();`, whose answer nothing reads."""
    for i, t in enumerate(ts):
        if t.gone or t.kind != "ident" or t.text != "let" or not re.match(r"_\w", ts[step(ts, i)].text):
            continue
        end = i
        while ts[end].gone or ts[end].text != ";":
            end += 1
        words = solid(ts[i : end + 1])
        if words[2] == "=" and words[-3:] == ["(", ")", ";"] and words[-4] in READERS and all(re.fullmatch(r"\w+|\.", it) for it in words[3:-3]):
            tally["reading for the prover"] += 1
            drop(ts, i, end + 1)
            drop_head(ts, i)


def all_of_them(ts, tally):
    """Every deletion, in an order in which each finds what it looks for."""
    clauses(ts, tally)
    for each in (ghosts, attributes, bounds, models, formatters, handles, readings):
        each(ts, tally)
