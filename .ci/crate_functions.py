"""The functions of a crate by the names that a check prints, each with its file and lines. It goes by the form that `rt fmt` gives a file."""
import collections
import difflib
import glob
import os
import re

Function = collections.namedtuple("Function", "name file first last")

TOP = os.path.dirname(os.path.dirname(os.path.abspath(__file__)))
BLOCK = re.compile(r"(?P<indent> *)(?:pub(?:\([^)]*\))? )?(?:ghost )?(?:unsafe )?(?P<kind>impl|trait|mod) ?(?P<rest>.*)\{$")
FN = re.compile(r"(?P<indent> *)(?:pub(?:\([^)]*\))? )?(?:(?:const|unsafe|ghost|extern \"C\") )*fn (?P<name>\w+)")


def without_parameters(text):
    """A type without what stands in angle brackets, and without a `where`."""
    text = text.replace("->", "").split(" where ")[0]
    while (shorter := re.sub(r"<[^<>]*>", "", text)) != text:
        text = shorter
    return text.strip()


def block_name(kind, rest):
    """The word that a block adds to the names of its functions: of an `impl` of a trait the type with the trait behind it."""
    if kind != "impl":
        return without_parameters(rest).split(":")[0].strip()
    if rest.startswith("<"):
        depth = 0
        for at, letter in enumerate(rest):
            depth += (letter == "<") - (letter == ">" and rest[at - 1] != "-")
            if not depth:
                rest = rest[at + 1 :]
                break
    trait, of, name = rest.split(" where ")[0].rpartition(" for ")
    word = without_parameters(name).removeprefix("&").removeprefix("mut ").split("::")[-1].strip()
    # Rust's own `Drop` adds nothing.
    return word if trait == "Drop" else word + "".join(re.findall(r"\w+", trait.split("::")[-1] if "<" not in trait else trait))


def functions_of(crate):
    """Returns the functions of a crate."""
    found, root = [], f"{TOP}/crates/{crate}/src"
    for path in sorted(glob.glob(f"{root}/**/*.rt", recursive=True)):
        module = os.path.relpath(path, root)[: -len(".rt")].split(os.sep)
        if module[-1] in ("lib", "main", "mod"):
            module.pop()
        with open(path, encoding="utf-8") as file:
            found += functions_in(path, module, file.read().split("\n"))
    return found


def functions_in(path, module, lines):
    blocks, open_at, found, before = [], None, [], 1
    for at, line in enumerate(lines, 1):
        indent = len(line) - len(line.lstrip())
        if line.strip() and blocks and indent <= blocks[-1][0] and line.lstrip().startswith("}"):
            blocks.pop()
        if open_at and line.startswith((" " * open_at[1] + "}", " " * open_at[1] + "{}")):
            found.append(Function(open_at[0], path, open_at[2], at))
            open_at = None
        elif match := FN.match(line):
            name = "::".join([*module, *[word for _, word in blocks], match["name"]])
            if line.endswith("}") or line.endswith(";"):
                found.append(Function(name, path, before, at))
            else:
                open_at = name, indent, before
        elif not open_at and (match := BLOCK.match(line)):
            blocks.append((len(match["indent"]), block_name(match["kind"], match["rest"])))
        # What stands above a function belongs to it.
        if not line.strip() or line.rstrip().endswith(("{", "}")) and not open_at:
            before = at + 1
    return found


# What a derived trait adds to a type, and no file has.
DERIVED = {"fmt", "eq", "cmp", "partial_cmp", "clone", "default", "hash", "drop", "serialize", "described", "call_once", "call_mut"}


def short_name(function):
    """The end of a function's name, by which a check takes it: an `impl` may stand in another file than its type, whose name counts."""
    return "::".join(function.name.split("::")[-2:])


def near_names(crate, path):
    """Returns None where a crate may have a function or a module of this name, or of a name that ends so, and else names that are near it."""
    path = path.removeprefix(f"{crate}::")
    functions = functions_of(crate)
    last = path.split("::")[-1]
    if "<" in path or last in DERIVED or any(it.name.split("::")[-1] == last or f"::{path}::" in f"::{it.name}" for it in functions):
        return None
    return difflib.get_close_matches(last, {it.name.split("::")[-1] for it in functions}, 5, 0.6)
