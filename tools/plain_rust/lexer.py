"""Tokens of Rattle's Rust, and of Rust.

A token is deleted by a mark and stays in its list, so that what is left of a file can be held against its source at the end.
"""
import re

CLAUSES = ("requires", "ensures")
IDENT = re.compile(r"(?:r#)?[A-Za-z_][A-Za-z0-9_]*")
SPACE = re.compile(r"\s+")
# One token; the first form that fits is it. A block comment is only begun here, since such comments nest.
FORMS = re.compile(
    r"""(?P<space>\s+)|(?P<line>//[^\n]*)|(?P<block>/\*)"""
    r"""|(?P<raw>b?r(?P<hashes>#*)".*?"(?P=hashes))|(?P<string>b?"(?:[^"\\]|\\.)*")"""
    r"""|(?P<char>b?'(?:\\x[0-9a-fA-F]{2}|\\u\{[^}]*\}|\\.|[^\\'])')|(?P<lifetime>'[A-Za-z_][A-Za-z0-9_]*(?!'))"""
    rf"""|(?P<ident>{IDENT.pattern})|(?P<number>[0-9][0-9a-zA-Z_]*(?:\.[0-9][0-9a-zA-Z_]*)?)|(?P<punct>.)""",
    re.DOTALL,
)
KINDS = {"line": "comment", "block": "comment", "raw": "string"}


class Stop(Exception):
    """Text of a form that the exporter does not know."""


class Token:
    """A token, a stretch of white space, a comment, or (`antt`) a whole contract text. `made`: a rewrite wrote it. `gone`: it was deleted."""

    __slots__ = ("kind", "text", "made", "gone")

    def __init__(self, kind, text, made=False):
        self.kind, self.text, self.made, self.gone = kind, text, made, False

    def is_solid(self):
        """Whether it is neither white space nor a comment."""
        return self.kind not in ("space", "comment")

    def __repr__(self):
        return f"{self.kind}:{self.text!r}{' made' if self.made else ''}{' gone' if self.gone else ''}"


def after_string(s, i):
    """The end of the string whose opening quote stands at i."""
    i += 1
    while s[i] != '"':
        i += 2 if s[i] == "\\" else 1
    return i + 1


def after_comment(s, i):
    """The end of the comment at i; block comments are nested."""
    if s.startswith("//", i):
        end = s.find("\n", i)
        return len(s) if end < 0 else end
    depth, i = 1, i + 2
    while depth:
        if s.startswith("/*", i):
            depth, i = depth + 1, i + 2
        elif s.startswith("*/", i):
            depth, i = depth - 1, i + 2
        else:
            i += 1
    return i


def after_braces(s, i):
    """The end of the contract text in braces that begins at i. A quote ' is part of a name there."""
    if s[i : i + 1] != "{":
        raise Stop("no brace where a contract text begins: " + s[i : i + 40])
    depth = 0
    while True:
        if s[i] == '"':
            i = after_string(s, i)
            continue
        depth += {"{": 1, "}": -1}.get(s[i], 0)
        i += 1
        if depth == 0:
            return i


def one(s, i):
    """The kind and the end of the token at i."""
    match = FORMS.match(s, i)
    kind, end = match.lastgroup, match.end()
    if kind == "block":
        end = after_comment(s, i)
    if kind == "punct" and s[i] == '"':
        raise Stop("a string without an end")
    return KINDS.get(kind, kind), end


def every(s):
    """The kind and the text of each token of a text without contracts."""
    i = 0
    while i < len(s):
        for match in FORMS.finditer(s, i):
            kind, i = match.lastgroup, match.end()
            if kind == "block":
                i = after_comment(s, match.start())
                yield "comment", s[match.start() : i]
                break
            yield KINDS.get(kind, kind), match.group()


def rust_tokens(s, made=False):
    """The tokens of a text without contracts."""
    return [Token(kind, text, made) for kind, text in every(s)]


class Lexer:
    """Reads a source with its contracts. Each text in braces of a contract is one token of the kind `antt`."""

    def __init__(self, source):
        self.s, self.i, self.out = source, 0, []

    def take(self, kind, end):
        self.out.append(Token(kind, self.s[self.i : end]))
        self.i = end

    def step(self):
        kind, end = one(self.s, self.i)
        self.take(kind, end)
        return self.out[-1]

    def blanks(self):
        while self.i < len(self.s) and (match := SPACE.match(self.s, self.i)):
            self.take("space", match.end())

    def word(self):
        if match := IDENT.match(self.s, self.i):
            self.take("ident", match.end())
            return match.group(0)
        return None

    def antt(self):
        self.take("antt", after_braces(self.s, self.i))

    def clause(self):
        if self.s.startswith("*", self.i):
            self.step()
        self.blanks()
        if self.word():
            self.blanks()
        self.antt()

    def ghost_use(self):
        end = self.s.index(";", self.i)
        while self.s[self.i : end].count("{") != self.s[self.i : end].count("}"):
            end = self.s.index(";", end + 1)
        self.take("antt", end)
        self.step()

    def ghost(self):
        self.blanks()
        name = self.word()
        if name == "use":
            return self.ghost_use()
        self.blanks()
        if self.s[self.i : self.i + 1] not in ":=":
            raise Stop(f"a ghost of no known form: {name}")
        for sign in ":=":
            if self.s.startswith(sign, self.i):
                self.step()
                self.blanks()
                self.antt()
                self.blanks()
        return None

    def tokens(self):
        while self.i < len(self.s):
            token = self.step()
            if token.kind == "ident" and token.text in CLAUSES:
                self.clause()
            elif token.kind == "ident" and token.text == "ghost":
                self.ghost()
        return self.out


def tokens(source):
    """The tokens of a source with its contracts."""
    return Lexer(source).tokens()


def solid(ts):
    """The texts of the tokens that are left, without white space and comments."""
    return [t.text for t in ts if t.is_solid() and not t.gone]


def lenient(s):
    """The texts of all tokens of a source, read without any idea of contracts: what the check at the end goes by."""
    return [text for kind, text in every(s) if kind not in ("space", "comment")]


def is_subsequence(small, big):
    """Whether all of `small` stands in `big` in this order."""
    rest = iter(big)
    return all(any(x == y for y in rest) for x in small)


def step(ts, i, by=1):
    """The place of the next token (or, by -1, the one before) that is left and solid; the length, or -1, where there is none."""
    i += by
    while 0 <= i < len(ts) and (ts[i].gone or not ts[i].is_solid()):
        i += by
    return i


def closing(ts, i):
    """The place of the bracket that closes the one at i."""
    opening, close = ts[i].text, {"(": ")", "[": "]", "{": "}"}[ts[i].text]
    depth = 0
    for j in range(i, len(ts)):
        if ts[j].kind == "punct" and not ts[j].gone:
            depth += {opening: 1, close: -1}.get(ts[j].text, 0)
            if depth == 0:
                return j
    raise Stop("not closed: " + opening)


def text_of(ts):
    """What is left, as text."""
    return "".join(t.text for t in ts if not t.gone)
