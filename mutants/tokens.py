"""Tokens of Rattle (.rt) and of antt (.antt), each with the line and column where it stands (both from 1)."""

import re
from dataclasses import dataclass


@dataclass(frozen=True)
class Token:
    kind: str  # word, number, field (antt: a projection, as `.port` of `x.port`), sign
    text: str
    line: int
    column: int

    @property
    def end(self):
        return self.column + len(self.text)


RATTLE = re.compile(
    r"""(?P<skip>\s+|//[^\n]*|b"(?:[^"\\]|\\.)*"|b'(?:[^'\\]|\\.)*')
    |(?P<number>(?:0x[0-9A-Fa-f_]+|0o[0-7_]+|\d[\d_]*)(?:[ui](?:8|16|32|64|size))?)
    |(?P<word>[^\W\d]\w*)
    |(?P<sign>=>|->|==|!=|<=|>=|&&|\|\||\+=|-=|\*=|\.\.=|\.\.|::|.)""",
    re.VERBOSE,
)

ANTT = re.compile(
    r"""(?P<skip>\s+|--[^\n]*)
    |(?P<number>0x[0-9A-Fa-f]+|0o[0-7]+|\d+)
    |(?P<field>(?<=[\w)'])\.[^\W\d]\w*)
    |(?P<word>[^\W\d](?:[\w'·]|-(?=\w))*)
    |(?P<sign>&&|\|\||\+\+|==|\[\]|.)""",
    re.VERBOSE,
)


def tokens(text, pattern):
    found, line, start = [], 1, 0
    for match in pattern.finditer(text):
        if match.lastgroup != "skip":
            found.append(Token(match.lastgroup, match.group(), line, match.start() - start + 1))
        breaks = match.group().count("\n")
        if breaks:
            line += breaks
            start = match.start() + match.group().rindex("\n") + 1
    return found


OPEN, CLOSE = "([{", ")]}"


def group_end(toks, at):
    """The position after the bracket that closes the one at `at`."""
    depth = 0
    for i in range(at, len(toks)):
        if toks[i].text in OPEN:
            depth += 1
        elif toks[i].text in CLOSE:
            depth -= 1
            if depth == 0:
                return i + 1
    return len(toks)


def places(toks, text):
    """Where a text stands in no bracket."""
    depth, found = 0, []
    for i, tok in enumerate(toks):
        if tok.text in OPEN:
            depth += 1
        elif tok.text in CLOSE:
            depth -= 1
        elif tok.text == text and depth == 0:
            found.append(i)
    return found


def split(toks, separator):
    """The parts between separators that stand in no bracket; no empty last part."""
    parts, start = [], 0
    for at in places(toks, separator):
        parts.append(toks[start:at])
        start = at + 1
    return parts + [toks[start:]] if start < len(toks) else parts


def spelled(toks):
    return " ".join(tok.text for tok in toks)
