"""The mutants of a file: each changes one operator, constant or condition."""

import re
from dataclasses import dataclass

KINDS = ["arithmetic", "comparison", "boolean", "constant", "condition", "truth", "field", "arguments", "arm"]


@dataclass(frozen=True)
class Mutant:
    file: str  # from the top of the repository
    line: int
    column: int
    old: str
    new: str
    kind: str
    needs: str = ""  # a name that the new text takes from a module, as `module:name`

    @property
    def layer(self):
        return "code" if self.file.endswith(".rt") else "definition"

    @property
    def crate(self):
        return self.file.split("/")[1]

    @property
    def key(self):
        return f"{self.file}:{self.line}:{self.column}: {self.old} => {self.new}"

    def changed(self, text):
        lines = text.split("\n")
        line, at = lines[self.line - 1], self.column - 1
        if line[at : at + len(self.old)] != self.old:
            raise ValueError(f"{self.key}: the file has another text there")
        lines[self.line - 1] = line[:at] + self.new + line[at + len(self.old) :]
        if self.needs:
            lines = with_use(lines, *self.needs.split(":"))
        return "\n".join(lines)

    def diff(self, text):
        """One line: the text before and after, with what is changed between brackets."""
        line, at = text.split("\n")[self.line - 1], self.column - 1
        head, tail = line[:at].lstrip(), line[at + len(self.old) :]
        return f"{self.file}:{self.line}: {head}[-{self.old}-]{{+{self.new}+}}{tail}"


def with_use(lines, module, name):
    """The name added to the `use` of its module, so that the changed text knows it."""
    for i, line in enumerate(lines):
        if line.startswith(f"use {module}.{{"):
            lines[i] = line[:-1] + f", {name}}}"
            return lines
    raise ValueError(f"no use of {module}")


WRITTEN = re.compile(r"(0x[0-9A-Fa-f_]+|0o[0-7_]+|[0-9_]+)(.*)")
# how a number begins: its base, and the letter that writes it
BASES = {"0x": (16, "X"), "0o": (8, "o")}


def numbers(tok):
    """n + 1 and n - 1, written as n was."""
    digits, suffix = WRITTEN.fullmatch(tok.text).groups()
    start = digits[:2] if digits[:2] in BASES else ""
    base, letter = BASES.get(start, (10, "d"))
    value = int(digits[len(start) :], base)
    width = len(digits) - len(start) if start else 1
    for other in (value + 1, value - 1):
        if other >= 0:
            yield f"{start}{other:0{width}{letter}}{suffix}"


def text_between(lines, first, last):
    """The text from one token to another of the same line, or nothing."""
    if first.line != last.line:
        return None
    return lines[first.line - 1][first.column - 1 : last.end - 1]


def swapped(lines, left, right):
    """Two lists of tokens of one line, and the text with the two in each other's place; nothing if that's no change."""
    a, b = text_between(lines, left[0], left[-1]), text_between(lines, right[0], right[-1])
    whole = text_between(lines, left[0], right[-1])
    if whole is None or a is None or b is None or a == b:
        return None
    return whole, b + whole[len(a) : len(whole) - len(b)] + a
