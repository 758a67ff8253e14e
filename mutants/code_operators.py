"""Mutants of Rattle code: the bodies of functions alone."""

from operators import Mutant, numbers, swapped, text_between
from tokens import group_end, split

SIGNS = {
    "+": ("arithmetic", "-"),
    "-": ("arithmetic", "+"),
    "*": ("arithmetic", "+"),
    "+=": ("arithmetic", "-="),
    "-=": ("arithmetic", "+="),
    "==": ("comparison", "!="),
    "!=": ("comparison", "=="),
    "<": ("comparison", "<="),
    "<=": ("comparison", "<"),
    ">": ("comparison", ">="),
    ">=": ("comparison", ">"),
    "&": ("boolean", "|"),
    "|": ("boolean", "&"),
    "&&": ("boolean", "||"),
    "||": ("boolean", "&&"),
}
KEYWORDS = {"if", "else", "while", "return", "match", "in", "let", "mut", "as"}


class Body:
    """A function's body, with what is known of all crates: the structs, the functions, and what each constant is."""

    def __init__(self, file, lines, function, structs, functions, constants):
        self.file, self.lines, self.toks = file, lines, function.body
        self.structs, self.functions, self.constants = structs, functions, constants
        self.types = dict(function.params)
        self.arms = [i for i, tok in enumerate(self.toks) if tok.kind == "number" and self.text(i + 1) == "=>"]
        self.read_lets()

    def mutants(self):
        for i, tok in enumerate(self.toks):
            yield from self.at_sign(i, tok)
            yield from self.at_word(i, tok)
            if tok.kind == "number":
                yield from self.other_numbers(i, tok)
            elif tok.text in self.constants:
                yield from self.beside(tok)
        for arm, other in zip(self.arms, self.arms[1:]):
            yield from self.next_arm(arm, other)

    def change(self, tok, old, new, kind):
        return Mutant(self.file, tok.line, tok.column, old, new, kind)

    def text(self, i):
        return self.toks[i].text if 0 <= i < len(self.toks) else ""

    def two_sided(self, i):
        """A sign with an operand on its left; `&b` and `-1` have none."""
        if i == 0:
            return False
        before = self.toks[i - 1]
        is_name = before.kind == "word" and before.text not in KEYWORDS
        return is_name or before.kind == "number" or before.text in ")]"

    def at_sign(self, i, tok):
        if tok.text in SIGNS and self.two_sided(i):
            kind, new = SIGNS[tok.text]
            yield self.change(tok, tok.text, new, kind)
        elif tok.text == "!":
            yield self.change(tok, "!", "", "condition")

    def at_word(self, i, tok):
        if tok.text in ("true", "false"):
            yield self.change(tok, tok.text, "false" if tok.text == "true" else "true", "truth")
        elif tok.text in ("if", "while"):
            yield from self.negated(i)
        elif tok.kind == "word" and self.text(i + 1) == "(":
            yield from self.arguments(i)
        if tok.kind == "word" and self.text(i - 1) != "." and self.text(i + 1) == ".":
            yield from self.path(i)

    def other_numbers(self, i, tok):
        """A `match` takes each number once: an arm gets none that another has."""
        taken = {self.text(arm) for arm in self.arms} if i in self.arms else set()
        for new in numbers(tok):
            if new not in taken:
                yield self.change(tok, tok.text, new, "constant")

    def beside(self, tok):
        """A constant's neighbours: n + 1 and n - 1 in the place of its name."""
        value = self.constants[tok.text]
        for other in (value + 1, value - 1):
            if other >= 0:
                yield self.change(tok, tok.text, str(other), "constant")

    def next_arm(self, arm, other):
        """An arm of a `match` that calls what the next arm calls."""
        mine, its = self.toks[arm + 2], self.toks[other + 2]
        if self.text(arm + 3) == "(" and self.text(other + 3) == "(" and mine.text != its.text:
            yield self.change(mine, mine.text, its.text, "arm")

    def negated(self, i):
        """`if` and `while` with the opposite condition; not `if let`."""
        end = i + 1
        while self.text(end) not in ("{", ""):
            end = group_end(self.toks, end) if self.text(end) in "([" else end + 1
        if self.text(i + 1) != "let":
            old = text_between(self.lines, self.toks[i + 1], self.toks[end - 1])
            if old:
                yield self.change(self.toks[i + 1], old, f"!({old})", "condition")

    def path(self, i):
        """`x.a.b`: each field for the others of its struct that have its type; a path to a bool, negated."""
        at, kind = i, self.types.get(self.text(i))
        while self.text(at + 1) == "." and self.text(at + 3) != "(":
            name, fields = self.text(at + 2), dict(self.structs.get(kind, []))
            if name not in fields:
                return
            for other, its in fields.items():
                if other != name and its == fields[name]:
                    yield self.change(self.toks[at + 2], name, other, "field")
            at, kind = at + 2, fields[name]
        if kind == "bool" and at > i and self.text(i - 1) != "!" and self.text(at + 1) != "=":
            old = text_between(self.lines, self.toks[i], self.toks[at])
            if old:
                yield self.change(self.toks[i], old, "!" + old, "condition")

    def arguments(self, i):
        """A call with two arguments of one type in each other's place, where it stands in one line."""
        given = split(self.toks[i + 2 : group_end(self.toks, i + 1) - 1], ",")
        params = self.functions.get(self.text(i), [])
        params = [p for p in params if p[0] != "self"]
        if len(given) != len(params):
            return
        for a in range(len(given)):
            for b in range(a + 1, len(given)):
                pair = swapped(self.lines, given[a], given[b]) if params[a][1] == params[b][1] else None
                if pair:
                    yield self.change(given[a][0], *pair, "arguments")

    def read_lets(self):
        """`let c = x.found;` and `let q = meant_port(x);` give types to c and q."""
        for i in range(len(self.toks)):
            if self.text(i) != "let":
                continue
            name = i + 2 if self.text(i + 1) == "mut" else i + 1
            if self.text(name + 1) == "=":
                found = self.type_from(name + 2)
                if found:
                    self.types[self.text(name)] = found

    def type_from(self, i):
        if self.text(i + 1) == "(":
            return self.functions.get(self.text(i) + "()")
        kind = self.types.get(self.text(i))
        while self.text(i + 1) == "." and self.text(i + 3) != "(":
            kind = dict(self.structs.get(kind, [])).get(self.text(i + 2))
            i += 2
        return kind if self.text(i + 1) == ";" else None
