"""Mutants of antt definitions: what stands right of an equation's `=`."""

from operators import Mutant, numbers, swapped, text_between
from tokens import CLOSE, OPEN, group_end

PRELUDE = "Rattle.std.specs.Prelude"
# old: kind, and for each new text the module that has it and the name it is taken by
SIGNS = {
    "&&": ("boolean", [("||", PRELUDE, "◌||◌")]),
    "||": ("boolean", [("&&", PRELUDE, "◌&&◌")]),
    "+": ("arithmetic", [("-", PRELUDE, "◌-◌")]),
    "-": ("arithmetic", [("+", PRELUDE, "◌+◌")]),
    "*": ("arithmetic", [("+", PRELUDE, "◌+◌")]),
    "eqb": ("comparison", [("leb", PRELUDE, "leb")]),
    "leb": ("comparison", [("ltb", PRELUDE, "ltb"), ("eqb", PRELUDE, "eqb")]),
    "ltb": ("comparison", [("leb", PRELUDE, "leb")]),
    "nat_le": ("comparison", [("nat_lt", PRELUDE, "nat_lt"), ("eqb", PRELUDE, "eqb")]),
    "nat_lt": ("comparison", [("nat_le", PRELUDE, "nat_le")]),
    "true": ("truth", [("false", PRELUDE, "false")]),
    "false": ("truth", [("true", PRELUDE, "true")]),
    "when": ("condition", [("unless", "Rattle.rules.specs.Row", "unless")]),
    "unless": ("condition", [("when", "Rattle.rules.specs.Row", "when")]),
}
TESTS = {"eqb", "leb", "ltb", "nat_le", "nat_lt"}
KNOWN = {test: ["ℕ", "ℕ", "Bool"] for test in ("leb", "ltb", "nat_le", "nat_lt")}
# what ends an operand of `==`
BOUNDS = {"&&", "||", ",", ";", "=", "(", ")", "{", "}", "∷", "."}
NUMBERS = {"u8", "u16", "u32", "u64", "usize"}


def plain(kind):
    """Every number of the code is an ℕ here."""
    return "ℕ" if kind in NUMBERS else kind


class Right:
    """The right side of an equation, with what is known of types: the records and the definitions of all crates."""

    def __init__(self, file, lines, equation, module, records, types):
        self.file, self.lines, self.toks = file, lines, equation.right
        self.uses, self.records, self.definitions = module.uses, records, {**types, **module.types, **KNOWN}
        kinds = module.types.get(equation.name, [])
        known = len(equation.left) < len(kinds)
        self.types = {tok.text: kind for tok, kind in zip(equation.left, kinds)} if known else {}

    def mutants(self):
        for i, tok in enumerate(self.toks):
            if tok.kind == "number":
                for new in numbers(tok):
                    yield self.change(tok, tok.text, new, "constant")
            elif tok.kind == "field":
                yield from self.fields(i)
                yield from self.calls(i)
            elif tok.text == "==":
                yield from self.equals(i)
            else:
                yield from self.signs(tok)
                yield from self.calls(i)

    def change(self, tok, old, new, kind, needs=""):
        return Mutant(self.file, tok.line, tok.column, old, new, kind, needs)

    def taken(self, module, name):
        """What has to be taken from a module: nothing, or a name more; None where the file takes none from there."""
        if any(name in names for names in self.uses.values()):
            return ""
        return f"{module}:{name}" if module in self.uses else None

    def signs(self, tok):
        kind, others = SIGNS.get(tok.text, ("", []))
        for new, module, name in others:
            needs = self.taken(module, name)
            if needs is not None:
                yield self.change(tok, tok.text, new, kind, needs)

    def atoms(self, i):
        """The arguments of the word at i: words, numbers and brackets, up to a sign or the end of the call."""
        found, at = [], i + 1
        while at < len(self.toks) and (self.toks[at].kind in ("word", "number") or self.toks[at].text in ("(", "[]")):
            end = group_end(self.toks, at) if self.toks[at].text == "(" else at + 1
            while end < len(self.toks) and self.toks[end].kind == "field":
                end += 1
            found.append(self.toks[at:end])
            at = end
        return found

    def equals(self, i):
        """`a == b` of numbers: at most, and not."""
        first = last = i
        while first > 0 and self.toks[first - 1].text not in BOUNDS - {")"}:
            first = self.opening(first - 1) if self.toks[first - 1].text == ")" else first - 1
        while last + 1 < len(self.toks) and self.toks[last + 1].text not in BOUNDS - {"("}:
            last = group_end(self.toks, last + 1) - 1 if self.toks[last + 1].text == "(" else last + 1
        if first == i or last == i:
            return
        left = text_between(self.lines, self.toks[first], self.toks[i - 1])
        right = text_between(self.lines, self.toks[i + 1], self.toks[last])
        old = text_between(self.lines, self.toks[first], self.toks[last])
        needs = self.taken(PRELUDE, "nat_le")
        if old and left and right and needs is not None:
            yield self.change(self.toks[first], old, f"nat_le ({left}) ({right})", "comparison", needs)
        needs = self.taken(PRELUDE, "not")
        if old and needs is not None:
            yield self.change(self.toks[first], old, f"not ({old})", "condition", needs)

    def calls(self, i):
        tok, atoms = self.toks[i], self.atoms(i)
        if tok.text == "not" and atoms:
            yield self.change(tok, "not ", "", "condition")
        elif tok.text == "cond" and len(atoms) == 3:
            yield from self.exchange(atoms[1], atoms[2], "condition")
        elif tok.text in TESTS and len(atoms) == 2:
            yield from self.negated(tok, atoms)
        # a field's word is called where it is a definition of a module with a name of its own
        kinds = self.definitions.get(tok.text.lstrip("."), [])
        if 2 <= len(atoms) == len(kinds) - 1:
            for a in range(len(atoms)):
                for b in range(a + 1, len(atoms)):
                    if kinds[a] == kinds[b]:
                        yield from self.exchange(atoms[a], atoms[b], "arguments")

    def exchange(self, left, right, kind):
        pair = swapped(self.lines, left, right)
        if pair:
            yield self.change(left[0], *pair, kind)

    def negated(self, tok, atoms):
        old, needs = text_between(self.lines, tok, atoms[-1][-1]), self.taken(PRELUDE, "not")
        if old and needs is not None:
            yield self.change(tok, old, f"not ({old})", "condition", needs)

    def fields(self, i):
        """`x.a.b`: a field for the others of its record that have its type."""
        name, fields = self.toks[i].text[1:], dict(self.records.get(self.kind_before(i), []))
        for other, kind in fields.items():
            if other != name and plain(kind) == plain(fields.get(name, "")):
                yield self.change(self.toks[i], "." + name, "." + other, "field")

    def kind_before(self, i):
        """The type of what a field is taken of: a variable, a field of one, a call in brackets; else the one record that
        has it."""
        before = self.toks[i - 1]
        if before.kind == "field":
            return dict(self.records.get(self.kind_before(i - 1), [])).get(before.text[1:])
        if before.kind == "word" and before.text in self.types:
            return self.types[before.text]
        head = self.toks[self.opening(i - 1) + 1].text if before.text == ")" else ""
        if head in self.definitions:
            return self.definitions[head][-1]
        having = [record for record, fields in self.records.items() if self.toks[i].text[1:] in dict(fields)]
        return having[0] if len(having) == 1 else None

    def opening(self, at):
        depth = 0
        while at >= 0:
            depth += (self.toks[at].text in CLOSE) - (self.toks[at].text in OPEN)
            if depth == 0:
                return at
            at -= 1
        return 0
