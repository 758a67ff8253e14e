"""What an antt file declares: its records, its definitions' types, and the tokens right of each equation's `=`."""

from dataclasses import dataclass, field

from tokens import ANTT, CLOSE, places, spelled, split, tokens

HEADS = {"use", "pub mod", "module", "record", "data"}
MODES = {"pub", "abbrev", "unfoldable"}


@dataclass
class Equation:
    name: str
    left: list  # the patterns
    right: list


@dataclass
class Module:
    records: dict = field(default_factory=dict)  # name: [(field, type)]
    types: dict = field(default_factory=dict)  # definition: [type of each argument, .., of the result]
    equations: list = field(default_factory=list)
    uses: dict = field(default_factory=dict)  # module: the names that are taken from it


def read(text):
    module = Module()
    for item in items(tokens(text, ANTT)):
        words = [tok.text for tok in item if tok.text not in MODES]
        if words[0] == "use":
            take_use(module, item)
        elif words[0] == "record":
            take_record(module, item)
        elif words[0] in ("mod", "module", "data"):
            continue
        elif words[1:2] == [":"]:
            module.types[words[0]] = [spelled(part) for part in split(item[places(item, ":")[0] + 1 :], "→")]
        else:
            equals = places(item, "=")
            if equals:
                module.equations.append(Equation(words[0], item[1 : equals[0]], item[equals[0] + 1 :]))
    return module


def items(toks):
    """Each declaration and each equation: a line and the deeper lines after it. A module's block stands two deeper."""
    found, base, line = [], 1, 0
    for tok in toks:
        starts = tok.line != line
        line = tok.line
        if starts and tok.column <= base and tok.text not in CLOSE:
            base = tok.column
            found.append([])
        if found:
            found[-1].append(tok)
        if tok.text == "where" and found and found[-1][0].text == "module":
            base = found[-1][0].column + 2
    return found


def take_use(module, item):
    braces = [i for i, tok in enumerate(item) if tok.text == "{"]
    if braces:
        name = "".join(tok.text for tok in item[1 : braces[0]]).rstrip(".")
        module.uses[name] = ["".join(tok.text for tok in part) for part in split(item[braces[0] + 1 : -1], ",")]


def take_record(module, item):
    """Fields stand a line each, as `pub NAME : TYPE`."""
    name = next(tok.text for tok in item if tok.text not in MODES | {"record"})
    fields, lines = [], {}
    for tok in item:
        lines.setdefault(tok.line, []).append(tok)
    for line in list(lines.values())[1:]:
        words = [tok for tok in line if tok.text not in MODES]
        if len(words) > 2 and words[1].text == ":":
            fields.append((words[0].text, spelled(words[2:])))
    module.records[name] = fields
