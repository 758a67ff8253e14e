"""What a Rattle file declares: structs, constants, and functions with their parameters and their bodies' tokens."""

import re
from dataclasses import dataclass, field

from tokens import RATTLE, group_end, places, spelled, split, tokens

# A clause is a statement about the code and not code: it is never changed.
CLAUSES = {"requires", "ensures", "invariant", "measure", "reads"}


@dataclass
class Function:
    name: str
    owner: str  # the struct whose method it is, or nothing
    params: list  # (name, type), `self` included
    result: str
    body: list


@dataclass
class Module:
    structs: dict = field(default_factory=dict)  # name: [(field, type)]
    functions: list = field(default_factory=list)
    constants: dict = field(default_factory=dict)  # name: the tokens of its value


def read(text):
    toks = tokens(text, RATTLE)
    module, owner, owned = Module(), "", 0
    i = 0
    while i < len(toks):
        if i >= owned:
            owner = ""
        word = toks[i].text
        if word == "impl":
            owner, owned = toks[i + 1].text, group_end(toks, i + 2)
            i += 3
        elif word == "struct" and toks[i + 2].text == "{":
            end = group_end(toks, i + 2)
            module.structs[toks[i + 1].text] = members(toks[i + 3 : end - 1])
            i = end
        elif word == "const":
            at, end = i + places(toks[i:], "=")[0], i + places(toks[i:], ";")[0]
            module.constants[toks[i + 1].text] = toks[at + 1 : end]
            i = end
        elif word == "fn":
            function, i = read_function(toks, i, owner)
            module.functions.append(function)
        else:
            i += 1
    return module


def values(modules):
    """What each constant is, of all crates: a number, or reckoned from others by `+`, `-` and `*`."""
    left = {name: toks for module in modules for name, toks in module.constants.items()}
    known = {}
    while left:
        ready = {name: toks for name, toks in left.items() if reckonable(toks, known)}
        if not ready:
            raise ValueError(f"constants of unknown value: {', '.join(sorted(left))}")
        for name, toks in ready.items():
            known[name] = eval(spelled(without_casts(toks)), {"__builtins__": {}}, known)
            del left[name]
    return known


def without_casts(toks):
    return [tok for i, tok in enumerate(toks) if tok.text != "as" and (i == 0 or toks[i - 1].text != "as")]


def reckonable(toks, known):
    return all(tok.kind == "number" or tok.text in known or tok.text in "+-*" for tok in without_casts(toks))


def members(toks):
    found = []
    for part in split(toks, ","):
        names = [k for k, tok in enumerate(part) if tok.text == ":"]
        if names:
            found.append((part[names[0] - 1].text, spelled(part[names[0] + 1 :])))
    return found


def read_function(toks, at, owner):
    name = toks[at + 1].text
    end = group_end(toks, at + 2)
    params = [(n, t) for n, t in parameters(toks[at + 3 : end - 1], owner)]
    result = []
    while toks[end].text not in CLAUSES | {"{", ";"}:
        next_end = group_end(toks, end) if toks[end].text == "[" else end + 1
        result += toks[end:next_end]
        end = next_end
    while toks[end].text in CLAUSES:
        end = group_end(toks, end + 1)
    stop = group_end(toks, end) if toks[end].text == "{" else end + 1
    body = without_clauses(toks[end + 1 : stop - 1])
    return Function(name, owner, params, spelled(result[1:]), body), stop


def parameters(toks, owner):
    for part in split(toks, ","):
        if spelled(part).endswith("self"):
            yield "self", owner
        else:
            yield from members(part)


def without_clauses(body):
    """A body without `ghost` statements and without the clauses of its loops."""
    kept, i = [], 0
    while i < len(body):
        if body[i].text in CLAUSES and "{" in [tok.text for tok in body[i + 1 : i + 3]]:
            i = group_end(body, i + 1)  # a clause may have a name
        elif body[i].text == "ghost":
            while i < len(body) and body[i].text != ";":
                i = group_end(body, i) if body[i].text == "{" else i + 1
        else:
            kept.append(body[i])
            i += 1
    return kept


# As `rt fmt` lays a file out: an item of several lines begins and ends at its left edge.
CODE_ITEM = re.compile(
    r"^(?:#\[(?:tactic|cycle|unsafe)\b.*\n)*(?:impl .*|(?:pub )?(?:extern \S+ )?fn .*)\n(?:.*\n)*?\}\n"
    r"|^ghost use .*\n|^use .*::[a-z_]+;\n",
    re.MULTILINE,
)


def without_code(text):
    """A file without its functions: its structs and modules, which the definitions speak of."""
    return CODE_ITEM.sub("", text)
