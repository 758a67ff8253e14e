"""All mutants of a repository, and the order in which they are drawn."""

import glob
import hashlib
import os

import antt
import rattle
from code_operators import Body
from definition_operators import Right
from operators import KINDS


# Files of specs/ that are tables of cases and what these need: definitions are tried against them.
TABLES = ("Inputs", "TwelveRows", "EveryRow", "EveryPair", "Reachable", "Conditions", "Pairs", "Effects", "Clauses",
          "Edges", "Judged", "Texts", "Cases")


def is_table(file):
    return os.path.basename(file).startswith(TABLES)


class Sources:
    """The files that may be changed, by their names from the top of the repository."""

    def __init__(self, root):
        self.texts = {}
        for pattern in ("crates/*/src/*.rt", "crates/*/specs/*.antt"):
            for path in sorted(glob.glob(os.path.join(root, pattern))):
                with open(path, encoding="utf-8") as file:
                    self.texts[os.path.relpath(path, root)] = file.read()
        self.code = {name: rattle.read(text) for name, text in self.texts.items() if name.endswith(".rt")}
        self.definitions = {name: antt.read(text) for name, text in self.texts.items() if name.endswith(".antt")}

    def digest(self):
        whole = hashlib.sha256()
        for name in sorted(self.texts):
            whole.update(f"{name}\0{self.texts[name]}\0".encode())
        return whole.hexdigest()[:16]

    def mutants(self):
        found = {}
        for mutant in [*self.code_mutants(), *self.definition_mutants()]:
            found.setdefault(mutant.key, mutant)
        return list(found.values())

    def code_mutants(self):
        structs, functions, constants = {}, {}, rattle.values(self.code.values())
        for module in self.code.values():
            structs.update(module.structs)
            for function in module.functions:
                functions[function.name] = function.params
                functions[function.name + "()"] = function.result
        for file, module in self.code.items():
            lines = self.texts[file].split("\n")
            for function in module.functions:
                yield from Body(file, lines, function, structs, functions, constants).mutants()

    def definition_mutants(self):
        records, types = {}, {}
        for module in self.code.values():
            records.update(module.structs)
        for module in self.definitions.values():
            records.update(module.records)
            types.update(module.types)
        for file, module in self.definitions.items():
            lines = self.texts[file].split("\n")
            for equation in module.equations:
                yield from Right(file, lines, equation, module, records, types).mutants()


def rank(seed, *words):
    """A number that looks drawn and is the same on every machine."""
    return hashlib.sha256("\0".join([str(seed), *words]).encode()).hexdigest()


def in_turn(queues):
    """One of each queue, then the next of each."""
    drawn = []
    while any(queues):
        drawn += [queue.pop(0) for queue in queues if queue]
    return drawn


def drawn(mutants, seed):
    """The order in which mutants of one crate are taken: file by file in turn, and in a file kind by kind."""
    files = {}
    for mutant in sorted(mutants, key=lambda m: rank(seed, m.key)):
        files.setdefault(mutant.file, {kind: [] for kind in KINDS})[mutant.kind].append(mutant)
    queues = []
    for file in sorted(files, key=lambda f: rank(seed, f)):
        kinds = sorted(KINDS, key=lambda kind: rank(seed, file, kind))
        queues.append(in_turn([files[file][kind] for kind in kinds]))
    return in_turn(queues)


def shares(mutants, total, least):
    """How many each crate gives: by its lines that can be changed, and none less than a few."""
    lines = {}
    for mutant in mutants:
        lines.setdefault(mutant.crate, set()).add((mutant.file, mutant.line))
    whole = sum(len(found) for found in lines.values())
    given = {}
    for crate, found in sorted(lines.items()):
        share = -(-total * len(found) // whole)
        given[crate] = min(max(least, share), len(found))
    return given
