"""What the checker said of a mutant."""

import re
from dataclasses import dataclass, field

ERROR = re.compile(r"^(?P<file>\S+?):(?P<line>\d+):\d+: error(?P<code>\[[^\]]*\])?: (?P<words>.*)$", re.MULTILINE)
# An error that only follows from another: what was cited had been refused already.
FOLLOWS = "was not admitted (it has holes"
UNPROVED = re.compile(r"^fn (\S+): (?:not proved|no proof: expected[^;]*)(?P<calls>; it calls.*)?", re.MULTILINE)
# Where a proof is made without a file, what is left is said in a note.
LEFT = re.compile(r"^note: (?P<file>\S+?):(?P<line>\d+):\d+: (?P<words>it is not proved that .*)$", re.MULTILINE)
# Theorems that are computed, by their files.
COMPUTED = {
    "TwelveRows.antt": "the twelve rows",
    "EveryRow.antt": "the run through every row",
    "Reachable.antt": "the reachable answers",
    "Pairs.antt": "the pairs",
    "PairsInside.antt": "the pairs",
    "Effects.antt": "the effects",
    "Clauses.antt": "the clauses",
    "Edges.antt": "the edges",
    "Cases.antt": "the cases",
}
# A crate below is not proved, so that this one wasn't checked.
BELOW = re.compile(r"^rt: the library \S+ did not build", re.MULTILINE)
UNCOVERED = "the borrow checker does not cover"
# What could not be shown, by the name of the goal that a proof answers.
NEEDS = [
    ("what it ensures", re.compile(r"(returns(-.+)?|.*_spec)$")),
    ("its loop's invariant", re.compile(r".*-(init|preserved)(-.+)?$")),
    ("that it ends", re.compile(r".*-smaller(-.+)?$")),
    ("what a callee requires", re.compile(r".*-requires(-.+)?$")),
    ("safety", re.compile(r"(overflow_\w+|nonzero_\w+|(slice_|offset_)?bounds)-")),
]


@dataclass
class Said:
    verdict: str  # proved, refused, uncompiled, or unclear (no end within the time, or no word that is known here)
    errors: list = field(default_factory=list)  # (file, line, words), those that follow from no other
    functions: list = field(default_factory=list)  # whose proof was refused for a reason of their own
    need: str = ""  # of code: what could not be shown

    @property
    def first(self):
        if not self.errors:
            return ""
        file, line, words = self.errors[0]
        return f"{file}:{line}: {words}"


def heard(status, text, folder):
    """Reads what `rt check` printed in a crate's folder, and how it ended. Text that is refused as text, before any
    proof, is uncompiled."""
    # Crates below may stand before; the last is its own.
    ends = re.findall(r"^logic=(proved|not-proved)", text, re.MULTILINE)
    if status == 0 and ends[-1:] == ["proved"]:
        return Said("proved")
    if status == 0 or BELOW.search(text):
        return Said("unclear")
    errors = []
    for match in [*ERROR.finditer(text), *LEFT.finditer(text)]:
        if FOLLOWS not in match["words"]:
            errors.append((f"{folder}/{match['file'].removeprefix('./')}", int(match["line"]), match["words"]))
    functions = [match[1] for match in UNPROVED.finditer(text) if not match["calls"]]
    if any("/specs/" in file for file, _, _ in errors):
        return Said("uncompiled", errors)
    if ends[-1:] == ["not-proved"]:
        return Said("refused", errors, functions, need_of(text, errors))
    return Said("uncompiled" if any("/src/" in file for file, _, _ in errors) else "unclear", errors)


def need_of(text, errors):
    if UNCOVERED in text:
        return "a form that is not covered"
    names = re.findall(r"`([^`]*)`", errors[0][2]) if errors else []
    if not names:
        return "unknown"
    name = names[-1] if errors[0][2].startswith("it is not proved") else names[0]
    return next((need for need, pattern in NEEDS if pattern.match(name)), "a lemma of its proof")


def noticed_by(crate, said, with_code):
    """Which of our checks refused, in words; a crate without code has theorems on its definitions alone."""
    if crate in with_code:
        return ["the code's proofs"]
    names = []
    for file, _, _ in said.errors:
        name = COMPUTED.get(file.split("/")[-1], "the promises" if crate == "rules" else "the laws")
        if name not in names:
            names.append(name)
    return names
