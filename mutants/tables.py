"""What a run found, as tables in Markdown, and the one line that sums it up."""

import json
import re

from operators import KINDS

THEOREMS = ["the promises", "the twelve rows", "the run through every row", "the reachable answers", "the pairs",
            "the effects", "the clauses", "the edges", "the laws"]
CODE = "the code's proofs"
# How a reason begins where a theorem is refused that still holds: its proof names the text that was changed.
TEXT = "by its text:"
# What could not be shown of a function; safety: an index, a sum or a cast in its range.
NEEDED = ["what it ensures", "its loop's invariant", "that it ends", "what a callee requires", "safety",
          "a lemma of its proof", "a form that is not covered"]
NUMBER = re.compile(r"^(\S+?):\d+: ")


def tables(log, explained, every):
    """Prints all; 1 where a mutant was accepted that nobody has explained, or had no verdict."""
    with open(log, encoding="utf-8") as file:
        results = [json.loads(line) for line in file][1:]
    why = explanations(explained)
    for result in results:
        result["why"] = why.get(named(result["diff"]), "")
    code = [result for result in results if result["layer"] == "code"]
    definitions = [result for result in results if result["layer"] == "definition"]
    code_table(code)
    definition_table(definitions)
    kind_table(code, definitions)
    left = listed("Accepted", [result for result in results if result["verdict"] == "accepted"])
    by_text = [result for result in results if result["verdict"] == "refused" and result["why"].startswith(TEXT)]
    left += listed("Refused for a proof's text alone", by_text)
    left += listed("No verdict", [result for result in results if result["verdict"] == "unclear"])
    if every:
        all_of_them(results)
    print(summary(code, definitions))
    return 1 if left else 0


def explanations(path):
    """A mutant as its diff, without the line's number; below it, indented, why it is accepted."""
    found, name = {}, None
    with open(path, encoding="utf-8") as file:
        for line in file:
            if line.startswith("#") or not line.strip():
                continue
            if line.startswith(" "):
                found[name] = (found[name] + " " + line.strip()).strip()
            else:
                name = line.rstrip("\n")
                found[name] = ""
    return found


def named(diff):
    return NUMBER.sub(r"\1: ", diff)


def count(results, **wanted):
    return sum(all(result.get(name) == value for name, value in wanted.items()) for result in results)


def counted(results):
    return [result for result in results if result["verdict"] != "uncompiled"]


def crates(results):
    return sorted({result["crate"] for result in results})


def row(*cells):
    print("| " + " | ".join(str(cell) for cell in cells) + " |")


def head(*cells):
    print()
    row(*cells)
    print("|" + "---|" * len(cells))


def code_table(code):
    head("Code of", "Mutants", "Refused by the prover", *(f"for {need}" for need in NEEDED), "Accepted: equal",
         "Accepted: unexplained", "No verdict", "Did not compile", "Seconds each")
    for crate in [*crates(code), "all"]:
        mine = [result for result in code if crate in ("all", result["crate"])]
        accepted = [result for result in mine if result["verdict"] == "accepted"]
        equal = sum(bool(result["why"]) and not result["noticed"] for result in accepted)
        needs = [sum(result.get("need", "").startswith(need) for result in mine) for need in NEEDED]
        row(crate, len(counted(mine)), count(mine, verdict="refused"), *needs, equal, len(accepted) - equal,
            count(mine, verdict="unclear"), count(mine, verdict="uncompiled"), seconds(mine))


def definition_table(definitions):
    """A mutant stands in each column of what refused it."""
    names = [*THEOREMS, CODE]
    head("Definitions of", "Mutants", *(f"Refused by {name}" for name in names), "For a proof's text alone",
         "Accepted: explained", "Accepted: unexplained", "No verdict", "Did not compile", "Seconds each")
    for crate in [*crates(definitions), "all"]:
        mine = [result for result in definitions if crate in ("all", result["crate"])]
        accepted = [result for result in mine if result["verdict"] == "accepted"]
        explained = sum(bool(result["why"]) for result in accepted)
        text = sum(result["verdict"] == "refused" and result["why"].startswith(TEXT) for result in mine)
        refused = [sum(name in result["noticed"] for result in mine) for name in names]
        row(crate, len(counted(mine)), *refused, text, explained, len(accepted) - explained,
            count(mine, verdict="unclear"), count(mine, verdict="uncompiled"), seconds(mine))


def kind_table(code, definitions):
    head("What was changed", "Code: mutants", "refused", "Definitions: mutants", "refused")
    for kind in KINDS:
        cells = []
        for results in (code, definitions):
            mine = [result for result in counted(results) if result["kind"] == kind]
            cells += [len(mine), count(mine, verdict="refused")]
        row(kind, *cells)


def seconds(results):
    return f"{sum(result['seconds'] for result in results) / len(results):.0f}" if results else ""


def listed(title, results):
    """Each with what was compared and why it is accepted; returns how many nobody has explained."""
    if results:
        print(f"\n{title}:\n")
    for result in results:
        compared = f" Compared: {result['compared']}." if result.get("compared") else ""
        noticed = f" Noticed by {', '.join(result['noticed'])}." if result["noticed"] else ""
        print(f"- `{result['diff']}`{compared}{noticed} {result['why'] or '**Not explained.**'}")
    return sum(not result["why"] or "the comparisons" in result["noticed"] for result in results)


def all_of_them(results):
    head("Mutant", "Verdict", "Noticed by", "What could not be shown, and where first")
    for result in results:
        need = result.get("need") if result["layer"] == "code" else ""
        words = [need, *result.get("functions", [])[:1], result["first"][:120]]
        first = ", ".join(filter(None, words)).replace("|", "\\|")
        diff = f"`{result['diff']}`".replace("|", "\\|")
        row(diff, result["verdict"], ", ".join(result["noticed"]), first)


def summary(code, definitions):
    theorems = sum(bool(set(THEOREMS) & set(result["noticed"])) for result in definitions)
    proofs = sum(result["noticed"] == [CODE] for result in definitions)
    equal = sum(result["verdict"] == "accepted" and bool(result["why"]) and not result["noticed"] for result in code)
    explained = sum(result["verdict"] == "accepted" and bool(result["why"]) for result in definitions)
    return (f"\ncode: {len(counted(code))} mutants, {count(code, verdict='refused')} refused, {equal} equal; "
            f"definitions: {len(counted(definitions))} mutants, {theorems} by the promises, "
            f"{proofs} by the code's proofs, {explained} explained")
