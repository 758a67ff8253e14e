"""One mutant: changed, checked, put back."""

import os
import time

from said import noticed_by


def try_mutant(scratch, sources, mutant, log, inputs):
    """What became of it, as a plain dictionary for the log."""
    text = sources.texts[mutant.file]
    with_code = {name.split("/")[1] for name, module in sources.code.items() if module.functions and not scratch.top}
    began = time.monotonic()
    open(log, "w").close()
    try:
        scratch.with_change(mutant, text)
        if mutant.layer == "code":
            result = check_code(scratch, mutant, log, inputs)
        else:
            result = check_definition(scratch, mutant, log, with_code)
    finally:
        scratch.restore(mutant, text)
    found = {
        "key": mutant.key,
        "diff": mutant.diff(text),
        "layer": mutant.layer,
        "crate": mutant.crate,
        "kind": mutant.kind,
    }
    return {**found, **result, "seconds": round(time.monotonic() - began, 1), "log": os.path.basename(log)}


def check_code(scratch, mutant, log, inputs):
    said = scratch.check(mutant.crate, log)
    if said.verdict != "proved":
        noticed = ["the prover"] if said.verdict == "refused" else []
        return {**outcome(said, mutant.crate, noticed), "need": said.need}
    status = scratch.compare(inputs, log)
    same = {0: "no difference", None: "took too long"}.get(status, "a difference, or it could not run")
    noticed = [] if status == 0 else ["the comparisons"]
    return {"verdict": "accepted", "noticed": noticed, "where": "", "first": "", "compared": same}


def check_definition(scratch, mutant, log, with_code):
    """The definition's own crate first, then those above it, up to the first that refuses."""
    for crate in scratch.above:
        said = scratch.check(crate, log)
        if said.verdict == "refused":
            noticed = noticed_by(crate, said, with_code)
            return outcome(said, crate, noticed + ask_the_code(scratch, crate, said, noticed, log, with_code))
        if said.verdict != "proved":
            return outcome(said, crate, [])
    return {"verdict": "accepted", "noticed": [], "where": "", "first": ""}


def ask_the_code(scratch, crate, said, noticed, log, with_code):
    """A theorem that isn't computed may be refused for its text alone: then the code's proofs are asked too."""
    if scratch.top:
        return []
    refused = {os.path.basename(file).removesuffix(".antt") for file, _, _ in said.errors}
    if noticed != ["the promises"] or not scratch.leave_out_theorems(crate, refused):
        return []
    for other in scratch.above[1:]:
        verdict = scratch.check(other, log).verdict
        if verdict != "proved":
            return ["the code's proofs"] if verdict == "refused" and other in with_code else []
    return []


def outcome(said, crate, noticed):
    return {
        "verdict": said.verdict,
        "noticed": noticed,
        "where": crate,
        "functions": said.functions,
        "first": said.first,
    }
