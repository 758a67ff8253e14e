#!/usr/bin/env python3
"""Changes one operator, constant or condition at a time in the code and the definitions, checks, and says what noticed.

  mutants.py list [--all]     the sample as one-line diffs (--all: every mutant), checking nothing
  mutants.py run              try the sample; --resume takes up a run that was stopped
  mutants.py table            what the last run found, as tables
  mutants.py try TEXT         try the mutants whose diff has the text, in the sample or not; the log stays as it is
  .. --theorems               the same of document 01's definitions, refused by theorems about them alone
"""

import argparse
import json
import os
import queue
import signal
import sys
import threading

sys.dont_write_bytecode = True
sys.path.insert(0, os.path.dirname(os.path.abspath(__file__)))

from sample import Sources, drawn, is_table, shares  # noqa: E402
from scratch import Scratch, crates_in_order  # noqa: E402
from tables import tables  # noqa: E402
from try_one import try_mutant  # noqa: E402

SEED = "870312"
# The crate whose theorems hold document 01's definitions, and another seed for what is asked of them alone.
THEOREMS, THEOREMS_SEED = "rules", "210921"
REPO = os.path.dirname(os.path.dirname(os.path.abspath(__file__)))


def arguments():
    parser = argparse.ArgumentParser(description=__doc__, formatter_class=argparse.RawDescriptionHelpFormatter)
    parser.add_argument("command", choices=["list", "run", "table", "try"])
    parser.add_argument("text", nargs="?", default="", help="try: a part of a mutant's diff, as list --all prints it")
    parser.add_argument("--all", action="store_true", help="list: every mutant; table: every result")
    parser.add_argument("--code", type=int, default=110, metavar="N", help="at least N code mutants (110)")
    parser.add_argument("--definitions", type=int, default=55, metavar="N", help="at least N definition mutants (55)")
    parser.add_argument("--least", type=int, default=3, metavar="N", help="at least N of each crate (3)")
    parser.add_argument("--crate", help="this crate alone")
    parser.add_argument("--theorems", action="store_true", help="definitions against theorems alone")
    parser.add_argument("--resume", action="store_true", help="keep what the log has")
    parser.add_argument("--jobs", type=int, default=1, metavar="N", help="workers, each with its own copy (1)")
    parser.add_argument("--limit", type=int, default=600, metavar="S", help="seconds for a check (600)")
    parser.add_argument("--inputs", type=int, default=100000, metavar="N", help="inputs of a comparison (100000)")
    parser.add_argument("--work", help="log, and what was said (target/mutants, with --theorems target/theorems)")
    options = parser.parse_intermixed_args()
    options.top = THEOREMS if options.theorems else None
    options.seed = THEOREMS_SEED if options.theorems else SEED
    options.work = options.work or os.path.join(REPO, "target", "theorems" if options.theorems else "mutants")
    return options


def plan(sources, options):
    """For each layer and crate: how many are wanted, and the mutants in the order in which they are drawn."""
    if options.theorems:
        return theorems_plan(sources, options)
    found = []
    for layer, total in (("code", options.code), ("definition", options.definitions)):
        mutants = [mutant for mutant in sources.mutants() if mutant.layer == layer]
        for crate, share in shares(mutants, total, options.least).items():
            if options.crate in (None, crate):
                found.append((share, drawn([mutant for mutant in mutants if mutant.crate == crate], options.seed)))
    return found


def theorems_plan(sources, options):
    """The definitions that theorems have to hold: those of the crate and of the crates below, its tables apart."""
    crates = [*crates_in_order(REPO)[THEOREMS], THEOREMS]
    mutants = [m for m in sources.mutants() if m.layer == "definition" and m.crate in crates and not is_table(m.file)]
    given = shares(mutants, options.definitions, options.least)
    return [(given[crate], drawn([m for m in mutants if m.crate == crate], options.seed)) for crate in crates]


def show_list(sources, options):
    for share, mutants in plan(sources, options):
        for mutant in mutants if options.all else mutants[:share]:
            print(f"{mutant.layer:10} {mutant.kind:10} {mutant.diff(sources.texts[mutant.file])}")


class Run:
    """The workers' common part: the log, and what is left to try."""

    def __init__(self, sources, options):
        self.sources, self.options = sources, options
        self.path = os.path.join(options.work, "log.jsonl")
        self.lock, self.left, self.failed = threading.Lock(), queue.Queue(), []
        self.done = self.read_log() if options.resume and os.path.exists(self.path) else {}
        os.makedirs(os.path.join(options.work, "said"), exist_ok=True)
        if not self.done:
            with open(self.path, "w", encoding="utf-8") as file:
                file.write(json.dumps({"sources": sources.digest(), "seed": options.seed}) + "\n")
        for share, mutants in plan(sources, options):
            self.left.put((share, mutants))

    def read_log(self):
        with open(self.path, encoding="utf-8") as file:
            head, *lines = [json.loads(line) for line in file]
        if head != {"sources": self.sources.digest(), "seed": self.options.seed}:
            raise SystemExit("mutants: the log is of other sources; run without --resume")
        return {line["key"]: line for line in lines}

    def try_crate(self, scratch, share, mutants):
        """Until `share` mutants count; one that doesn't compile doesn't count, and the next is drawn in its place."""
        counted = 0
        for mutant in mutants:
            if counted == share:
                return
            result = self.done.get(mutant.key) or self.try_and_log(scratch, mutant)
            counted += result["verdict"] != "uncompiled"

    def try_and_log(self, scratch, mutant):
        text = f"{mutant.file}-{mutant.line}-{mutant.column}-{mutant.new}"
        name = "".join(c if c.isalnum() else "-" for c in text)[:120]
        log = os.path.join(self.options.work, "said", name + ".txt")
        result = try_mutant(scratch, self.sources, mutant, log, self.options.inputs)
        with self.lock:
            with open(self.path, "a", encoding="utf-8") as file:
                file.write(json.dumps(result, ensure_ascii=False) + "\n")
            show(result)
        return result

    def work(self):
        try:
            scratch = Scratch(REPO, self.options.limit, self.options.top)
            scratch.prepare(lambda words: print(f"as it is, {words}", flush=True))
            while True:
                self.try_crate(scratch, *self.left.get_nowait())
        except queue.Empty:
            pass
        except BaseException as error:
            self.failed.append(error)


def show(result):
    print(f"{result['verdict']:10} {result['seconds']:6.1f} s  {result['diff']}")
    print(f"{'':21}{', '.join(result['noticed'])}  {result.get('compared', '')}{result['first'][:150]}", flush=True)


def try_some(sources, options):
    os.nice(10)
    found = [mutant for mutant in sources.mutants() if options.text in mutant.diff(sources.texts[mutant.file])]
    if not options.text or not found:
        raise SystemExit("mutants: no mutant has that text; see `mutants.py list --all`")
    folder = os.path.join(options.work, "tried")
    os.makedirs(folder, exist_ok=True)
    scratch = Scratch(REPO, options.limit, options.top)
    scratch.prepare(lambda words: print(f"as it is, {words}", flush=True))
    for mutant in found:
        show(try_mutant(scratch, sources, mutant, os.path.join(folder, "said.txt"), options.inputs))


def run(sources, options):
    os.nice(10)
    signal.signal(signal.SIGTERM, lambda *_: sys.exit("mutants: stopped; --resume takes it up again"))
    os.makedirs(options.work, exist_ok=True)
    whole = Run(sources, options)
    workers = [threading.Thread(target=whole.work, daemon=True) for _ in range(options.jobs)]
    for worker in workers:
        worker.start()
    for worker in workers:
        worker.join()
    for error in whole.failed:
        raise error


def main():
    options = arguments()
    sources = Sources(REPO)
    if options.command == "list":
        return show_list(sources, options)
    if options.command == "try":
        return try_some(sources, options)
    if options.command == "run":
        run(sources, options)
    return tables(os.path.join(options.work, "log.jsonl"), os.path.join(REPO, "mutants", "explained.txt"), options.all)


if __name__ == "__main__":
    sys.exit(main())
