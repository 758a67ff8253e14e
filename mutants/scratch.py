"""A copy of the repository in which mutants are tried; what is proved there is kept, and put back after each mutant."""

import atexit
import glob
import os
import re
import shutil
import signal
import subprocess
import tempfile

from rattle import without_code
from said import Said, heard


def crates_in_order(root):
    """Each crate with those it stands on, bottom-up as crates.txt has them."""
    found = {}
    with open(os.path.join(root, "crates.txt"), encoding="utf-8") as file:
        for line in file:
            # a static library has that word after its name
            name, colon, deps = line.split("#")[0].partition(":")
            if colon:
                found[name.split()[0]] = deps.split()
    return found


def standing_on(crate, deps):
    """The crate, and those above it."""
    above = [crate]
    for name, below in deps.items():
        if name not in above and any(dep in above for dep in below):
            above.append(name)
    return above


class Scratch:
    def __init__(self, repo, limit, top=None):
        """`top`: the copy has this crate and those below it, without their code, so that theorems alone can refuse.
        It lies outside the repository, in which `rt ci` wants no other crates than its own."""
        self.repo, self.limit, self.top = repo, limit, top
        folder = tempfile.mkdtemp(prefix="mutants-")
        self.root, self.pristine = os.path.join(folder, "tree"), os.path.join(folder, "pristine")
        self.deps = crates_in_order(repo)
        if top:
            self.deps = {name: self.deps[name] for name in self.deps if name in [*self.deps[top], top]}
        self.above, self.touched, self.lean = [], set(), ""
        self.process = None
        atexit.register(shutil.rmtree, folder, ignore_errors=True)
        atexit.register(self.stop)

    def prepare(self, say):
        """Copies the repository with what is proved of it, and sees that each crate is proved before any change."""
        left_out = {"target", ".git", "__pycache__"}
        shutil.copytree(self.repo, self.root, ignore=lambda folder, names: left_out & set(names))
        if self.top:
            self.take_code_away()
        for crate in self.deps:
            verdict = self.check(crate, os.devnull).verdict
            say(f"{crate}: {verdict}")
            if verdict != "proved":
                raise SystemExit(f"mutants: {crate} is not proved as it is, so that nothing can be said of its mutants")
        for crate in self.deps:
            put_back(self.out(crate), os.path.join(self.pristine, crate))

    def out(self, crate):
        """Where `rt` keeps what it proved of a crate."""
        return os.path.join(self.root, "crates", crate, "out")

    def take_code_away(self):
        """Only the crates that count, their structs, and the proofs that belong to no function."""
        with open(os.path.join(self.root, "crates.txt"), "w", encoding="utf-8") as file:
            file.write("".join(f"{name}: {' '.join(below)}\n" for name, below in self.deps.items()))
        for name in os.listdir(os.path.join(self.root, "crates")):
            folder = os.path.join(self.root, "crates", name)
            if name not in self.deps:
                shutil.rmtree(folder)
                continue
            for path in glob.glob(os.path.join(folder, "src", "*.rt")):
                with open(path, encoding="utf-8") as file:
                    text = file.read()
                with open(path, "w", encoding="utf-8") as file:
                    file.write(without_code(text))
            for name in ("Proof.antt", "Answers.antt", "Invariants.antt"):
                for path in glob.glob(os.path.join(folder, "proofs", "**", name), recursive=True):
                    os.remove(path)
            shutil.rmtree(os.path.join(folder, "out"), ignore_errors=True)
            shutil.rmtree(os.path.join(folder, "must-fail"), ignore_errors=True)

    def with_change(self, mutant, text):
        self.above, self.touched, self.lean = standing_on(mutant.crate, self.deps), set(), ""
        with open(os.path.join(self.root, mutant.file), "w", encoding="utf-8") as file:
            file.write(mutant.changed(text))

    def restore(self, mutant, text):
        with open(os.path.join(self.root, mutant.file), "w", encoding="utf-8") as file:
            file.write(text)
        if self.lean:
            proofs = os.path.join("crates", self.lean, "proofs")
            put_back(os.path.join(self.repo, proofs), os.path.join(self.root, proofs))
        for crate in self.touched:
            put_back(os.path.join(self.pristine, crate), self.out(crate))

    def check(self, crate, log):
        self.touched |= {name for name in self.above if name == crate or name in self.deps[crate]}
        status, text = self.run(["rt", "check"], log, crate)
        return Said("unclear") if status is None else heard(status, text, f"crates/{crate}")

    def leave_out_theorems(self, crate, refused):
        """Takes away the theorems of a crate that no crate above cites, so that those can be asked;
        not if one that is cited is refused itself."""
        folder = os.path.join(self.root, "crates", crate, "proofs")
        files = [name for name in os.listdir(folder) if name.endswith(".antt") and name != "Lib.antt"]
        names = [name.removesuffix(".antt") for name in files]
        cited = cited_theorems(self.root, crate, self.above)
        if cited & refused or not set(names) - cited:
            return False
        self.lean = crate
        for name in set(names) - cited:
            os.remove(os.path.join(folder, name + ".antt"))
        lib = os.path.join(folder, "Lib.antt")
        kept = [line for line in lines_of(lib) if line.split()[-1:] and line.split()[-1] in cited]
        with open(lib, "w", encoding="utf-8") as file:
            file.write("".join(line + "\n" for line in kept))
        return True

    def compare(self, inputs, log):
        """The archive with the change in it, beside the independent program."""
        self.touched = set(self.above)
        return self.run(["make", "compare", f"N={inputs}"], log)[0]

    def run(self, command, log, crate=""):
        """The command's status and what it printed, in a crate's folder or at the top; no status where it took too
        long."""
        folder = os.path.join(self.root, "crates", crate) if crate else self.root
        self.process = subprocess.Popen(
            command, cwd=folder, stdout=subprocess.PIPE, stderr=subprocess.STDOUT, text=True, errors="replace",
            start_new_session=True, env={**os.environ, "RT_JOBS": "1"},
        )
        try:
            text, _ = self.process.communicate(timeout=self.limit)
            status = self.process.returncode
        except subprocess.TimeoutExpired:
            self.stop()
            text, status = self.process.communicate()[0], None
        with open(log, "a", encoding="utf-8") as file:
            file.write(f"$ {' '.join(command)}\n{text}\n")
        return status, text

    def stop(self):
        """Ends the command that runs, with all that it started."""
        if self.process and self.process.poll() is None:
            os.killpg(self.process.pid, signal.SIGKILL)


def lines_of(path):
    with open(path, encoding="utf-8") as file:
        return file.read().split("\n")


def cited_theorems(root, crate, above):
    """The proof files of a crate that the crates above it cite, and those that these cite in turn."""
    found, left = set(), set()
    for other in above:
        if other != crate:
            for path in glob.glob(os.path.join(root, "crates", other, "**", "*"), recursive=True):
                if path.endswith((".antt", ".rt")):
                    left |= set(re.findall(rf"Rattle\.{crate}\.proofs\.(\w+)", "\n".join(lines_of(path))))
    while left:
        name = left.pop()
        path = os.path.join(root, "crates", crate, "proofs", name + ".antt")
        if name not in found and os.path.exists(path):
            found.add(name)
            left |= set(re.findall(rf"Rattle\.{crate}\.proofs\.(\w+)", "\n".join(lines_of(path))))
    return found


def put_back(source, place):
    if os.path.isdir(place):
        shutil.rmtree(place)
    elif os.path.exists(place):
        os.remove(place)
    if os.path.isdir(source):
        shutil.copytree(source, place)
    elif os.path.exists(source):
        shutil.copy2(source, place)
