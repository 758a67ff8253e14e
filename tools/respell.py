#!/usr/bin/env python3
"""Brings the repository's own words of specs/ and proofs/ to snake case: 'readyToLoad' and 'ready-to-load' become
'ready_to_load'. Functions of src/, files, strings and the kit's names stay as they are.

usage: tools/respell.py [--dry]      at the top of the repository; prints what falls together, and then writes nothing
"""
import glob
import re
import sys

TOKEN = re.compile(r"[^\s(){}.;,«»\"|]+")
STRING = re.compile(r'("(?:[^"\\]|\\.)*")')
WORD = re.compile(r"[A-Za-z_][A-Za-z0-9_']*(?:-[A-Za-z0-9_\[\]']+)*")
HEAD = re.compile(r"^\s*(?:(?:abbrev|unfoldable|opaque|pub|record|data)\s+)*((?:[^\s(){}.;,:\"]+\s+)+?):\s")
USE = re.compile(r"\buse\s+([A-Za-z0-9_.'+-]+?)\.\{([^}]*)\}")
TACTICS = {"tt", "rw", "simp", "search", "assumption", "cc", "omega", "grind", "hlevel", "first_of", "subst", "absurd", "elim", "ap"}
KEEP = {"append-[]"}


def snake(name):
    if name in KEEP or name.startswith("+") or not re.match(r"^[a-z_]", name):
        return name
    name = re.sub(r"(?<=[a-z0-9])([A-Z])(?=[a-z0-9]|$)", lambda m: "_" + m.group(1).lower(), name)
    return name.replace("-", "_")


def read(path):
    with open(path, encoding="utf-8") as f:
        return f.read()


def declared(text):
    """The words that a proof file or a file of definitions declares, by any signature in it."""
    words = set()
    for line in text.split("\n"):
        m = HEAD.match(line.split(" -- ")[0])
        if m and not line.lstrip().startswith(("--", "use ", "let ")):
            words |= set(m.group(1).split())
    return words


def foreign(text, crates):
    """The words that a file brings in from the kit."""
    words = set()
    for m in USE.finditer(text):
        path = m.group(1).split(".")
        if path[0] == "Rattle" and len(path) > 1 and path[1] in crates:
            continue
        words |= {w.strip().split(" as ")[-1] for w in m.group(2).split(",")}
    return words


def code_and_comment(line, mark):
    at = line.find(mark)
    while at > 0 and line[:at].count('"') % 2:
        at = line.find(mark, at + 1)
    return (line, "") if at < 0 else (line[:at], line[at:])


def quoted(text, names):
    return re.sub(r"`[^`\s]*`", lambda m: WORD.sub(lambda w: names.get(w.group(0), w.group(0)), m.group(0)), text)


def turned(text, names, mark):
    lines = []
    for line in text.split("\n"):
        code, comment = code_and_comment(line, mark)
        pattern = WORD if mark == "//" else TOKEN
        parts = STRING.split(code)
        code = "".join(part if part.startswith('"') else pattern.sub(lambda m: names.get(m.group(0), m.group(0)), part) for part in parts)
        camel = {k: v for k, v in names.items() if "-" not in k}
        comment = quoted(WORD.sub(lambda m: camel.get(m.group(0), m.group(0)), comment), names)
        lines.append(code + comment)
    return "\n".join(lines)


def together(path, text, names, pattern, mark):
    """Words of one file that were two and would be one."""
    seen = {}
    for line in text.split("\n"):
        code = code_and_comment(line, mark)[0]
        for m in pattern.finditer(code):
            if code[m.start() - 1:m.start()] == ".":
                continue  # a module, or a field
            seen.setdefault(names.get(m.group(0), m.group(0)), set()).add(m.group(0))
    return [(path, new, sorted(old)) for new, old in sorted(seen.items()) if len(old) > 1]


def main(argv):
    crates = {line.split(":")[0].split()[0] for line in read("crates.txt").split("\n") if line.strip() and not line.startswith("#")}
    antt = sorted(glob.glob("crates/*/specs/**/*.antt", recursive=True) + glob.glob("crates/*/proofs/**/*.antt", recursive=True))
    source = sorted(glob.glob("crates/*/src/**/*.rt", recursive=True))
    edits = sorted(glob.glob("crates/*/must-fail/*.edit"))
    pages = ["README.md"] + sorted(glob.glob("docs/*.md"))
    own = set()
    for path in antt:
        own |= declared(read(path))
    names = {w: snake(w) for w in own if snake(w) != w}
    for path in antt:
        if not path.endswith("/Proof.antt"):
            for _, _, old in together(path, read(path), names, TOKEN, "--"):
                names.update({w: snake(w) + "_fact" for w in old if "-" in w and w in names})
    bad = [("tactic", v, [k]) for k, v in names.items() if v in TACTICS]
    out = {}
    for path in antt + source + edits:
        text = read(path)
        mine = {k: v for k, v in names.items() if k not in foreign(text, crates)}
        mark = "//" if path.endswith(".rt") else "--"
        mine.update({w: w + "_fact" for w in FACTS.get(path[len("crates/"):-len(".antt")], [])})
        if path.endswith("/Proof.antt"):
            mine.update({k: snake(k) for k in mine if mine[k].endswith("_fact") and "-" in k and re.search(r"\." + re.escape(k) + r"\b", text)})
        elif path.endswith(".antt"):
            bad += together(path, text, mine, WORD if mark == "//" else TOKEN, mark)
        if path.endswith(".edit"):
            if "file: src/" in text:
                mark = "//"
            head, rest = text.split("\nfile:", 1)
            new = head + "\nfile:" + turned(rest, mine, mark)
        else:
            new = turned(text, mine, mark)
        if new != text:
            out[path] = new
    for path in pages:
        text = read(path)
        new = quoted(text, names)
        if new != text:
            out[path] = new
    for it in bad:
        print("falls together:", *it)
    print(f"{len(names)} words, {len(out)} files")
    if bad or "--dry" in argv:
        return 1 if bad else 0
    for path, text in out.items():
        with open(path, "w", encoding="utf-8") as f:
            f.write(text)
    return 0


# A lemma and the definition that it is of had names that differ in a hyphen or a hump alone: the lemma ends in _fact.
FACTS = {
    "bridge/proofs/Exchanged": ["too_small"], "replies/proofs/Lent": ["too_small"], "counted/proofs/Ports": ["move_in"],
    "tally/proofs/Rows": ["move_in"], "items/proofs/Found": ["in_order"], "judge/proofs/InBytes": ["in_bytes"],
    "names/proofs/Lengths": ["is_name"], "names/proofs/Pass": ["is_name"], "nine/proofs/Few": ["not_left"],
    "passes/proofs/Bounds": ["zero_ended"], "queue/proofs/Outs": ["hands_out"], "queue/proofs/Ended": ["hands_out"],
    "queue/proofs/Stored": ["slot_map"], "rules/proofs/SoundTests": ["other_name"], "rules/proofs/Keep": ["other_name"],
    "rules/proofs/SoundParts": ["no_name"], "secs/proofs/Answered": ["not_taken"], "undo/proofs/Lifted": ["each_fits"],
    "undo/proofs/Paired": ["each_fits"], "undo/proofs/Queueing": ["each_fits"], "nine/proofs/Listed": ["not_left"],
    "replies/proofs/writer/accepted/Proof": ["too_small"],
}

if __name__ == "__main__":
    raise SystemExit(main(sys.argv[1:]))
