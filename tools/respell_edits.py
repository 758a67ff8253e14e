#!/usr/bin/env python3
"""Brings the texts of must-fail edits to today's spelling, where their files no longer have them: a projection is written
tight, words of definitions are in snake case, and the kit's words have today's names. Prints what is left by hand.

usage: tools/respell_edits.py      at the top of the repository"""
import glob
import os
import re

WORDS = {"getD": "get_or", "sameName": "same_name"}


def snake(m):
    word = m.group(0)
    if word in WORDS:
        return WORDS[word]
    return re.sub(r"(?<=[a-z0-9])([A-Z])(?=[a-z0-9]|\b)", lambda h: "_" + h.group(1).lower(), word)


def turned(text):
    text = re.sub(r"(?<![\w'-])[a-z][\w']*(?:-[a-z][\w']*)*", lambda m: snake(m).replace("-", "_"), text)
    text = re.sub(r"(?<=[\w)]) \.(?=[a-z])", ".", text)
    while True:
        new = re.sub(r"(?<![\w'])\(([a-z][\w']*(?:\.[a-z][\w']*)+)\)", r"\1", text)
        if new == text:
            break
        text = new
    # f x.y is no longer (f x) .y: an application that is projected stands in parentheses
    return text


def clause(text):
    text = re.sub(r"\(now \((\w+) \.exit\)\)", r"\1.new", text)
    text = re.sub(r"\(now \((\w+) \.entry\)\)", r"\1.old", text)
    return text


def main():
    left = []
    for path in sorted(glob.glob("crates/*/must-fail/*.edit")):
        crate = path.split("/")[1]
        with open(path, encoding="utf-8") as f:
            lines = f.read().split("\n")
        target, out, changed = "", [], False
        fits = True
        for line in lines:
            if line.startswith("file: "):
                name = f"crates/{crate}/{line[6:]}"
                target = open(name, encoding="utf-8").read() if os.path.exists(name) else ""
            fits = fits and not (line.startswith("old: ") and target.count(line[5:]) != 1)
        if fits:
            continue
        for line in lines:
            if line.startswith(("old: ", "new: ")):
                line = line[:5] + turned(clause(line[5:]))
            out.append(line)
        ok = all(target.count(l[5:]) == 1 for l in out if l.startswith("old: "))
        if not ok:
            left.append((path, [l for l in out if l.startswith(("old: ", "new: "))]))
        with open(path, "w", encoding="utf-8") as f:
            f.write("\n".join(out))
    for path, texts in left:
        print("left:", path, *texts, sep="\n    ")


main()
