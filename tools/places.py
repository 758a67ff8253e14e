"""Counts the places of the eight points of docs/DESIGN-PASS.md in a checkout: python3 tools/places.py [FOLDER] [--list]"""

import collections
import glob
import re
import sys

LIST = "--list" in sys.argv
ROOT = next((a for a in sys.argv[1:] if not a.startswith("-")), ".")

CHOICES = ("wide", "one_if", "first", "either", "either_port", "either_carrier", "index", "broad", "roomy")
COMPARISONS = ("same", "same_codes", "all")
WORDS = ("if", "else", "while", "for", "in", "let", "mut", "match", "return", "true", "false", "as", "self")
LEAST = 14  # words and signs of a body that counts as a twin's


def files(where, ending):
    return sorted(glob.glob(f"{ROOT}/crates/*/{where}/**/*{ending}", recursive=True))


def named(path):
    return path[len(ROOT) + 1 :]


def read(path):
    with open(path, encoding="utf-8") as file:
        return file.read()


def plain(path):
    return re.sub(r"//[^\n]*", "", read(path))


def opens(text, begin):
    """Where the brace stands that opens a function's body, after its signature and clauses."""
    depth = 0
    for i in range(begin, len(text)):
        if text[i] == "{":
            clause = re.search(r"\b(requires|ensures)\b[^\n{]*$", text[begin:i])
            if depth == 0 and not clause:
                return i
            depth += 1
        elif text[i] == "}":
            depth -= 1
    return len(text)


def head(text, begin):
    return " ".join(text[begin : opens(text, begin)].split())


def shape(text, begin):
    """A function's body, with I for each name and N for each number."""
    i = j = opens(text, begin)
    depth = 0
    while j < len(text):
        depth += (text[j] == "{") - (text[j] == "}")
        j += 1
        if depth == 0:
            break
    words = re.findall(r"[A-Za-z_]\w*|\d\w*|\"[^\"]*\"|[^\s\w]", text[i:j])
    return " ".join(w if w in WORDS or not re.match(r"[\w\"]", w) else "N" if w[0].isdigit() else "I" for w in words)


def functions():
    """Each function as (file, name, parameters, result, clauses)."""
    for path in files("src", ".rt"):
        text = plain(path)
        for match in re.finditer(r"\bfn (\w+)", text):
            line = head(text, match.start())
            found = re.match(r"\((.*?)\)(?: -> (.*?))?(?= where | requires | ensures |$)(.*)", line[line.index("(") :])
            yield named(path), match.group(1), found.group(1), (found.group(2) or "").strip(), found.group(3)


def lines(pattern, where="src", ending=".rt"):
    found = []
    for path in files(where, ending):
        text = plain(path) if ending == ".rt" else read(path)
        for number, line in enumerate(text.split("\n"), 1):
            if re.search(pattern, line):
                found.append(f"{named(path)}:{number}: {line.strip()[:150]}")
    return found


def say(point, what, found):
    print(f"{point:3} {len(found):5}  {what}")
    if LIST:
        for place in found:
            print(f"           {place}")


every = list(functions())


def those(test):
    return [f"{p} {n}" for p, n, a, r, c in every if test(n, a, r, c)]


def numbers_a_refusal(n, a, r, c):
    return r in ("u8", "u32") and re.search(r"judge|\.answer|refusal|Wrote|Call |gave |judgement", c)


def chooses(n, a, r, c):
    return re.search(r"ensures (\w+ )?\{ result ≡ cond \w+ \w+ \w+ \}", c) and a.startswith("b: bool")


shapes = collections.defaultdict(list)
for path in files("src", ".rt"):
    text = plain(path)
    for match in re.finditer(r"\bfn (\w+)", text):
        body = shape(text, match.start())
        if len(body.split()) >= LEAST:
            shapes[body].append(f"{named(path)} {match.group(1)}")
twins = [f"{place}, of {len(group)}" for group in shapes.values() if len(group) > 1 for place in group]
facts = collections.Counter(
    f for p, n, a, r, c in every for f in re.findall(r"requires (?:\w+ )?\{ (.*?) \}", c)
)
enums = [
    f"{named(path)} {name}"
    for path in files("src", ".rt")
    for name in re.findall(r"enum (\w+)[^{]*\{\s*\w+\([^)]*\),\s*\w+(?:\([^)]*\))?,\s*\}", plain(path))
]

say("1a", "own enums of the shape of Option or Result", enums)
say("1b", "functions that return a refusal or an answer as u8 or u32", those(numbers_a_refusal))
say("1c", "fields that number a refusal, or flag whether the fields beside them hold",
    lines(r"^\s*pub (refusal|answer|says|same|fits|timely|known|estimated|tied|made|five): (u8|bool)"))
say("1d", "constants that number kinds", lines(r"^pub const \w+: usize = 0o"))
say("1e", "refusals as literals",
    lines(r"\bfirst\(.*, ([1-9]|2\d), |unmoved\(.*, ([1-9]|1\d)\)|^\s*(1|return 1;)$|refused\(2\d,"))
say("2a", "functions whose body is another's but for names and numbers", twins)
say("2b", "functions that choose one of two values, one for each type", those(chooses))
say("3", "loops that count an index by hand", lines(r"\bwhile "))
say("4a", "functions that convert, choose or compare by hand", those(lambda n, a, r, c: n in CHOICES + COMPARISONS))
say("4b", "calls of these", lines(r"(?<!fn )\b(" + "|".join(CHOICES) + r")\(|\.same\("))
say("5a", "functions that take an input's name and codes one by one",
    those(lambda n, a, r, c: re.search(r"name: &\[u8\],.*codes: &\[u8\]", a)))
say("5b", "functions that take its clock and time one by one",
    those(lambda n, a, r, c: re.search(r"clock: u32,.*time: u32", a)))
say("5c", "facts that three functions or more require",
    [f"{k} times {f}" for f, k in facts.most_common() if k >= 3])
say("6", "arrays or slices with their length beside",
    those(lambda n, a, r, c: re.search(r"\w+: &?\[\w+; \w+\], (n|count|places|used): usize", a))
    + lines(r"pub (coded|count): (usize|u8),"))
say("7", "switches on the number of an input or an answer", lines(r"match number|if number == \d"))
answers = files("proofs", "/Answers.antt") + files("proofs", "/Invariants.antt")
say("8a", "files of answers and invariants", [named(path) for path in answers])
print(f"8b  {sum(read(path).count(chr(10)) for path in answers):5}  their lines")
say("8c", "lines of proofs with over 200 characters", lines(r"^.{201,}", "proofs", ".antt"))
