#!/usr/bin/env python3
"""Holds messages and answers to tshark's dissector of HSMS: the same items at the same bytes, with the same values.

    tests/tshark/compare.py [--program target/hawsermole] [--texts docs/REPLIES.md] [N [SEED]]

N messages (2000) of random items within the reader's limits, each behind HSMS's length and ten bytes of header in a TCP
packet of its own. The reader's tree is what `secs` prints with --explain. Then the answers that `reply` writes for some
numbers: what tshark reads in them is what the request asks for, with the page's texts. Not in the gate: it needs
Debian's tshark.
"""
import argparse
import random
import re
import shutil
import struct
import subprocess
import sys
import tempfile
import xml.etree.ElementTree as xml

DEPTH, ITEMS, PORT = 6, 128, 5000
AT_ONCE = 200  # tshark's words for a message are many
# The formats that are read: code, SEMI E5's mnemonic, bytes of one element.
FORMATS = {0o00: ("L", 0), 0o10: ("B", 1), 0o11: ("BOOLEAN", 1), 0o20: ("A", 1), 0o30: ("I8", 8), 0o31: ("I1", 1),
           0o32: ("I2", 2), 0o34: ("I4", 4), 0o40: ("F8", 8), 0o44: ("F4", 4), 0o50: ("U8", 8), 0o51: ("U1", 1),
           0o52: ("U2", 2), 0o54: ("U4", 4)}
BEFORE_ITEMS = 14 + 20 + 20 + 4 + 10  # Ethernet, IP, TCP, HSMS's length and header
S3F17, S3F18 = (0x83, 17), (0x03, 18)  # the first asks for an answer
ANSWERS = [*range(41), 255, 256, 65535]


def head(draw, code, count):
    """A format byte and length bytes: the fewest, or more."""
    fewest = 1 if count < 256 else 2
    many = draw.choice([fewest, fewest, draw.randint(fewest, 3)])
    return bytes([code << 2 | many]) + count.to_bytes(3, "big")[3 - many:]


def item(draw, depth, left):
    """The bytes of a random item and how many items it is, at most `left`; lists may be opened to DEPTH."""
    if depth < DEPTH and draw.random() < (0.9 if depth == 0 else 0.35):
        elements = []
        while left > sum(count for _, count in elements) + 1 and draw.random() < 0.85:
            elements.append(item(draw, depth + 1, left - 1 - sum(count for _, count in elements)))
        inside = b"".join(text for text, _ in elements)
        return head(draw, 0, len(elements)) + inside, 1 + sum(count for _, count in elements)
    code = draw.choice([code for code in FORMATS if code != 0])
    size = FORMATS[code][1]
    values = draw.choice([0, 1, 1, 1, 2, 5]) if code not in (0o10, 0o20) else draw.choice([0, 1, 7, 40, 255, 256, 300])
    data = bytes(draw.choice([draw.randrange(256), 0, 0x41, 0x7F, 0x80, 0xFF]) for _ in range(size * values))
    if code == 0o20:
        data = bytes(0x20 + byte % 0x5F for byte in data)
    return head(draw, code, len(data)) + data, 1


def packet(kind, message, number):
    """A TCP packet with the message, from an address of its own."""
    hsms = struct.pack(">IHBBBBI", 10 + len(message), 1, *kind, 0, 0, number) + message
    tcp = struct.pack(">HHIIBBHHH", 40000, PORT, 1, 1, 5 << 4, 0x18, 65535, 0, 0) + hsms
    address = 0x0A000000 + number
    ip = struct.pack(">BBHHHBBHII", 0x45, 0, 20 + len(tcp), 0, 0, 64, 6, 0, address, 0x0AFFFFFF) + tcp
    return bytes(12) + b"\x08\x00" + ip


def capture(kind, messages):
    out = struct.pack("<IHHiIII", 0xA1B2C3D4, 2, 4, 0, 0, 262144, 1)
    for number, message in enumerate(messages):
        bytes_of = packet(kind, message, number)
        out += struct.pack("<IIII", number, 0, len(bytes_of), len(bytes_of)) + bytes_of
    return out


def by_tshark(kind, messages):
    """For each message its items: where, how deep, format, values."""
    with tempfile.NamedTemporaryFile(suffix=".pcap") as file:
        file.write(capture(kind, messages))
        file.flush()
        words = ["tshark", "-r", file.name, "-d", f"tcp.port=={PORT},hsms", "-T", "pdml"]
        told = subprocess.run(words, stdout=subprocess.PIPE, stderr=subprocess.DEVNULL, check=True).stdout
    trees = []
    for one in xml.fromstring(told).iter("packet"):
        protocols = [proto for proto in one.iter("proto") if proto.get("name") == "hsms"]
        found = []
        for proto in protocols:
            for field in proto:
                gather(field, 0, found)
        trees.append(found)
    return trees


def gather(field, depth, found):
    """The item of a field, if it is one, and those in it."""
    heads = [part for part in field if part.get("show", "").startswith("Data format:")]
    if not heads:
        return
    format_of = next(part for part in heads[0] if part.get("name") == "hsms.data.item.format")
    code = int(format_of.get("show"))
    length = next(part for part in field if part.get("name") == "hsms.data.item.length")
    values = [part for part in field if part.get("name", "").startswith("hsms.data.item.value")]
    found.append((int(field.get("pos")) - BEFORE_ITEMS, depth, FORMATS[code][0], shown(code, length, values)))
    for part in field:
        gather(part, depth + 1, found)


def shown(code, length, values):
    """A list's elements, the bytes of texts and floats, and the numbers as tshark shows them."""
    raw = "".join(value.get("unmaskedvalue", value.get("value", "")) for value in values)
    name = FORMATS[code][0]
    if name == "L":
        return [length.get("show")]
    if name in ("A", "B"):
        return [raw]
    if name in ("F4", "F8"):
        return [raw[at:at + 2 * FORMATS[code][1]] for at in range(0, len(raw), 2 * FORMATS[code][1])]
    if name == "BOOLEAN":
        return [str(int(raw[at:at + 2], 16)) for at in range(0, len(raw), 2)]
    return [value.get("show") for value in values]


def by_reader(program, messages):
    """The same of the command line's lines below `secs REFUSAL ITEMS`; each message is read to its end."""
    script = "".join(f"secs {message.hex()}\n" for message in messages)
    words = [program, "--explain", "-"]
    told = subprocess.run(words, input=script, stdout=subprocess.PIPE, text=True, check=True).stdout
    trees = []
    for line in told.splitlines():
        begun = re.fullmatch(r"secs (\d+) (\d+)", line)
        one = re.fullmatch(r"  +(\d+)  ((?:  )*)(L,\d+|[A-Z][A-Z0-9]* .*)", line)
        if begun:
            if begun[1] not in ("0", "26"):
                sys.exit(f"message {len(trees)} is refused with {begun[1]}")
            trees.append([])
        elif one:
            trees[-1].append((int(one[1]), len(one[2]) // 2, *parsed(one[3])))
    return trees


def parsed(text):
    """The mnemonic and the values of an item as the command line prints it."""
    if text.startswith("L,"):
        return "L", [text[2:]]
    name, _, values = text.partition(" ")
    if name == "A":
        escaped = values[1:-1].replace("\\'", "'").replace('\\"', '"')
        return name, [escaped.replace("\\\\", "\\").encode().hex()]
    if values == "-":
        return name, [""] if name == "B" else []
    if name == "B":
        return name, [values.replace(" ", "")]
    return name, re.findall(r"\(([0-9a-f]+)\)", values) if name in ("F4", "F8") else values.split()


def compared(program, messages):
    """All items of the messages, which are the same to both; else the first that isn't ends the run."""
    one, other = by_reader(program, messages), by_tshark(S3F17, messages)
    if not len(messages) == len(one) == len(other):
        sys.exit(f"{len(messages)} messages, {len(one)} read, {len(other)} dissected")
    for message, read, dissected in zip(messages, one, other):
        if read != dissected:
            differ = next((pair for pair in zip(read, dissected) if pair[0] != pair[1]), (len(read), len(dissected)))
            sys.exit(f"DIFFERENT: {message.hex()}\nread       {differ[0]}\ndissected  {differ[1]}")
    return [found for tree in one for found in tree]


def texts_of(page):
    """The page's table: a text for each refusal, and one for every other number."""
    with open(page, encoding="utf-8") as file:
        table = re.search(r"^\| *number *\| *text *\|\n\|[-: |]+\|\n((?:\|.*\n?)+)", file.read(), re.MULTILINE)
    rows = re.findall(r"^\| *(\d+|other) *\| *([^|]+?) *\|$", table[1] if table else "", re.MULTILINE)
    texts = dict(rows)
    if len(rows) != len(texts) or texts.keys() != {"other", *map(str, [*range(1, 15), *range(20, 30)])}:
        sys.exit(f"{page} has other rows than one for each refusal and one for other: {[name for name, _ in rows]}")
    return texts


def answer_of(number, texts):
    """The bytes that an answer has and its items, as the request asks for them; one length byte is the shortest."""
    acknowledge = 0 if number == 0 else 3 if number == 1 or 20 <= number <= 26 else 5
    head = [(0, 0, "L", ["2"]), (2, 1, "U1", [str(acknowledge)]), (5, 1, "L", ["0" if number == 0 else "1"])]
    if number == 0:
        return 7, head
    text = texts.get(str(number), texts["other"]).encode()
    return 15 + len(text), head + [(7, 2, "L", ["2"]), (9, 3, "U2", [str(number)]), (13, 3, "A", [text.hex()])]


def answered(program, texts):
    """Every answer that the program writes has the items that the request asks for, to tshark."""
    script = "".join(f"reply {number} 200\n" for number in ANSWERS)
    told = subprocess.run([program, "-"], input=script, stdout=subprocess.PIPE, text=True, check=True).stdout
    written = [bytes.fromhex(text) for text in re.findall(r"^reply 0 ([0-9a-f]+)$", told, re.MULTILINE)]
    dissected = by_tshark(S3F18, written)
    if not len(ANSWERS) == len(written) == len(dissected):
        sys.exit(f"{len(ANSWERS)} answers, {len(written)} written, {len(dissected)} dissected")
    for number, text, items in zip(ANSWERS, written, dissected):
        asked_for = answer_of(number, texts)
        if (len(text), items) != asked_for:
            sys.exit(f"DIFFERENT: reply {number}: {text.hex()}\ndissected  {len(text), items}\nasked for  {asked_for}")
    return sum(len(items) for items in dissected)


def main():
    words = argparse.ArgumentParser(description=__doc__.splitlines()[0])
    words.add_argument("--program", default="target/hawsermole")
    words.add_argument("--texts", default="docs/REPLIES.md")
    words.add_argument("messages", nargs="?", type=int, default=2000)
    words.add_argument("seed", nargs="?", type=int, default=1)
    asked = words.parse_args()
    if shutil.which("tshark") is None:
        sys.exit("tshark isn't here: apt-get install tshark")
    draw = random.Random(asked.seed)
    items, met, deepest = 0, set(), 0
    for begun in range(0, asked.messages, AT_ONCE):
        many = min(AT_ONCE, asked.messages - begun)
        found = compared(asked.program, [item(draw, 0, ITEMS)[0] for _ in range(many)])
        items += len(found)
        met |= {name for _, _, name, _ in found}
        deepest = max([deepest] + [depth for _, depth, _, _ in found])
    if len(met) != len(FORMATS) or deepest != DEPTH:
        sys.exit(f"too little was met for this to mean anything: formats {sorted(met)}, an item in {deepest} lists")
    print(f"tshark: {asked.messages} messages, {items} items of {len(met)} formats, the same trees")
    items = answered(asked.program, texts_of(asked.texts))
    print(f"tshark: {len(ANSWERS)} answers, {items} items, as P13 asks for them")


main()
