#!/usr/bin/env python3
"""Writes a script of lines for the console, the same for the same seed: generate.py MAKE SEED LINES.

MAKE is the words after `store`, as 'masked strip 12 300'.
"""
import random
import sys

make, seed, count = sys.argv[1], int(sys.argv[2]), int(sys.argv[3])
r = random.Random(seed)
tags = ["50", "5A", "82", "84", "95", "9F02", "9F03", "9F10", "9F26", "9F36", "DF8121", "DF8115", "9F8109", "00", "0000", "FFFFFF"]


def case(text):
    return r.choice([text.upper(), text.lower(), "".join(r.choice([c.upper(), c.lower()]) for c in text)])


def tag():
    return case(r.choice(tags))


def value():
    n = r.choices([0, 1, 2, r.randrange(3, 30), r.randrange(30, 120), 254, 255, 256, 300], [6, 8, 8, 20, 12, 1, 2, 2, 1])[0]
    return case(bytes(r.randrange(256) for _ in range(n)).hex()) or "-"


def wrong():
    return r.choice([
        "put", "put 50", "put 50 0", "put 50 0G", "put 50 00 00", "put 5 00", "put - 00", "put 01020304 00", "put 50 --",
        "drop", "drop 50 50", "drop G0", "length", "length 123", "length -", "copy 50", "copy 50 1234567890", "copy 50 -1",
        "copy 50 +1", "copy 50 1x", "copy 50 0x10", "limits 1", "held 1", "Limits", "HELD", "list", "put50 00",
        "store", "store strip", "store strip 4", "store strip 4 20 1", "store masked", "store masked masked strip 4 20",
        "store directory 1234567890 1", "store directory a 1", "store area 4 20", "strip 4 20", "store masked 4 20", "\u00e9 50",
    ])


def line():
    kind = r.choices(["put", "drop", "length", "copy", "held", "limits", "wrong", "blank"], [40, 14, 12, 14, 8, 2, 6, 2])[0]
    if kind == "put":
        return f"put {tag()} {value()}"
    if kind in ("drop", "length"):
        return f"{kind} {tag()}"
    if kind == "copy":
        return f"copy {tag()} {r.choice([0, 1, 2, 10, 30, 119, 120, 255, 256, 260])}"
    if kind == "wrong":
        return wrong()
    if kind == "blank":
        return r.choice(["", "   ", "# put 50 00", "\t # x"])
    return kind


def dressed(text):
    if r.random() < 0.1:
        text = "  " + text.replace(" ", r.choice(["  ", "\t", " \t "]))
    if r.random() < 0.05:
        text += r.choice([" # comment", "#put 50 00", " #"])
    return text


print(f"store {make}")
for i in range(count - 1):
    print(f"store {make}" if i % 500 == 499 else dressed(line()))
