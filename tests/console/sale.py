#!/usr/bin/env python3
"""Writes lines about the parts of a sale for the console, the same for the same seed: sale.py SEED LINES.

First the edges, then LINES generated ones.
"""
import random
import sys

seed, count = int(sys.argv[1]), int(sys.argv[2])
r = random.Random(seed)
names = ["50", "57", "5A", "82", "84", "8C", "94", "95", "9A", "9C", "5F24", "5F2A", "5F34", "9F02", "9F03", "9F10", "9F1A", "9F1E", "9F26",
         "9F27", "9F33", "9F35", "9F36", "9F37", "9F4E", "9F8109", "9F8111", "9F811A", "DF8112", "DF8121", "DF8123"]
strange = ["00", "01", "1F00", "70", "77", "9F01", "9F8000", "9F817F", "BF0C", "DF01", "E1", "7F21", "FF", "9F8181"]
types = ["11", "21", "14", "24", "34", "23", "26", "36", "13", "16", "12", "15", "22", "25", "35", "00", "33", "FF"]
kinds = ["AAC", "TC", "ARQC"]


def some_bytes(n):
    return bytes(r.randrange(256) for _ in range(n)).hex().upper() or "-"


def dol(most):
    text = ""
    while r.random() < 0.8 and len(text) < 240:
        text += r.choice(names * 3 + strange) + f"{r.choice([0, 1, 2, 3, 4, 5, 6, 8, 10, 20, 60, r.randrange(most + 2)]) % 256:02X}"
    if r.random() < 0.15:
        text = text[: 2 * r.randrange(len(text) // 2 + 1)]
    return text or "-"


def entry():
    first = r.choice([0, 1, 1, 1, 2, 3, 254, 255])
    last = first + r.choice([-1, 0, 0, 1, 2, 5, 20])
    return f"{r.choice([8, 16, 16, 24, 120, 240, 240, 248, 0, 9, 255]):02X}{first:02X}{max(0, min(255, last)):02X}{r.choice([0, 0, 1, 2, 6]):02X}"


def amounts():
    floor = r.choice([0, 1, 1000, 999999999999, r.randrange(10**12)])
    paid = r.choice([floor - 1, floor, floor + 1, r.randrange(10**12)])
    return f"tvr {max(0, min(10**12 - 1, paid)):012d} {floor:012d}"


def bits():
    return "".join(f"{r.choice([0, 0, 0, 1, 2, 128, r.randrange(256)]):02X}" for _ in range(5))


def edges():
    yield "store directory 64 4096"
    for tag, wide in (("9F38", 252), ("8C", 255), ("DF856C", 255)):
        for n in (0, 1, 127, 128, 129, 251, 252, 253, 254, 255):
            yield f"put {tag} 9F37{n:02X}"
            yield "gpo"
            yield "generate TC"
        yield f"put {tag} 9F37{wide:02X}5001"
        yield "gpo"
        yield "generate ARQC"
        yield f"put {tag} 9F37{wide - 1:02X}5001"
        yield "gpo"
        yield "generate AAC"
        yield f"put {tag} -"
    for n in (255, 256, 257):
        yield f"dol 5080507F5{0}{n - 255:02X} {n}"
        yield f"dol 50FF50{n - 255:02X} 255"
    for tag in names + strange:
        for value in ("-", "12345F", "0123456789012345"):
            yield f"put {tag} {value}"
            for n in (0, 1, 2, 3, 4, 8, 9, 12):
                yield f"dol {tag}{n:02X} 255"
    for last in (63, 64, 65):
        yield f"afl 0801{last:02X}00"
        yield f"afl 0801{last - 1:02X}0010010100"
    yield "afl 0801FF00"
    yield "afl 0801020008020300"
    yield "afl 0801020010010200"
    for count in (0, 3, 4):
        yield f"afl 080103{count:02X}"
    for sfi in (0, 1, 30, 31):
        yield f"afl {sfi * 8:02X}010100"
    for paid in (999, 1000, 1001):
        yield f"tvr {paid:012d} 000000001000"
    for terminal in types:
        for tvr in ("0000000000", "0000008000"):
            for denial in ("0000000000", "0000008000"):
                for online in ("0000000000", "0000008000"):
                    yield f"decide {tvr} {denial} {online} {terminal}"
    for kind in kinds:
        for cid in ("00", "3F", "40", "7F", "80", "BF", "C0", "FF"):
            yield f"given {kind} {cid}"


def wrong():
    return r.choice(["dol", "dol 50", "dol 50 1", "dol 5001 x", "dol 5001 1 1", "dol 0G 1", "gpo 1", "GPO", "afl", "afl 08", "afl 0G", "afl 08 08",
                     "tvr 1 2", "tvr 00000000125A 000000001000", "tvr 000000001000", "decide", "decide 00 00 00 22",
                     "decide 0000000000 0000000000 0000000000 2200", "decide 0000000000 0000000000 0000000000",
                     "generate", "generate tc", "generate TC TC", "given", "given TC", "given TC 0040", "given XX 40", "given TC -"])


def line():
    kind = r.choices(["put", "drop", "dol", "gpo", "afl", "tvr", "decide", "generate", "given", "list", "wrong"], [20, 3, 20, 8, 12, 8, 8, 10, 5, 12, 3])[0]
    if kind == "put":
        return f"put {r.choice(names + strange)} {some_bytes(r.choice([0, 1, 2, 3, 5, 6, 8, 12, 40]))}"
    if kind == "drop":
        return f"drop {r.choice(names + ['9F38', '8C', 'DF856C'])}"
    if kind == "list":
        return f"put {r.choice(['9F38', '8C', 'DF856C'])} {dol(252)}"
    if kind == "dol":
        most = r.choice([0, 1, 5, 20, 100, 252, 255, 256, 1000])
        return f"dol {dol(most)} {most}"
    if kind == "afl":
        return f"afl {''.join(entry() for _ in range(r.choice([0, 1, 1, 2, 2, 3, 4])))[: 2 * r.choice([100, 100, 100, 3, 5])] or '-'}"
    if kind == "tvr":
        return amounts()
    if kind == "decide":
        return f"decide {bits()} {bits()} {bits()} {r.choice(types)}"
    if kind == "generate":
        return f"generate {r.choice(kinds)}"
    if kind == "given":
        return f"given {r.choice(kinds)} {some_bytes(1)}"
    if kind == "wrong":
        return wrong()
    return kind


for text in edges():
    print(text)
print("store masked strip 64 4416")
for _ in range(count):
    print(line())
