#!/usr/bin/env python3
"""Writes a fixed script of the reader's edges for the console: edges.py MAKE [PART..].

MAKE is 'directory', 'strip', 'masked directory' or 'masked strip'. Without a PART all of them are written, in order.
"""
import sys

import cards
from cards import AMOUNT, CONFIG, CRYPTOGRAM, FCI, GOOD, OPTIONS, RECORD, amount, digits, obj, series, size, text, without
from texts import ENTRIES, tag_bytes

FCI_TEXT = text("6F", FCI)
OPTIONS_TEXT = text("77", OPTIONS)
RECORD_TEXT = text("70", RECORD)
CRYPTOGRAM_TEXT = text("77", CRYPTOGRAM)
STEPS = ["fci", "options", "record", "cryptogram"]
OUTER = dict(zip(STEPS, ["6F", "77", "70", "77"]))
INSIDE = dict(zip(STEPS, [FCI, OPTIONS, RECORD, CRYPTOGRAM]))
CIDS = ["00", "3F", "40", "7F", "80", "BF", "C0", "FF"]
BIT = "0000008000"
NONE = "0000000000"
UNKNOWN = ["C1", "DF8124", "9F08", "9F8101", "9F811B", "4F", "70", "A5", "BF0C", "FF8105"]
ENDS = ["outcome", "state", "copy DF8115 6", "record", "held", "clear"]


def store(total, objects=64):
    return cards.store(MAKE, total, objects)


def opened(config=CONFIG, terminal=400, card=3000, more=""):
    """A reader over a store that has just the room."""
    yield store(size(config) + terminal + card + 16)
    yield f"open {size(config)} {terminal} {card} {digits(series(config) + more)}"


def card_lines(fci=FCI_TEXT, options=OPTIONS_TEXT + GOOD, record=RECORD_TEXT + GOOD, cryptogram=CRYPTOGRAM_TEXT + GOOD, write=AMOUNT):
    """A sale up to its last answer; where it ends before, the answers that follow are refused."""
    yield f"write {write}"
    yield f"begin {digits(fci)}"
    yield f"answer {digits(options)}"
    yield f"answer {digits(record)}"
    yield f"answer {digits(cryptogram)}"


def sale(ends=ENDS, **texts):
    yield from card_lines(**texts)
    yield from ends


def with_text(step, body, ends=ENDS):
    """A sale up to a text that is replaced."""
    yield from list(card_lines(**{step: body + ("" if step == "fci" else GOOD)}))[: STEPS.index(step) + 2]
    yield from ends


def tag_word(tag):
    return tag_bytes(tag).hex().upper()


# openings


def openings():
    yield from outside_sizes()
    yield from opening_order()
    for config in ({}, {"DF8123": ""}):
        yield from opened(config)
        yield "held"
        yield "begin -"
        yield f"write {AMOUNT}"
        yield "begin -"
    yield from opened({}, 0, 0)
    for line in ("write -", "write 9C00", "write 9C0101", "held", "begin 6F00", "clear", "held"):
        yield line
    for tag in CONFIG:
        for config in ({**CONFIG, tag: ""}, without(CONFIG, tag)):
            yield from opened(config)
            for line in ("write 9F0200", "begin 6F00", f"write {AMOUNT}", "begin 6F00", "state", "outcome", f"object {tag}", f"length {tag}"):
                yield line
    for config in ({}, {"9F35": "22"}, {"9F35": "22", "DF8122": NONE}, {"DF8121": NONE, "DF8123": ""}):
        yield from opened(config)
        for line in ("begin 6F00", f"write {AMOUNT}", "begin 6F00", "write 9F0200", "begin 6F00"):
            yield line


def outside_sizes():
    """The store one object and one byte below, at and above what the shares need."""
    full = series(CONFIG)
    need = size(CONFIG) + 284 + 400 + 16
    after = ["held", "limits", "state", "put 50 41", "drop 50"]
    for objects, total in ((63, need), (64, need - 1), (65, need), (64, need), (64, need + 1), (0, 0), (1, need), (1000, need)):
        yield store(total, objects)
        yield f"open {size(CONFIG)} 284 400 {full}"
        yield from after
    for short in ("strip 64 319", "strip 64 320", "strip 64 336", "masked strip 64 335", "strip 0 0", "directory 64 15", "directory 64 16"):
        yield f"store {short}"
        yield "open 0 0 0 -"
        yield from after
    yield store(need)
    most = 999999999
    for shares in ((23, 284, 401), (23, 285, 400), (24, 284, 400), (most, most, most), (0, 0, most), (0, most, 0), (most, 0, 0), (22, 285, 400),
                   (0, 0, 0), (22, 0, 0)):
        yield "open {} {} {} {}".format(*shares, full)
        yield "held"


def opening_order():
    """Each refusal of opening while all the later ones would come too."""
    full = series(CONFIG)
    good = f"open {size(CONFIG)} 284 400 {full}"
    worst = "open 999999999 999999999 999999999 9F"
    yield store(size(CONFIG) + 700)
    yield from ["put 50 41", good, worst, "put 50 -", good, "drop 50", "lend 0 63", good, "put 50 41", worst, "lend 0 64", worst, "drop 50", worst]
    yield from ["open 0 0 0 9F", "open 0 0 0 5000", "open 0 0 0 9F35", "open 0 0 0 9F350122", f"open 22 284 400 {full}", "held", good, "state", "held"]
    yield from [good, "lend 0 0", worst, "open 1 1 1 -"]
    for lent in ("260 64", "261 63", "0 64", "4096 64"):
        yield f"lend {lent}"
        yield from opened()
        yield from [f"write {AMOUNT}", "begin 6F00", "state", "held"]
    yield "lend 4096 64"


# dictionary


def values_of(tag, writers):
    """Values at and beyond the lengths of an object, and with digits beyond the decimal ones; few where it is not these writers'."""
    entry = ENTRIES.get(int(tag, 16))
    least, most = (entry.least, entry.most) if entry else (1, 4)
    if entry is None or entry.writer not in writers or "9F8111" < tag < "9F811A":
        values = ["", "12" * most, "1A" * (most + 1)]
    else:
        values = ["12" * n for n in (0, least - 1, least, most, most + 1)] + ["1A" * (most + 1)]
        for n in (least, most) if entry.form in ("n", "cn") else (least,):
            values += ["12" * (n - 1) + last for last in ("99", "1A", "A1", "1F", "F1")] + [first + "12" * (n - 1) for first in ("A9", "1F")]
            values += ["12" + "FF" * (n - 1), "1F" + "FF" * (n - 1), "FF" * n]
    return list(dict.fromkeys(values))


def dictionary():
    for tag in [tag_word(tag) for tag in ENTRIES] + UNKNOWN:
        for value in values_of(tag, "G"):
            yield store(800)
            yield f"open 300 100 100 {obj(tag, value)}"
            yield f"object {tag}"
        yield from opened()
        for begun in (False, True):
            for value in values_of(tag, "TD"):
                yield f"write {obj(tag, value)}"
                yield f"length {tag}"
            yield "clear"
            if not begun:
                yield f"write {AMOUNT}"
                yield f"begin {FCI_TEXT}"
        for value in values_of(tag, "C"):
            yield f"write {AMOUNT}"
            yield f"begin {text('6F', {tag: value})}"
            yield from ["outcome", f"length {tag}", "clear"]
        for value in values_of(tag, "C")[:4]:
            beside = without(RECORD, tag) if len(value) < 400 else {}
            yield f"write {AMOUNT}"
            yield f"begin {text('6F', {})}"
            yield f"answer {OPTIONS_TEXT}{GOOD}"
            yield f"answer {text('70', {tag: value, **beside})}{GOOD}"
            yield from ["outcome", f"length {tag}", "clear"]


# own texts

OWN = """
9F 9F81 9F8181 9F81810100 5082000141 5080 5081 50 9F02 50034142 9F0206000000 7001 70029F02 7003500341 E106E104E102C100 E108E106E104E102C100
E10AE108E106E104E102C100 E108E106E104E102E100 7000 E102C100 70039C0112 E1009C0112 700450039C009C0112 70035003419C00 9C007000 70009C00 C100
9C0112C10112 5000 9500 DF811500 DF812306000000009999 9F350122 9C021212 9C011A 9C009C00 9C01129C00 9C009C0112 9C01129C0112 9C011A9C021212
9A039912319C0112 009A039912310000009C01120000 9C8101129A810399123100 - 00 0000 9C01129F 9C01129F818100 9C0112DF812300 DF8123009C0112
DF8123060000000010009C0112 DF812300DF812300 DF812306000000001000DF812300 9F350122DF810000 9F350122DF810100 9F3501229F35 9F350122500041
9F350122E100 E1009F350122 9F3502222222 9F35012A 9F350122DF812306000000001000 009F350122000000DF81230600000000100000 9F35810122
""".split()


def own_texts():
    many = ["C100" * 64, "C100" * 65, "9C00" + "00" * 64, "9C00" + "C100" * 63, "9C00" + "C100" * 64, "E100" * 66 + "9C00", "7002C100" * 64, "7002C100" * 65,
            "00" * 300 + "9C0112", "9F350122" + "00" * 300]
    for body in OWN + many:
        yield store(1000)
        yield f"open 200 400 300 {body}"
        yield "held"
    for before in ([], [f"write {AMOUNT}", f"begin {FCI_TEXT}"], [f"write {AMOUNT}", "begin -"]):
        yield from opened()
        yield from before
        for body in OWN + many:
            yield f"write {body}"
            yield "held"
        yield "clear"
    yield from late_writes()
    yield from replaced_values()


def late_writes():
    """Each of the terminal's objects, written in each phase."""
    writes = ["write " + obj(tag_word(tag), value) for tag, entry in ENTRIES.items() if entry.writer in "TD" for value in ("", "12" * entry.least)]
    writes += ["write 9F4E01419C0112", "write 9C01129F4E0142", "write 9C021212", "write 9C011A", "write 9F4E00DF811200", "write 9F4E01419F4E00", "held"]
    yield from opened()
    yield from writes
    for line in card_lines():
        yield line
        yield from writes
    yield "clear"
    yield from writes


def replaced_values():
    """Writes that replace values in a share that is full; some grow one value before they shrink another."""
    yield from opened(terminal=10)
    for one, two in ((4, 6), (6, 4), (10, 0), (0, 10), (5, 5), (5, 6), (6, 5), (1, 9), (9, 1), (1, 10)):
        for body in (obj("9F4E", "41" * one) + obj("DF8112", "50" * two), obj("DF8112", "51" * two) + obj("9F4E", "42" * one)):
            yield f"write {body}"
            yield from ["held", "object 9F4E", "object DF8112"]
    for body in (obj("9F4E", "41" * 10), obj("9F4E", "42" * 11), obj("DF8112", "50"), obj("DF8112"), obj("9F4E"), AMOUNT, amount(7), "9F370401020304", "9F370401020304",
                 "9C0101", "9F02009F370401020304", "9F0206000000001000" + obj("9F37")):
        yield f"write {body}"
        yield "held"


# shares


def shares():
    for share in (0, 5, 6, 7, 20, 70, 71, 258, 259, 300):
        yield from opened(terminal=share)
        rest = max(share - 6, 0)
        yield f"write {AMOUNT}9C0101"
        yield "held"
        yield f"write {AMOUNT}"
        for begun in (False, True):
            for n in (rest, rest + 1, rest - 1):
                if 0 <= n <= 64:
                    yield f"write {obj('9F4E', '41' * n)}"
            yield from ["write 9C0101", "write 9C00", "held", "write 9F0200", f"write {AMOUNT}9F4E00", "write 9F4E0142"]
            for n in (rest - 1, rest, rest + 1, 252):
                if 0 <= n <= 252:
                    yield f"write {obj('9F4E')}{obj('DF8112', '50' * n)}"
            yield "held"
            yield f"write {AMOUNT}{obj('9F4E')}{obj('DF8112')}"
            if not begun:
                yield f"begin {FCI_TEXT}"
        yield "clear"
    more = series({"9F8111": "00", "9F07": "0000"})
    unknown = series({"C1": "00" * 20, "DF8124": "00" * 20})
    used = 0
    for step in STEPS:
        used += size(INSIDE[step])
        for share in (used - 1, used, used + 2, used + 3, used + 4):
            yield from opened(card=share)
            for extra in ("", more, unknown):
                yield from with_text(step, text(OUTER[step], INSIDE[step], extra), ["outcome", "held", "object 9F8111", "copy DF8115 6", "clear"])
    for share in (400, 643):
        yield from opened(card=share)
        yield from [f"write {AMOUNT}", f"begin {FCI_TEXT}", f"answer {text('77', {**OPTIONS, '94': '08010400'})}{GOOD}"]
        for tag, n in (("9F8111", 243), ("9F8112", share - 243 - 13), ("9F8113", 0), ("9F8114", 1)):
            yield f"answer {text('70', {tag: 'AB' * n})}{GOOD}"
            yield "held"
        yield from ["outcome", "object 9F8114", "clear"]
    for share in (22, 23, 24, 300):
        yield store(share + 500 + 16)
        yield f"open {share} 200 300 {series(CONFIG)}"
        yield "held"
        yield f"open {share} 200 300 {series({**CONFIG, '9F09': '0001'})}"
        yield f"open {share} 200 300 {series(without(CONFIG, '9F35'))}"


# decisions


def decisions():
    kinds = ["11", "12", "13", "14", "15", "16", "21", "22", "23", "24", "25", "26", "34", "35", "36", "00", "31", "33", "99"]
    ends = ["outcome", "object 95", "clear"]
    turn = 0
    for kind in kinds:
        for denial in (NONE, BIT):
            for online in (NONE, BIT):
                yield from opened({**CONFIG, "DF8121": denial, "DF8122": online, "9F35": kind})
                for units in (999, 1000, 1001):
                    cid = ["40", "80", "00", "C0", "7F"][turn % 5]
                    turn += 1
                    yield from sale(cryptogram=cryptogram(cid), write=amount(units), ends=ends)
    requests = [("22", NONE, NONE, 1000), ("21", NONE, NONE, 1000), ("22", BIT, NONE, 1001), ("22", NONE, BIT, 1001)]
    for kind, denial, online, units in requests:
        yield from opened({**CONFIG, "DF8121": denial, "DF8122": online, "9F35": kind})
        for cid in CIDS:
            yield from sale(cryptogram=cryptogram(cid), write=amount(units), ends=["object 95"] + ENDS)
    last = 999999999999
    for denial, online, floor, units in (
            ("FFFFFF7FFF", "FFFFFF7FFF", 1000, last), (NONE, "FFFFFF7FFF", 1000, last), (NONE, "0000018000", 1000, 1001), ("8080807F80", BIT, 1000, 1001),
            ("FFFFFFFFFF", "FFFFFFFFFF", 1000, 1000), (NONE, BIT, 0, 0), (NONE, BIT, 0, 1), (NONE, BIT, last, last), (NONE, BIT, last, last - 1),
            (NONE, BIT, last - 1, last), (NONE, BIT, 100000000, 99999999), (NONE, BIT, 99999999, 100000000), (NONE, BIT, 1000, 10), (NONE, BIT, 255, 256),
            (NONE, BIT, 9999999999, 10000000000)):
        yield from opened({**CONFIG, "DF8121": denial, "DF8122": online, "DF8123": f"{floor:012d}"})
        for cid in ("80", "40"):
            yield from sale(cryptogram=cryptogram(cid), write=amount(units), ends=["object 95"] + ENDS)


def cryptogram(cid):
    return text("77", {**CRYPTOGRAM, "9F27": cid}) + GOOD


# sizes and forms


def filled(body, n, front=False):
    filler = "00" * (n - len(body) // 2)
    return filler + body if front else body + filler


def forms(outer, inside):
    """Texts that are one object in some form, or that are not."""
    plain = series(inside)
    whole = obj(outer, plain)
    yield from ["", "90", "9000", "6A82", "77", "00", "0000", "9F", "9F81", "00" * 256, "00" * 257, outer + "00", outer]
    for n in (254, 255, 256, 257, 258):
        yield filled(whole, n)
        yield filled(whole, n, front=True)
    for n in (252, 253, 254):
        yield obj(outer, plain + "00" * (n - len(plain) // 2))
    yield from ["00" + whole, "0000" + whole + "00", whole + "C100", "C100" + whole, whole + whole, whole + "9F", whole[:-2], whole[2:]]
    yield from [tag + whole[2:] for tag in ("80", "7F", "61", "6F", "70", "77", "50", "4F", "E1")]
    yield from ["61" + obj("", whole), obj("FF8105", plain), whole + obj(outer), obj(outer) + whole, obj(outer, whole)]
    for deep in ("C100", "E100", "9F", "9F818100", "50", "500341", "00", "5080", ""):
        for depth in (4, 5):
            nested = deep
            for _ in range(depth - 1):
                nested = obj("A5", nested)
            yield obj(outer, plain + nested)
    count = len(inside)
    for n in (63, 64, 65, 66):
        yield obj(outer, plain + "C100" * (n - count))
        yield obj(outer, "C100" * (n - count) + plain)
    yield obj(outer, plain + "A500" * 70)
    length = len(plain) // 2
    yield from [f"{outer}81{length:02X}{plain}", f"{outer}8200{length:02X}{plain}", f"{outer}80{plain}0000", f"{outer}81", f"{outer}FF{plain}"]
    for bad in ("9F", "9F81", "9F818100", "9F8181", "50", "5081", "5080", "5082000141", "50034142", "508103", "5FFF80", "1F", "1F81"):
        yield obj(outer, plain + bad)
    for bad in ("A50450034142", "A50150", "A5019F", "A5029F81", "A5025081", "A50481100000", "A502A5025000", "BF0C03500341", "A503C10100"):
        yield obj(outer, bad + plain)
    yield from ["61019F", "6102C100610450034142"]


def form_parts():
    yield from opened()
    for step in STEPS:
        bodies = list(dict.fromkeys(forms(OUTER[step], INSIDE[step])))
        for body in bodies:
            yield from with_text(step, body, ["outcome", "held", "clear"])
        if step != "fci":
            whole = text(OUTER[step], INSIDE[step])
            answers = ["", "90", "9000", "6A82", "9001", "0090", "9F6A82", "9F9001", whole[:-2] + "6985", whole, whole + "900000"]
            answers += [filled(whole, 256) + "9001", filled(whole, 257) + "6A82", filled(whole, 256) + "00"]
            answers += [whole + status for status in ("9001", "0090", "6985", "FFFF", "0000")]
            for answer in answers:
                yield from sale(**{step: answer})


# judged objects of card texts

JUDGED = """
DF812306000000009999 DF812300 9F0206000000000001 9C00 DF811200 9F4E0141 95050000000000 9500 DF811506000000000000 9F070100 9F0703000000 5F34010A
5F340112 5F3401125F340112 5F34005F340112 5F3401125F3400 84050102030405 8400 5000 500143 82020000 8200 9F270140 9F2700 9F360200019F3600 9F3600
C100C100 DF812406000000000000 9F810101009F810101 5A00 5A0112 5A011F 5A021F2F 5A01FF 5A0B1212121212121212121212 5F2400 5F2403251231 5F240325123A
940408010100 9400 DF81230112 5F34010A9500 95005F34010A A5029500 A5045F340112 A5045F3401125F3400 5F340112A5035F3400 A5DF8123 E10450024343
571312345678901234567890123456789012345678 5714121212121212121212121212121212121212121212 57128212 DF81210500000000009F350122 9F35009F0900 C101DF812300
""".split()


def judged():
    yield from opened()
    for step in STEPS:
        for more in JUDGED:
            yield from with_text(step, text(OUTER[step], INSIDE[step], more), ["outcome", "held", "object 5F34", "clear"])
        for more in JUDGED[:6]:
            yield from with_text(step, obj(OUTER[step], more + series(INSIDE[step])), ["outcome", "held", "clear"])
    for empty in ("50", "84"):
        yield from sale(fci=text("6F", {**FCI, empty: ""}), record=text("70", {**RECORD, empty: "A000000001"}) + GOOD)
        yield from sale(fci=text("6F", {**FCI, empty: ""}), record=text("70", {**RECORD, empty: ""}) + GOOD)
    yield from missing()


def missing():
    """Each value that a step needs: given, empty or absent in its own text, and given or empty in another."""
    for step, tags in (("options", ["82", "94"]), ("record", ["5A", "5F24"]), ("cryptogram", ["9F27", "9F36", "9F26"])):
        for tag in tags:
            value = INSIDE[step][tag]
            for other in [None] + [s for s in STEPS if s != step]:
                for elsewhere in ([value, ""] if other else [None]):
                    for own in ({**INSIDE[step], tag: ""}, without(INSIDE[step], tag)) if other and not elsewhere else (INSIDE[step], without(INSIDE[step], tag)):
                        texts = {step: text(OUTER[step], own)}
                        if other:
                            texts[other] = text(OUTER[other], INSIDE[other], obj(tag, elsewhere))
                        texts = {s: body + ("" if s == "fci" else GOOD) for s, body in texts.items()}
                        yield from sale(**texts, ends=["outcome", "held", f"object {tag}", "clear"])
        pairs = [tags] if len(tags) == 2 else [tags, tags[:2], tags[1:], [tags[0], tags[2]]]
        for gone in pairs:
            own = {t: v for t, v in INSIDE[step].items() if t not in gone}
            yield from with_text(step, text(OUTER[step], own))


# locators


def locators():
    each = "".join(f"08{n:02X}{n:02X}00" for n in range(1, 62))
    threes = "".join(f"{8 * file:02X}010300" for file in range(1, 22))
    afls = """
    08010103 08010102 08010101 08010100 08010200 08010203 08010202 080102FF 00010100 F0010100 F8010100 FF010100 09010100 0C010100 0F010100 08000000
    08000100 08020100 08FFFF00 08FEFF00 08FFFE00 0801010010 080101001001 08010100080101 0801010008010100 0801020008020300 0801010008020200
    1001010008010100 0801030010010101 0801030008030300 080101000801010108020200 0801400010010100 08014000 08014100 08013F0010010100 08013F0010010200
    08013F00F8010100 0801FF00 08012000F0012000 08012000F0012100 08C0FF00 08BFFF00 0801FFFF 08010141 080140FF 08014040 08014041 08013F4010010100
    """.split()
    afls += [each, each + "080101", "08010100" * 61, threes + "B0010100", threes + "B0010200", threes + "08030300", each + "10010300", each + "10010400"]
    yield from opened()
    for afl in afls:
        yield f"write {AMOUNT}"
        yield f"begin {FCI_TEXT}"
        yield f"answer {obj('77', obj('82', '1980') + obj('94', afl))}{GOOD}"
        yield "outcome"
        yield "object 94"
        records = named(afl)
        yield f"answer {RECORD_TEXT}{GOOD}"
        for n in range(min(records, 64) - 1):
            yield f"answer 7003C1014{n % 10}{GOOD}"
        yield "state"
        yield f"answer {CRYPTOGRAM_TEXT}{GOOD}"
        yield from ENDS
    for at in (0, 1, 63):
        for last in ("stop", "fault 2", "answer 6A83", "answer " + text("70", {"DF8123": ""}) + GOOD):
            yield from [f"write {AMOUNT}", f"begin {FCI_TEXT}", f"answer {text('77', {**OPTIONS, '94': '08012000F0012000'})}{GOOD}"]
            yield from ["answer 7000" + GOOD] * at
            yield from ["state", last] + ENDS


def named(afl):
    """How many records a locator names, if it is a good one."""
    data = bytes.fromhex(afl)
    return sum(max(0, data[i + 2] - data[i + 1] + 1) for i in range(0, len(data) - 3, 4))


# lists

LISTS = """
9F3700 9F3704 9F3703 9F3705 9F0204 9F0206 9F0208 9F0200 5A05 5A02 5A03 5A00 5F2402 5F2404 5001 5002 5004 8405 8403 8408 9505 9502 8202 0004 0000
7004BF0C0250019F4E05 C102DF812306DF8115069F02069F0306 9F35029F3501 9F1A02 9F1E08 9F0306 9C01 DF812304 DF812308 9F029F0206 70009F0206 1F0101 9F8109089F810904
9F 9F81 9F818101 50 9F02 DF8121 9F02069F 9F020650 9F02069F81 9F0206DF8181 9F377F 9F3780 9F37FB 9F37FC 9F37FD 9F37FE 9F37FF 9F37FC5000 9F37FC5001
9F37FB5001 9F37FB5002 9F37FE5001 9F37FE5002 9F37FF5000 9F37FF5001 9F37FF9F37FF 50FF50FF50FF9F
""".split()


def lists():
    write = AMOUNT + "9F370401020304"
    long = ["5000" * 125, "9F3702" * 83, "5002" * 125, "5003" * 85, "9F3703" * 83 + "50", "C101" * 125]
    tail = [f"answer {CRYPTOGRAM_TEXT}{GOOD}"] + ENDS
    yield from opened()
    for pdol in LISTS + [""]:
        yield from [f"write {write}", f"begin {text('6F', {**FCI, '9F38': pdol})}", "outcome", "object 9F38", f"answer {OPTIONS_TEXT}{GOOD}"]
        yield from ["state", "copy DF8115 6", "clear"]
    for pdol in long:
        yield from [f"write {write}", f"begin {text('6F', {'9F38': pdol})}", "outcome", "clear"]
    for cdol in LISTS + [""]:
        yield from [f"write {amount(1001)}9F370401020304", f"begin {FCI_TEXT}", f"answer {OPTIONS_TEXT}{GOOD}", f"answer {text('70', {**RECORD, '8C': cdol})}{GOOD}",
                    "outcome", "object 95"] + tail
    for cdol in long:
        yield from [f"write {write}", f"begin {text('6F', {})}", f"answer {text('77', {**OPTIONS, '94': '08010200'})}{GOOD}", f"answer {RECORD_TEXT}{GOOD}",
                    f"answer {text('70', {'8C': cdol})}{GOOD}", "outcome", "object 95"] + tail
    for default in LISTS + long:
        yield from opened({**CONFIG, "DF856C": default})
        for cdol in [None, "9F3704", "", "9F"] if default in ("9F0206", "9F", "9F02", "9F37FF5001") else [None]:
            record = RECORD if cdol is None else {**RECORD, "8C": cdol}
            yield from [f"write {write}", f"begin {FCI_TEXT}", f"answer {OPTIONS_TEXT}{GOOD}", f"answer {text('70', record)}{GOOD}", "outcome", "object 95"]
            yield from [f"answer {CRYPTOGRAM_TEXT}{GOOD}", "outcome", "copy DF8115 6", "clear"]


# calls


def states():
    """Lists of calls that lead to each state of a reader."""
    write, begin, options, record, cryptogram_ = card_lines()
    ready = list(opened())
    yield [store(4096)]
    yield ready
    yield ready + [write]
    yield ready + [write, begin]
    yield ready + [write, begin, options]
    yield ready + [write, begin, f"answer {text('77', {**OPTIONS, '94': '08010200'})}{GOOD}", "answer 7000" + GOOD]
    yield ready + [write, begin, options, record]
    for cid in ("40", "00", "80"):
        yield ready + [write, begin, options, record, "answer " + cryptogram(cid)]
    yield ready + [write, "begin -"]
    yield ready + [write, begin, options, "fault 2"]
    yield ready + [write, begin, options, record, "stop"]
    yield ready + [write, begin, options, record, cryptogram_, "clear"]
    yield ready + [write, begin, options, "clear"]
    yield ready + ["clear"]


CALLS = [f"open 23 400 3000 {series(CONFIG)}", f"write {AMOUNT}", "write 9F4E0141", "write 9F", "write 5000", "write 9C0112", "write -",
         f"begin {FCI_TEXT}", "begin -", f"answer {OPTIONS_TEXT}{GOOD}", f"answer {RECORD_TEXT}{GOOD}", f"answer {CRYPTOGRAM_TEXT}{GOOD}", "answer 9000", "answer 6A82",
         "answer -", "fault 0", "fault 1", "fault 2", "fault 3", "fault 4", "fault 255", "stop", "clear", "outcome", "state", "wanted", "object 50",
         "object 95", "object DF8115", "object DF8123", "object 9F02", "object 51", "object 9F", "object 00", "record", "put 50 41", "drop DF8123", "drop 50",
         "limits", "held", "length DF8123", "copy DF8123 6", "copy 95 5", "gpo", "generate TC", "dol 9F02069F35019505 255", "dol DF811504DF811508 255"]
READS = ["outcome", "state", "wanted", "object", "record", "limits", "held", "length", "copy", "gpo", "generate", "dol"]
UNALIKE = [line.strip() for line in """
lend; lend 1; lend 1 2 3; lend 1 -1; lend 1234567890 1; lend 1 1234567890; lend a 1; open; open 1 2 3; open 1 2 -;
open 1 2 x 00; open 1 2 3 0; open 1 2 3 0G; open 1 2 3 00 00; open 1234567890 1 1 -; open -1 1 1 -; write; write 0;
write 00 00; write xx; begin; begin 0g; begin 6F00 00; answer; answer 9; answer 90 00; fault; fault 256; fault 1000;
fault -; fault -1; fault 1 1; fault 1234567890; fault x; fault 01; stop 1; clear 1; outcome 1; state 1; wanted 1;
wanted DF8112; object; object 5; object -; object 01020304; object 50 50; object 5G; record 1; Stop; LEND 1 1; stopp;
commands; open-; writ 9C0101; object df8123; write 9c0101; lend 000000261 000000064
""".split(";")] + ["#stop", " ", "\tstate # words", "  object\t9f35 "]


def calls():
    reading = [line for line in CALLS if line.split()[0] in READS]
    for state in states():
        yield from state + reading
        for line in CALLS:
            if line not in reading:
                yield from state + [line, "outcome"]
    quick = [f"write {AMOUNT}", "write 9F4E0141", "write 9F", f"begin {FCI_TEXT}", f"answer {OPTIONS_TEXT}{GOOD}", "answer -"]
    quick += ["wanted", "object DF8123", "object 51", "record"]
    for state in list(states())[:8] + list(states())[10:12]:
        for lent in ("260 64", "261 63", "0 0"):
            yield from state
            yield f"lend {lent}"
            yield from quick
            yield from ["open 23 400 3000 -", "state", "fault 3", "stop", "outcome", "clear", "lend 4096 64"]
        yield from state[:2] + ["lend 261 64"] + state[2:] + quick + ["state", "held", "lend 4096 64"]
    for state in list(states())[:5]:
        yield from state
        yield from UNALIKE
        yield from ["lend 4096 64", "state", "held"]


# readings


def one_byte_tags(n):
    return [f"{tag:02X}" for tag in range(1, 256) if tag & 0x1F != 0x1F][:n]


def wanted_lists():
    many = one_byte_tags(66)
    first = "".join(many[:64])
    yield from ["", "00", "000000", "50", "5050", "500050", "005A50005A", "9F02", "9F", "009F", "509F", "9F81", "9F8181", "5000009F818150", "9F8109", "DF8112",
                "DF8123DF8115", "95DF8115", "70", "BF0C70", "C19F0850", "9F811A5F2A5F249F249F10", "5F24505F24005A9F02509F02", "1F00", "1F8100", "1F", "5F", "DF81",
                "9F0200009F", "FF8105", "9F00", "9F80", "9F8000", "9F8080", "9F36009F36009F26"]
    for more in ("", many[64], first, many[0], many[5] + "0050", many[64] + many[65], "9F", "9F02", "9F81", "9F8181", "00" * 30 + many[64], "00" * 187 + many[64]):
        yield first + more
    yield from ["00" + first + "9F8181", "".join(many[:63]), "".join(many[1:64]) + "9F02", "".join(many[1:65]) + "9F02", "".join(many[1:64]) + "9F028C9F02"]
    yield from ["9F8111" * 84, "00" * 251 + "50", "00" * 252, "00" * 251 + "9F", "50" * 252]
    yield "".join(f"9F81{n:02X}" for n in range(0x11, 0x11 + 64))
    yield "".join(f"9F81{n:02X}" for n in range(0x11, 0x11 + 65))


ODD_TAGS = """
00 000000 01 1F 00001F 9F 00009F 9F00 9F80 9F7F 9F81 009F81 9F8180 9F817F 5000 005000 500000 501111 9F0200 70 000070
BF0C FFFFFF FF 51 4F 000050 009F02 0050 DF81 1F01 1F8101
""".split()


def readings():
    yield from before_and_after()
    yield from record_parts()
    yield from long_values()


def before_and_after():
    """Wanted objects and single ones, while a sale goes on and after each result."""
    held = ["object " + tag_word(tag) for tag in ENTRIES]
    write, begin, options, record, _ = card_lines(fci=text("6F", {**FCI, "50": ""}))
    writes = [line for list_ in wanted_lists() for line in (f"write {obj('DF8112', list_)}", "wanted")]
    yield from opened()
    yield "wanted"
    yield from held + ["object " + tag for tag in ODD_TAGS]
    for line in (write, begin, options, record):
        yield line
        yield from writes[:30]
        yield from held[::3]
    for cid in ("40", "00", "80", "C0"):
        yield "clear"
        yield from [write, begin, options, record]
        yield "answer " + text("77", {**CRYPTOGRAM, "9F27": cid, "9F10": "", "9F8109": "00" * 8}) + GOOD
        yield from writes
        yield from held + ["object " + tag for tag in ODD_TAGS]
        for tag, size_ in (("9F10", 3), ("50", 2), ("5A", 5), ("9F8109", 12), ("DF8123", 10), ("DF8115", 10)):
            for n in (size_ - 1, size_):
                yield from [f"lend {n} 0", f"object {tag}", f"lend {n} 64", f"write {obj('DF8112', tag)}", "wanted", f"lend {n} 63", "wanted"]
        for list_, size_ in (("C1", 2), ("9F08", 3), ("DF8124", 4), ("C19F08", 5), ("505A", 7), ("", 0), ("000000", 0), ("9F", 0), ("DF8112", 7)):
            for n in (size_ - 1, size_):
                if n >= 0:
                    yield from [f"lend {n} 64", f"write {obj('DF8112', list_)}", "wanted"]
        yield from ["lend 0 0", "record", "object 51", "object 50", "wanted", "outcome", "state", "lend 4096 64"]
    yield from ["write DF811200", "wanted", "clear", "wanted", "object DF8112"]


def record_parts():
    """The Data Record with all of its objects, with each one empty, and with each one not held."""
    config = {**CONFIG, "9F33": "010203", "9F1A": "0978", "9F1E": "4142434445464748", "9F09": "0001"}
    written = {"9F02": "000000001000", "9F03": "000000000001", "5F2A": "0978", "9A": "261118", "9C": "01", "9F37": "01020304"}
    fci = {"84": "A000000999"}
    record = {**RECORD, "50": "41" * 16, "5F34": "01", "9F12": "42" * 16, "9F07": "0102", "9F11": "01", "9F24": "43" * 29, "57": "44" * 19}
    cryptogram_ = {**CRYPTOGRAM, "9F10": "46" * 32, "9F8109": "47" * 8}
    places = [config, written, fci, record, cryptogram_]

    def whole(parts, ends):
        config_, written_, fci_, record_, last = parts
        yield from opened(config_)
        yield from sale(write=series(written_), fci=text("6F", fci_), record=text("70", record_) + GOOD, cryptogram=text("77", last) + GOOD, ends=ends)

    yield from whole(places, ENDS)
    for i, place in enumerate(places):
        for tag in place:
            for changed in ({**place, tag: ""}, without(place, tag)):
                yield from whole(places[:i] + [changed] + places[i + 1 :], ["outcome", "record", "held"])
    yield from whole(places, [])
    shown = {tag: value for place in places for tag, value in place.items() if tag == "9F35" or tag not in CONFIG}
    n = len(series({**shown, "82": OPTIONS["82"], "95": NONE})) // 2
    for lent in (n - 1, n, n + 1, 0, 261):
        yield from [f"lend {lent} 0", "record", "outcome"]
    yield "lend 4096 64"


def long_values():
    """Values whose written length has one and two bytes."""
    yield from opened(card=4000)
    for tag, n in (("9F8111", 126), ("9F8112", 127), ("9F8113", 128), ("9F8114", 129), ("9F8115", 243), ("9F8116", 0)):
        yield from [f"write {AMOUNT}", "begin 6F00", f"answer {text('77', {**OPTIONS, '94': '08010200'})}{GOOD}", f"answer {RECORD_TEXT}{GOOD}"]
        yield from [f"answer {text('70', {tag: 'AB' * n})}{GOOD}", f"object {tag}", f"write {obj('DF8112', tag + '5F24' + tag)}", "wanted"]
        size_ = len(obj(tag, "AB" * n)) // 2
        for lent in (size_ - 1, size_, size_ + 5, size_ + 6):
            yield from [f"lend {lent} 64", f"object {tag}", "wanted"]
        yield from ["lend 4096 64", f"answer {CRYPTOGRAM_TEXT}{GOOD}", "record", "clear"]
    yield from [f"write {AMOUNT}" + obj("DF8112", "9F4E" + "DF8112" * 80 + "000000"), "wanted", "lend 247 64", "wanted", "lend 252 64", "wanted", "lend 253 64", "wanted", "lend 4096 64"]


PARTS = {"openings": openings, "dictionary": dictionary, "own": own_texts, "shares": shares, "decisions": decisions, "forms": form_parts, "judged": judged, "locators": locators,
         "lists": lists, "calls": calls, "readings": readings}


def main():
    for part in sys.argv[2:] or PARTS:
        print("lend 4096 64")
        for line in PARTS[part]():
            print(line)


if __name__ == "__main__":
    MAKE = sys.argv[1]
    main()
