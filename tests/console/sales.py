#!/usr/bin/env python3
"""Writes random whole sales for the console, the same for the same seed: sales.py MAKE SEED LINES.

MAKE is 'directory', 'strip', 'masked directory' or 'masked strip'. The script is played on the second program's reader
while it is written, so that sales go on to their results, and buffers and shares are met at their edges.
"""
import random
import sys

import cards
from cards import GOOD, digits, obj
from second import Session
from texts import ENTRIES, tag_bytes

NEEDED = ["DF8121", "DF8122", "DF8123", "DF856C", "9F35"]
BITS = ["0000000000", "0000000000", "0000008000", "0000008000", "FFFFFFFFFF", "FFFFFF7FFF", "0000010000"]
TYPES = ["22", "22", "22", "25", "12", "15", "35", "11", "21", "14", "24", "34", "23", "26", "36", "13", "16", "00", "99"]
STRANGERS = ["C1", "C1", "4F", "87", "DF01", "9F08", "9F8101", "DF8124", "5F20", "9F42"]
TEMPLATES = ["A5", "A5", "BF0C", "E1", "61", "FF8105", "70"]
BROKEN_LISTS = ["9F", "9F81", "9F818101", "50", "9F02", "9F02069F", "50FF50FF", "9F37FD5003"]
OWN_TAGS = [("DF8123", "000000999999"), ("DF8123", ""), ("9F02", "000000000001"), ("95", "0000000000"), ("DF8115", ""), ("9F35", "22"), ("50", "41"), ("9C", "1A"),
            ("9F4E", "41"), ("5F34", "1A"), ("5F34", "0101"), ("9F07", "00"), ("84", "00"), ("9F09", "00"), ("9F1A", "0A00"), ("9F33", "00"), ("9A", "99"), ("5F2A", "12")]
ALLOWED = {"TC": ["40", "40", "40", "7F", "80", "00"], "ARQC": ["80", "80", "BF", "00"], "AAC": ["00", "00", "3F"]}
OUTER = {20: "77", 22: "70", 26: "77"}


class Done(Exception):
    """There are as many lines as were asked for."""


class Sales:
    def __init__(self, make, seed, count):
        self.make, self.count = make, count
        self.r = random.Random(seed)
        self.session = Session()
        self.lines = []
        self.units = 0

    # lines

    def say(self, line):
        """Writes a line, mostly plainly, and answers what the second program prints."""
        if len(self.lines) == self.count:
            raise Done
        line = self.dressed(line)
        self.lines.append(line)
        return self.session.line(len(self.lines), line.encode()) or ""

    def dressed(self, line):
        r = self.r
        if self.often(2):
            line = line.replace(" ", r.choice(["  ", "\t", " \t"]))
        if self.often(2):
            first, blank, rest = line.partition(" ")
            line = first + blank + (rest.lower() if first in ("write", "begin", "answer", "object", "copy", "length") else rest)
        if self.often(1):
            line = r.choice(["  ", "\t"]) + line
        if self.often(1):
            line += r.choice([" # words", "#", " \r"])
        return line

    def often(self, percent):
        return self.r.random() * 100 < percent

    # what the second program holds

    @property
    def reader(self):
        return self.session.reader

    def waits(self):
        return self.reader.phase in OUTER

    def held(self, tag):
        return self.reader.store.held.get(int(tag, 16))

    # values and texts

    def random_bytes(self, n):
        return self.r.randbytes(n).hex().upper()

    def value(self, tag):
        """A value that the dictionary takes."""
        r = self.r
        entry = ENTRIES[int(tag, 16)]
        n = r.choice([entry.least, entry.most, r.randint(entry.least, entry.most), r.randint(entry.least, min(entry.most, entry.least + 8))])
        if entry.form == "n":
            return "".join(r.choice("0123456789") for _ in range(2 * n))
        if entry.form == "cn":
            padding = r.randrange(min(2 * n, 4) + 1)
            return "".join(r.choice("0123456789") for _ in range(2 * n - padding)) + "F" * padding
        return self.random_bytes(n)

    def object(self, tag, value):
        """An object, sometimes with a length of two bytes."""
        if self.often(6) and len(value) < 256:
            return f"{tag}81{len(value) // 2:02X}{value}"
        return obj(tag, value)

    def series(self, objects):
        """Objects in any order, with filler between them now and then."""
        parts = [self.object(tag, value) for tag, value in objects.items()]
        self.r.shuffle(parts)
        return "".join(self.filler() + part for part in parts) + self.filler()

    def filler(self):
        return "00" * self.r.choice([1, 1, 2, 3]) if self.often(6) else ""

    def card_text(self, outer, objects):
        """One outer object; some of its objects are in templates, and strangers may stand beside them."""
        r = self.r
        objects = dict(objects)
        inside = ""
        while objects and self.often(20):
            chosen = {tag: objects.pop(tag) for tag in r.sample(list(objects), r.randint(1, len(objects)))}
            inside += obj(r.choice(TEMPLATES), self.series(chosen))
        strangers = "".join(obj(tag, self.random_bytes(r.choice([0, 0, 1, 4, 20]))) for tag in STRANGERS if self.often(4))
        parts = [inside, self.series(objects), strangers]
        r.shuffle(parts)
        return self.filler() + obj(outer, "".join(parts)) + self.filler()

    def list_text(self, most):
        """A data object list, which is broken now and then."""
        r = self.r
        if self.often(4):
            return r.choice(BROKEN_LISTS)
        known = [tag_bytes(tag).hex().upper() for tag in ENTRIES]
        text, room = "", most
        for _ in range(r.choice([1, 1, 2, 3, 4, 6])):
            tag = r.choice(known + ["9F02", "9F37", "95", "5A", "C1", "70", "00"])
            entry = ENTRIES.get(int(tag, 16))
            n = min(room, r.choice([0, 1, 2, entry.most if entry else 3, entry.least if entry else 1, 6, 8]))
            text, room = f"{text}{tag}{n:02X}", room - n
        if self.often(4):
            text += f"9F37{min(255, room + r.choice([0, 1])):02X}"
        return text

    # damage

    def damaged(self, text, own=False):
        """A text with something wrong, most of the time."""
        r = self.r
        data = bytearray.fromhex(text)
        kind = r.choice(["flip", "flip", "cut", "more", "more", "own", "own", "own", "deep", "many", "long", "twice", "twice", "empty", "odd"])
        if kind == "flip" and data:
            data[r.randrange(len(data))] = r.choice([0, 0x1F, 0x7F, 0x80, 0x81, 0x82, 0x9F, 0xFF, r.randrange(256)])
            return data.hex().upper()
        if kind == "cut" and data:
            return data[: r.randrange(len(data))].hex().upper()
        if kind == "empty":
            return ""
        if kind == "odd":
            return self.random_bytes(r.randrange(1, 20))
        more = {
            "more": r.choice(["9F", "9F81", "9F8181", "9F818100", "C100", "50", "5080", "5082000141", "50034142", "508105"]),
            "own": obj(*r.choice(OWN_TAGS)),
            "deep": r.choice(["E106E104E102C100", "E108E106E104E102C100", "E10AE108E106E104E102C100", "E108E106E104E102E100"]),
            "many": r.choice(["C100" * 60, "C100" * 62, "C100" * 64, "C100" * 65]),
            "long": "00" * r.choice([100, 240, 250, 256, 260]),
            "twice": r.choice(["5F3401015F3400", "5F34005F340101", "9C01019C00", "84008400", "9F4E01419F4E00", "50005000"]),
        }.get(kind, "")
        if own or kind == "long":
            return text + more if self.often(70) else more + text
        return self.put_inside(text, more)

    def put_inside(self, text, more):
        """More bytes at the end of a text's outer object."""
        outer, front = text.lstrip("0")[:2], len(text) - len(text.lstrip("0"))
        if front % 2 or outer not in ("6F", "70", "77"):
            return text + more
        skipped = 6 if text[front + 2 : front + 4] == "81" else 4
        return obj(outer, text[front + skipped :] + more)

    # opening

    def configuration(self):
        r = self.r
        floor = r.choice([0, 1, 1000, 1000, 10000, 999999999998, r.randrange(10**12)])
        self.units = floor
        config = {"DF8121": r.choice(BITS[:3] if self.often(70) else BITS), "DF8122": r.choice(BITS), "DF8123": f"{floor:012d}",
                  "DF856C": self.list_text(255), "9F35": r.choice(TYPES)}
        for tag in ("9F33", "9F1A", "9F1E", "9F09"):
            if self.often(35):
                config[tag] = self.value(tag) if self.often(85) else ""
        if self.often(4):
            config[r.choice(NEEDED)] = ""
        if self.often(3):
            del config[r.choice(NEEDED)]
        return config

    def opening(self):
        """A new reader, which is opened at the end; before that each refusal comes now and then."""
        r = self.r
        config = self.configuration()
        used = cards.size(config)
        shares = [r.choice([used, used, used + 1, 300]), r.choice([30, 60, 100, 300, 400]), r.choice([80, 300, 1200, 1200, 3000, 3000])]
        need = sum(shares) + 16
        objects, total = r.choice([64, 64, 65, 70, 200]), need + r.choice([0, 0, 1, 100])
        text = self.series(config)
        numbers = " ".join(map(str, shares))
        if self.often(6):
            self.say(cards.store(self.make, *r.choice([(need, 63), (need - 1, objects), (0, 0), (16, 64)])))
            self.say(f"open {numbers} {text}")
        self.say(cards.store(self.make, total, objects))
        while self.often(30):
            self.say(r.choice(["state", "outcome", "clear", "stop", "fault 1", "fault 9", "wanted", "record", "object 9F02", "answer 9000", "begin 6F00", "write 9C0101",
                               "limits", "held"]))
        if self.often(6):
            self.say("put " + r.choice(["50 41", "9F02 -", "DF8123 000000000000", "00 00"]))
            self.say(f"open {numbers} {text}")
            for tag in ("50", "9F02", "DF8123", "00"):
                self.say(f"drop {tag}")
        if self.often(5):
            self.say(f"lend {r.choice([0, 4096])} {r.choice([0, 63])}")
            self.say(f"open {numbers} {text}")
            self.lend()
        if self.often(5):
            self.say(r.choice(["open 999999999 999999999 999999999 -", f"open {shares[0]} {shares[1]} {total} {text}", f"open {used - 1} {shares[1]} {shares[2]} {text}"]))
        for _ in range(3):
            if self.often(25):
                self.say(f"open {numbers} {digits(self.damaged(text, own=True))}")
        if not self.reader.open:
            self.say(f"open {numbers} {text}")
        if self.often(5):
            self.say(r.choice([f"open {numbers} {text}", "put 50 41", "drop DF8123", "limits", "held"]))

    def lend(self, buffer=4096, list_=64):
        self.say(f"lend {buffer} {list_}")

    # a sale

    def sale(self):
        self.terminal_writes()
        card = self.card()
        fci = card["fci"]
        if self.often(4):
            self.lend(*self.r.choice([(260, 64), (4096, 63), (0, 0)]))
            self.say(f"begin {fci}")
            self.lend()
        if self.often(6):
            fci = self.damaged(fci)
        if self.often(2):
            self.out_of_order()
        for _ in range(2):
            if not self.say(f"begin {digits(fci)}").startswith("begin refused 9"):
                break
            self.say("write " + obj("9F02", f"{self.paid():012d}"))
        while self.waits():
            self.turn(card)
        self.readings()
        if self.often(95):
            self.say("clear")
        if self.often(10):
            self.say(self.r.choice(["state", "held", "outcome", "record", "wanted", "object DF8123", "length 95"]))

    def paid(self):
        r = self.r
        return max(0, min(10**12 - 1, r.choice([self.units - 1, self.units, self.units, self.units + 1, r.randrange(10**12), r.randrange(5000)])))

    def terminal_writes(self):
        r = self.r
        objects = {"9F02": f"{self.paid():012d}"}
        for tag in ("9F03", "5F2A", "9A", "9C", "9F37"):
            if self.often(45):
                objects[tag] = self.value(tag) if self.often(88) else ""
        if self.often(3):
            objects["9F02"] = ""
        text = self.series(objects)
        if self.often(18):
            self.say(f"write {digits(self.damaged(text, own=True))}")
        if self.often(3):
            self.lend(r.choice([0, 4096]), r.choice([0, 63]))
            self.say(f"write {text}")
            self.lend()
        self.say(f"write {text}")
        if self.often(45):
            self.say("write " + self.object("DF8112", self.wanted_list()))
        if self.often(15):
            self.say("write " + self.object("9F4E", self.value("9F4E")))
        if self.often(12):
            self.fill_share(r.choice(["DF8112", "9F4E"]))

    def wanted_list(self):
        r = self.r
        if self.often(18):
            return r.choice(["", "00", "9F", "509F81", "9F8181", "00DF81815A", "".join(one_byte_tags(r.choice([63, 64, 65, 66]))),
                             "".join(one_byte_tags(64)) + r.choice(["50", "00", "9F02", "9F", "01"])])
        known = [tag_bytes(tag).hex().upper() for tag in ENTRIES]
        return "".join(r.choice(known + ["9F02", "50", "C1", "70", "00", "BF0C"]) for _ in range(r.choice([1, 2, 4, 8, 20])))

    def fill_share(self, tag):
        """Values that fill the terminal's share, one byte more, or one less."""
        terminals = [t for t, entry in ENTRIES.items() if entry.writer in "TD" and t != int(tag, 16)]
        room = self.reader.terminal - sum(len(self.reader.store.held.get(t, b"")) for t in terminals)
        most = ENTRIES[int(tag, 16)].most
        for n in self.r.sample([room - 1, room, room + 1], 2):
            if 0 <= n <= most:
                self.say("write " + obj(tag, "50" * n))
        self.say(f"length {tag}")

    def card(self):
        """The texts of a card: what it answers to selection, to each command and to GENERATE AC."""
        r = self.r
        fci = {"84": self.value("84")}
        if self.often(60):
            fci["50"] = self.value("50") if self.often(70) else ""
        if self.often(50):
            fci["9F38"] = self.list_text(252)
        for tag in ("9F11", "9F12"):
            if self.often(15):
                fci[tag] = self.value(tag)
        records = self.records()
        options = {"82": self.value("82"), "94": self.locator(records)}
        last = {"9F27": "40", "9F36": self.value("9F36"), "9F26": self.value("9F26")}
        for tag in ("9F10", "9F8109"):
            if self.often(30):
                last[tag] = self.value(tag) if self.often(80) else ""
        inside = self.record_objects(len(records))
        for objects, chance in ((options, 3), (last, 3)):
            if self.often(chance):
                tag = r.choice(list(objects))
                objects.update({tag: ""}) if self.often(50) else objects.pop(tag)
        return {"fci": self.short(self.card_text, "6F", fci), "options": self.short(self.card_text, "77", options), "last": last,
                "records": [self.short(self.card_text, "70", objects) for objects in inside]}

    def short(self, make, outer, objects):
        """A text that fits its answer, most of the time."""
        for _ in range(5):
            text = make(outer, objects)
            if len(text) <= 512:
                break
        return text

    def records(self):
        """The records that a card names, as entries of its locator."""
        r = self.r
        files = r.sample(range(1, 31), r.choice([1, 1, 1, 2, 2, 3, 5]))
        entries = []
        for file in files:
            first = r.choice([1, 1, 1, 2, 5, 200])
            entries.append((file, first, first + r.choice([0, 0, 0, 1, 1, 2, 4])))
        if self.often(1):
            entries = [(files[0], 1, r.choice([40, 62, 63, 64, 65]))]
        return [(file, n) for file, first, last in entries for n in range(first, last + 1)]

    def locator(self, records):
        """The locator of some records, each file's in one entry; it is broken now and then."""
        ranges = {}
        for file, n in records:
            ranges.setdefault(file, []).append(n)
        afl = "".join(f"{8 * file:02X}{min(ns):02X}{max(ns):02X}{self.r.randint(0, len(ns)):02X}" for file, ns in ranges.items())
        if self.often(4):
            afl = self.r.choice([afl + "08", afl + afl[:8], "00010100" + afl, "F8010100" + afl, "08000100", "08020100", afl[:6] + "FF" + afl[8:], "09010100"])
        return afl

    def record_objects(self, count):
        """What each record brings; PAN and expiration date are in some of them."""
        r = self.r
        inside = [{} for _ in range(count)]
        for tag, chance in (("5A", 99), ("5F24", 99), ("8C", 50), ("57", 30), ("5F34", 40), ("9F07", 30), ("9F24", 10), ("9F12", 10), ("9F8111", 8), ("9F811A", 8), ("9F8115", 5)):
            if self.often(chance):
                place = r.choice(inside)
                value = self.list_text(255) if tag == "8C" else self.value(tag)
                if len(cards.series(place) + value) < 400:
                    place[tag] = value if self.often(98) else ""
        if self.often(3):
            r.choice(inside)["DF8123"] = r.choice(["", "000000000000", "999999999999"])
        return inside

    def turn(self, card):
        """A card's answer, and what may come in between."""
        r = self.r
        phase = self.reader.phase
        chance = r.random() * (40 if phase == 26 else 100)
        if chance < 0.7:
            self.say("stop")
        elif chance < 1.7:
            self.say(f"fault {r.choice([1, 2, 3])}")
        elif chance < 2.3:
            self.say("clear")
        elif chance < 5:
            self.out_of_order()
        elif chance < 6.5:
            self.lend(*r.choice([(260, 64), (261, 63), (0, 0), (4096, 0)]))
            self.say(f"answer {self.right_answer(card, phase)}")
            self.say("state")
            self.lend(*r.choice([(4096, 64), (261, 64), (300, 100)]))
        elif chance < 9.5:
            text = self.right_answer(card, phase)[:-4]
            self.say(f"answer {digits(self.damaged(text))}{GOOD}" if text else f"answer {GOOD}")
        elif chance < 10.5:
            self.say("answer " + r.choice(["-", "90", "6A82", "6985", "9000", "9001", "00" * 256 + "9000", "00" * 257 + "9000", OUTER[phase] + "00" + "6283", OUTER[phase] + "009000"]))
        else:
            self.say(f"answer {self.right_answer(card, phase)}")

    def right_answer(self, card, phase):
        if phase == 20:
            return card["options"] + GOOD
        if phase == 26:
            last = dict(card["last"])
            if last.get("9F27"):
                last["9F27"] = self.r.choice(ALLOWED[self.reader.requested] if self.often(90) else ["40", "80", "C0", "FF"])
            return self.short(self.card_text, "77", last) + GOOD
        place = min(len(self.reader.records), len(card["records"]))
        return (card["records"][-place] if place else "7000") + GOOD

    def out_of_order(self):
        r = self.r
        self.say(r.choice(["begin 6F00", "begin -", "outcome", "record", "state", "held", "wanted", "open 1 1 1 -", "put 50 41", "drop 50", "fault 0", "fault 4", "fault 255",
                           "fault 256", "write 9C0101", "write 9F0206000000000001", "write 9F4E0141", "write 500141", "write 9F", "write DF812300", "write DF811200",
                           "write DF8112029F02", "write 9F4E01419C00", "object 95", "object DF8123", "object 9F02", "object 9F", "gpo", "generate ARQC", "limits",
                           "stop now", "answer", "answer 9", "length DF8123", "copy DF8123 6", "copy 9F02 5", "dol 9F02065A0A9505 255", "lend", "record 1"]))

    # reading out

    def readings(self):
        r = self.r
        self.say("outcome")
        for line, chance in (("state", 25), ("copy DF8115 6", 60), ("held", 10), ("length DF8123", 10)):
            if self.often(chance):
                self.say(line)
        if self.often(75):
            self.edge("record", self.say("record"), 35)
        if self.often(25):
            self.say("write " + self.object("DF8112", self.wanted_list()))
        if self.often(70):
            self.edge("wanted", self.say("wanted"), 25)
        known = [tag_bytes(tag).hex().upper() for tag in ENTRIES]
        for _ in range(r.choice([0, 0, 1, 2])):
            tag = r.choice(known + ["95", "DF8115", "50", "5A", "DF8123", "9F", "00", "5000", "70", "C1"])
            self.edge(f"object {tag}", self.say(f"object {tag}"), 25)
        if self.often(10):
            self.say(r.choice(["answer 9000", "stop", "fault 1", "fault 0", "begin 6F00", "write 9C0101", "write 9F4E0141", "record", "gpo"]))

    def edge(self, line, answer, chance):
        """The same reading with a buffer that is one byte short, or just long enough."""
        words = answer.split()
        if "refused" in words or len(words) != 2 or not self.often(chance):
            return
        n = 0 if words[1] == "-" else len(words[1]) // 2
        for lent in self.r.sample([n, n + 1] if n == 0 else [n - 1, n], 2):
            self.lend(lent, self.r.choice([64, 64, 64, 0, 63]))
            self.say(line)
        self.lend()

    def play(self):
        try:
            while True:
                self.opening()
                for _ in range(self.r.choice([1, 2, 4, 6, 8])):
                    self.sale()
                    if not all(self.held(tag) for tag in NEEDED):
                        break
        except Done:
            return self.lines


def one_byte_tags(n):
    return [f"{tag:02X}" for tag in range(1, 256) if tag & 0x1F != 0x1F][:n]


def main():
    make, seed, count = sys.argv[1], int(sys.argv[2]), int(sys.argv[3])
    for line in Sales(make, seed, count).play():
        print(line)


if __name__ == "__main__":
    main()
