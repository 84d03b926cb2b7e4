#!/usr/bin/env python3
"""Answers a script of the console from the rules alone: a store is a dictionary, two limits and nothing else.

Reads lines from standard input and writes one line for each, as docs/STORES.md, docs/SALE.md, docs/RUN.md and
docs/READOUT.md say. texts.py has texts and the dictionary, parts.py the parts of a sale, reader.py the reader's calls.
"""
import sys

from parts import KINDS, Fault, decided, dol_data, generated, given, options, records
from reader import Reader, Refused
from texts import ObjectFault, TextFault, tag_bytes

BLANKS = b" \t\r\n\x0c"
DIGITS = b"0123456789"
HEX = b"0123456789abcdefABCDEF"


class Store:
    """A map from tags to values under two limits; a mask changes no answer, so none is kept."""

    def __init__(self, objects, total):
        self.objects = objects
        self.total = total
        self.held = {}

    def used(self):
        return sum(len(v) for v in self.held.values())

    def put(self, tag, value):
        if len(value) > 255:
            return "long"
        after = dict(self.held)
        after[tag] = value
        if len(after) > self.objects or sum(len(v) for v in after.values()) > self.total:
            return "room"
        self.held = after
        return None


def number(word):
    if not 1 <= len(word) <= 9 or any(c not in DIGITS for c in word):
        raise ValueError
    return int(word)


def data(word):
    if word == b"-":
        return b""
    if len(word) % 2 or any(c not in HEX for c in word):
        raise ValueError
    return bytes.fromhex(word.decode("ascii"))


def tag(word):
    value = data(word)
    if not 1 <= len(value) <= 3:
        raise ValueError
    return int.from_bytes(value, "big")


def shown(value):
    return value.hex().upper() or "-"


def exactly(word, n):
    value = data(word)
    if len(value) != n:
        raise ValueError
    return value


def amount(word):
    if len(word) != 12 or any(c not in DIGITS for c in word):
        raise ValueError
    return int(word)


def sale(held, call, rest):
    """What a line about the parts of a sale prints after its first word; None if it is no such line."""
    if call == b"dol":
        dol, most = rest
        dol, most = data(dol), number(most)
        return shown(dol_data(held, dol, most))
    if call == b"gpo":
        () = rest
        return shown(options(held))
    if call == b"afl":
        (afl,) = rest
        return " ".join(f"{s}.{n}" for s, n in records(data(afl)))
    if call == b"tvr":
        paid, floor = map(amount, rest)
        return "0000008000" if paid > floor else "0000000000"
    if call == b"decide":
        tvr, denial, online, terminal = rest
        return decided(exactly(tvr, 5), exactly(denial, 5), exactly(online, 5), exactly(terminal, 1)[0])
    if call == b"generate":
        (kind,) = rest
        if kind not in KINDS:
            raise ValueError
        return shown(generated(held, kind))
    if call == b"given":
        kind, cid = rest
        if kind not in KINDS:
            raise ValueError
        return given(kind, exactly(cid, 1)[0])
    return None


def make(words):
    if words and words[0] == b"masked":
        words = words[1:]
    kind, first, second = words
    first, second = number(first), number(second)
    if kind == b"directory":
        return Store(first, second)
    if kind == b"strip":
        if second < 5 * first:
            return Store(0, 0)
        return Store(first, second - 5 * first)
    raise ValueError


def split(line):
    words, word = [], b""
    for c in line.split(b"#")[0]:
        if c in BLANKS:
            if word:
                words.append(word)
            word = b""
        else:
            word += bytes([c])
    return words + [word] if word else words


def tag_shown(tag):
    return tag_bytes(tag).hex().upper() or "0"


def told(outcome, commands):
    """What the line `outcome` prints after its first word."""
    text = f"result {outcome.result} commands {commands}"
    end = outcome.end
    if end is None:
        return text
    file, number = outcome.record
    text += f" l1 {end.l1} l2 {end.l2} phase {outcome.phase} record {file} {number} missing {tag_shown(end.missing)}"
    if isinstance(end.carries, TextFault):
        text += f" text {end.carries.kind} place {end.carries.place}"
    if isinstance(end.carries, ObjectFault):
        text += f" object {end.carries.kind} place {end.carries.place} tag {tag_shown(end.carries.tag)}"
    return text


def ran(command):
    return "ended" if command is None else f"command {shown(command)}"


def call(reader, lent, name, rest):
    """What a line that is a call of the reader prints after its first word; None if it is no such line."""
    if name == b"open":
        *shares, text = rest
        configuration, terminal, card = map(number, shares)
        reader.opening(lent, configuration, terminal, card, data(text))
        return "taken"
    if name == b"write":
        (text,) = rest
        reader.write(lent, data(text))
        return "taken"
    if name == b"begin":
        (text,) = rest
        return ran(reader.begin(lent, data(text)))
    if name == b"answer":
        (text,) = rest
        return ran(reader.answer(lent, data(text)))
    if name == b"fault":
        (code,) = rest
        reader.fault(number(code))
        return "ended"
    if name == b"object":
        (wanted,) = rest
        return shown(reader.one_object(lent, tag(wanted)))
    if name not in (b"stop", b"clear", b"outcome", b"state", b"wanted", b"record"):
        return None
    () = rest
    if name == b"stop":
        reader.stop()
        return "ended"
    if name == b"clear":
        reader.clear()
        return "taken"
    if name == b"outcome":
        return told(reader.outcome(), reader.count)
    if name == b"state":
        return f"phase {reader.phase} commands {reader.count}"
    return shown(reader.wanted(lent) if name == b"wanted" else reader.data_record(lent))


class Session:
    """A reader over a store, and the lengths of what is lent to its calls."""

    def __init__(self):
        self.reader = Reader(Store(64, 4096))
        self.lent = 4096, 64

    def answer(self, words):
        """What a line prints; ValueError if it is not understood."""
        name, rest = words[0], words[1:]
        try:
            text = sale(self.reader.store.held, name, rest)
            if text is None:
                text = call(self.reader, self.lent, name, rest)
        except Fault:
            text = "fault"
        except Refused as r:
            text = f"refused {r.number} kind {r.kind} place {r.place} tag {tag_shown(r.tag)}"
        if text is None:
            text = self.other(name, rest)
        return f"{name.decode()} {text}".rstrip()

    def other(self, name, rest):
        """What a line about the store or what is lent prints after its first word."""
        store = self.reader.store
        if name == b"lend":
            buffer, list_ = map(number, rest)
            self.lent = buffer, list_
            return "taken"
        if name == b"store":
            self.reader = Reader(make(rest))
            return "made"
        if name == b"limits":
            () = rest
            return f"{store.objects} {store.total}"
        if name == b"held":
            () = rest
            return f"{len(store.held)} {store.used()}"
        if name == b"put":
            wanted, value = rest
            wanted, value = tag(wanted), data(value)
            why = "open" if self.reader.open else store.put(wanted, value)
            return f"refused {why}" if why else "taken"
        if name == b"drop":
            (wanted,) = rest
            wanted = tag(wanted)
            if self.reader.open:
                return "refused open"
            return "absent" if store.held.pop(wanted, None) is None else "held"
        if name == b"length":
            (wanted,) = rest
            value = store.held.get(tag(wanted))
            return "none" if value is None else f"{len(value)}"
        if name == b"copy":
            wanted, size = rest
            value, size = store.held.get(tag(wanted)), number(size)
            buffer = b"\xee" * size
            if value is None:
                return f"none {shown(buffer)}"
            if size < len(value):
                return f"short {shown(buffer)}"
            return f"taken {shown(value + buffer[len(value):])}"
        raise ValueError

    def line(self, n, line):
        """What line number n prints; None for a blank line."""
        words = split(line)
        if not words:
            return None
        try:
            return self.answer(words)
        except ValueError:
            return f"line {n} not understood"


def main():
    session = Session()
    for n, line in enumerate(sys.stdin.buffer, 1):
        text = session.line(n, line)
        if text is not None:
            print(text)


if __name__ == "__main__":
    main()
