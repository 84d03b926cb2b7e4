#!/usr/bin/env python3
"""Answers card texts as cardtext does, by itself: reads lines from standard input, writes to standard output."""
import re
import sys

from objects import entries

ENTRIES = entries()
DEEPEST = 5
MOST_OBJECTS = 64


class Fault(Exception):
    def __init__(self, kind, place):
        super().__init__(kind, place)
        self.kind = kind
        self.place = place


def head(text, place, end):
    """The tag's bytes of the object at a place, and the first and last place of its value."""
    i = place
    tag = [text[i]]
    i += 1
    if tag[0] % 32 == 31:
        if i == end:
            raise Fault(1, place)
        tag.append(text[i])
        i += 1
        if tag[1] >= 128:
            if i == end:
                raise Fault(1, place)
            if text[i] >= 128:
                raise Fault(2, place)
            tag.append(text[i])
            i += 1
    if i == end:
        raise Fault(3, place)
    size = text[i]
    i += 1
    if size == 0x81:
        if i == end:
            raise Fault(3, place)
        size = text[i]
        i += 1
    elif size >= 128:
        raise Fault(3, place)
    if i + size > end:
        raise Fault(4, place)
    return bytes(tag), i, i + size


def objects(text):
    """The primitive objects of a text, as (place, tag bytes, value)."""
    found = []
    open_series = [(0, len(text))]
    while open_series:
        place, end = open_series.pop()
        if place == end:
            continue
        if text[place] == 0:
            open_series.append((place + 1, end))
            continue
        depth = len(open_series) + 1
        tag, first, last = head(text, place, end)
        if depth > DEEPEST:
            raise Fault(5, place)
        open_series.append((last, end))
        if (tag[0] >> 5) & 1:
            open_series.append((first, last))
        elif len(found) == MOST_OBJECTS:
            raise Fault(6, place)
        else:
            found.append((place, tag, text[first:last]))
    return found


def outermost(text):
    """The outermost objects of a text that has no fault, as (place, tag bytes, value, whether it is constructed)."""
    found = []
    place = 0
    while place < len(text):
        if text[place] == 0:
            place += 1
            continue
        tag, first, last = head(text, place, len(text))
        found.append((place, tag, text[first:last], bool(tag[0] & 0x20)))
        place = last
    return found


def shown(value):
    return value.hex().upper() or '-'


def about(tag):
    entry = ENTRIES.get(shown(tag))
    return entry[4] + ', ' + entry[0] if entry else 'unknown'


def digits_fit(form, value):
    digits = value.hex()
    if form == 'n':
        return re.fullmatch('[0-9]*', digits) is not None
    if form == 'cn':
        return re.fullmatch('[0-9]*f*', digits) is not None
    return True


def fault_of(own, writers, before, tag, value, constructed):
    """The number of the lowest rule that an object breaks, or 0. Nothing is held, and the sale has not begun."""
    entry = ENTRIES.get(shown(tag))
    if constructed or entry is None:
        return 1 if own else 0
    writer, least, most, form, _ = entry
    if writer not in writers:
        return 2
    if value and not least <= len(value) <= most:
        return 3
    if not digits_fit(form, value):
        return 4
    return 5 if tag in before else 0


def taking(own, writers, judged):
    """How objects are taken from one that writes for these writers."""
    before = []
    for place, tag, value, constructed in judged:
        kind = fault_of(own, writers, before, tag, value, constructed)
        if kind:
            return 'object fault %d place %d tag %s' % (kind, place, shown(tag))
        before.append(tag)
    return 'ok'


def answer(line):
    """The lines printed for a line of the input."""
    if line.startswith(b'#'):
        return []
    digits = bytes(c for c in line if c not in b' \t\r')
    if not digits:
        return []
    if len(digits) % 2 or any(c not in b'0123456789abcdefABCDEF' for c in digits):
        return ['not hexadecimal']
    text = bytes.fromhex(digits.decode('ascii'))
    lines = ['text ' + shown(text)]
    try:
        found = objects(text)
    except Fault as fault:
        return lines + ['fault %d place %d' % (fault.kind, fault.place)]
    for place, tag, value in found:
        lines.append('  %d %s %s  %s' % (place, shown(tag), shown(value), about(tag)))
    lines.append('ok %d' % len(found))
    outer = outermost(text)
    inner = [(place, tag, value, False) for place, tag, value in found]
    lines.append('configuration: ' + taking(True, ['configuration'], outer))
    lines.append('terminal: ' + taking(True, ['terminal before begin', 'terminal'], outer))
    lines.append('card: ' + taking(False, ['card'], inner))
    return lines


def main():
    data = sys.stdin.buffer.read()
    lines = data.split(b'\n')
    if lines[-1] == b'':
        lines.pop()
    out = []
    for line in lines:
        out.extend(answer(line))
    sys.stdout.write(''.join(line + '\n' for line in out))


main()
