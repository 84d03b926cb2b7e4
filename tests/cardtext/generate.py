#!/usr/bin/env python3
"""Writes card texts for a comparison: whole, damaged and random ones. The seed is fixed."""
import random

from objects import entries

ENTRIES = entries()
TAGS = ['50', '57', '5A', '5F24', '5F34', '82', '84', '8C', '94', '95', '9A', '9C', '9F02', '9F07', '9F10', '9F26', '9F27', '9F36', '9F38',
        'DF8123', 'DF8112', '9F8109', '9F8111', 'C1', 'DF01', '9F8A05']
TEMPLATES = ['70', '77', '6F', 'A5', 'BF0C', '61', 'FF8105']
random.seed(8160)


def sized(n):
    if n > 255:
        return '82%04X' % n
    if n > 127 or random.random() < 0.15:
        return '81%02X' % n
    return '%02X' % n


def primitive():
    most = random.choice([0, 1, 2, 5, 8, 20, 130])
    value = ''.join('%02X' % random.randrange(256) for _ in range(random.randint(0, most)))
    return random.choice(TAGS) + sized(len(value) // 2) + value


def filler():
    return '00' * random.choice([0, 0, 0, 0, 1, 3])


def series(depth):
    parts = [filler()]
    for _ in range(random.choice([0, 1, 1, 2, 3, 4])):
        if depth < 7 and random.random() < 0.35:
            inside = series(depth + 1)
            parts.append(random.choice(TEMPLATES) + sized(len(inside) // 2) + inside)
        else:
            parts.append(primitive())
        parts.append(filler())
    return ''.join(parts)


def damaged(text):
    if not text:
        return text
    how = random.randrange(4)
    at = 2 * random.randrange(len(text) // 2)
    if how == 0:
        return text[:at]
    if how == 1:
        return text[:at] + '%02X' % random.randrange(256) + text[at + 2:]
    if how == 2:
        return text[:at] + '%02X' % random.randrange(256) + text[at:]
    return text[:at] + text[at + 2:]


def written(text):
    if random.random() < 0.2:
        text = text.lower()
    if random.random() < 0.2 and text:
        at = random.randrange(len(text))
        text = text[:at] + random.choice([' ', '  ', '\t']) + text[at:]
    if random.random() < 0.02:
        text = text + random.choice(['G', '0', '.', '-', '\xe9'])
    return text


def value_for(form, n):
    if form in ('n', 'cn'):
        digits = ''.join(random.choice('0123456789') for _ in range(2 * n))
        if form == 'cn' and random.random() < 0.5:
            digits = digits[:random.randint(0, 2 * n)].ljust(2 * n, 'F')
        if digits and random.random() < 0.1:
            at = random.randrange(len(digits))
            digits = digits[:at] + random.choice('9AF') + digits[at + 1:]
        return digits
    return ''.join('%02X' % random.randrange(256) for _ in range(n))


def known(tag):
    """An object of the dictionary, its length mostly one that fits."""
    _, least, most, form, _ = ENTRIES[tag]
    n = random.choice([0, least, least, most, most, random.randint(least, most), random.randint(least, most)])
    if random.random() < 0.1:
        n = random.choice([least - 1, most + 1])
    return tag + sized(n) + value_for(form, n)


def written_by(writers):
    """Objects of one who writes, with a stranger, a template or a repeat now and then."""
    own = [tag for tag, entry in ENTRIES.items() if entry[0] in writers]
    parts = [known(random.choice(own)) for _ in range(random.choice([0, 1, 2, 3, 5]))]
    odd = random.random()
    if odd < 0.1:
        parts.append(known(random.choice(list(ENTRIES))))
    elif odd < 0.2:
        parts.append(primitive())
    elif odd < 0.3:
        parts.append(random.choice(['7000', 'A500', '70029C00', 'BF0C025000']))
    elif odd < 0.4 and parts:
        parts.append(random.choice(parts))
    random.shuffle(parts)
    text = filler() + ''.join(parts)
    if 'card' in writers and random.random() < 0.5:
        return random.choice(['70', '77', '6F']) + sized(len(text) // 2) + text
    return text


def main():
    for _ in range(3000):
        text = series(1)
        if random.random() < 0.5:
            text = damaged(text)
        print(written(text))
    for n in range(60, 70):
        print('5000' * n)
        print('70' + sized(2 * n) + '5000' * n)
    for _ in range(500):
        print(''.join('%02X' % random.randrange(256) for _ in range(random.randrange(12))))
    for _ in range(1500):
        for writers in (['configuration'], ['terminal before begin', 'terminal'], ['card']):
            print(written(written_by(writers)))
    for tag, (_, least, most, form, _) in ENTRIES.items():
        for n in sorted({0, least - 1, least, most, most + 1}):
            print(tag + sized(n) + '12' * n)
            print(tag + sized(n) + '1A' * n)


main()
