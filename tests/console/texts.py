"""Texts of objects, the dictionary, and which texts are taken, as docs/TEXTS.md and docs/DICTIONARY.md say."""

# the writer (G configuration, T terminal before begin, D terminal always, C card, K reader), tag, bytes, format
TABLE = """
G DF8121 5 b
G DF8122 5 b
G DF8123 6 n
G DF856C 1-250 b
G 9F35 1 n
G 9F33 3 b
G 9F1A 2 n
G 9F1E 8 an
G 9F09 2 b
T 9F02 6 n
T 9F03 6 n
T 5F2A 2 n
T 9A 3 n
T 9C 1 n
T 9F37 4 b
D DF8112 1-252 b
D 9F4E 1-64 ans
C 50 1-16 ans
C 57 1-19 b
C 5A 1-10 cn
C 5F24 3 n
C 5F34 1 n
C 82 2 b
C 84 5-16 b
C 8C 1-250 b
C 94 4-248 b
C 9F07 2 b
C 9F10 1-32 b
C 9F11 1 n
C 9F12 1-16 ans
C 9F24 29 an
C 9F26 8 b
C 9F27 1 b
C 9F36 2 b
C 9F38 1-250 b
C 9F8109 8 b
K 95 5 b
K DF8115 6 b
"""


class Entry:
    def __init__(self, writer, least, most, form):
        self.writer, self.least, self.most, self.form = writer, least, most, form

    def fits_length(self, n):
        return n == 0 or self.least <= n <= self.most

    def fits_format(self, value):
        digits = value.hex()
        if self.form == "cn":
            digits = digits.rstrip("f")
        return self.form not in ("n", "cn") or all(d in "0123456789" for d in digits)


def entries():
    table = {}
    for row in TABLE.split("\n")[1:-1]:
        writer, tag, size, form = row.split()
        least, _, most = size.partition("-")
        table[int(tag, 16)] = Entry(writer, int(least), int(most or least), form)
    for last in range(0x11, 0x1B):
        table[0x9F8100 + last] = Entry("C", 1, 243, "b")
    assert len(table) == 48
    return table


ENTRIES = entries()


class TextFault(Exception):
    """A text fault, or that of a list of tags."""

    def __init__(self, kind, place):
        super().__init__(kind, place)
        self.kind, self.place = kind, place


class ObjectFault(Exception):
    def __init__(self, kind, place, tag):
        super().__init__(kind, place, tag)
        self.kind, self.place, self.tag = kind, place, tag


def tag_bytes(tag):
    """A tag's bytes, the highest first, with no zero bytes in front."""
    return tag.to_bytes(3, "big").lstrip(b"\x00")


def tag_size(data):
    """How many bytes the tag at the front of the data has; more than there are if it is cut short."""
    if data[0] & 0x1F != 0x1F:
        return 1
    return 3 if len(data) > 1 and data[1] & 0x80 else 2


def read_tag(text, at, end):
    """The tag at a place in a series that ends at `end`, and the place behind it."""
    behind = at + tag_size(text[at:end])
    if behind > end:
        raise TextFault(1, at)
    if behind - at == 3 and text[behind - 1] & 0x80:
        raise TextFault(2, at)
    return int.from_bytes(text[at:behind], "big"), behind


def is_tag(number):
    """Whether the bytes of a number are those of a tag."""
    data = tag_bytes(number)
    return data != b"" and tag_size(data) == len(data) and (len(data) < 3 or data[2] < 0x80)


def read_length(text, at, end, place):
    """The length at a place, and the place behind it."""
    field = text[at:end]
    if field and field[0] < 0x80:
        return field[0], at + 1
    if len(field) >= 2 and field[0] == 0x81:
        return field[1], at + 2
    raise TextFault(3, place)


class Found:
    def __init__(self, place, tag, value, constructed):
        self.place, self.tag, self.value, self.constructed = place, tag, value, constructed


def read_series(text, at, end, depth, outermost, primitive):
    """Adds the objects of a series to `outermost` and the primitive ones of all depths to `primitive`."""
    while at < end:
        if text[at] == 0:
            at += 1
            continue
        tag, behind = read_tag(text, at, end)
        size, start = read_length(text, behind, end, at)
        if start + size > end:
            raise TextFault(4, at)
        if depth == 6:
            raise TextFault(5, at)
        found = Found(at, tag, text[start : start + size], text[at] & 0x20 != 0)
        outermost.append(found)
        if found.constructed:
            read_series(text, start, start + size, depth + 1, [], primitive)
        elif len(primitive) == 64:
            raise TextFault(6, at)
        else:
            primitive.append(found)
        at = start + size


def read_text(text):
    """The outermost objects of a text, and its primitive ones."""
    outermost, primitive = [], []
    read_series(text, 0, len(text), 1, outermost, primitive)
    return outermost, primitive


def judged(objects, writers, begun, held):
    """Raises the fault of the first object that breaks a rule; else answers the values of the known tags."""
    own = "C" not in writers
    values = {}
    for o in objects:
        entry = None if o.constructed else ENTRIES.get(o.tag)
        if entry is None:
            if own:
                raise ObjectFault(1, o.place, o.tag)
            continue
        rules = [
            (2, entry.writer not in writers),
            (3, not entry.fits_length(len(o.value))),
            (4, not entry.fits_format(o.value)),
            (5, o.tag in values),
            (6, not own and len(held.get(o.tag, b"")) > 0),
            (7, entry.writer == "T" and begun),
        ]
        for kind, broken in rules:
            if broken:
                raise ObjectFault(kind, o.place, o.tag)
        values[o.tag] = o.value
    return values


def own_values(text, writers, begun):
    """The values that a text of ours has, writers being 'G' for the configuration and 'TD' for the terminal."""
    outermost, _ = read_text(text)
    return judged(outermost, writers, begun, {})


def used(held, writers):
    """How many bytes the values of some writers have together."""
    return sum(len(value) for tag, value in held.items() if tag in ENTRIES and ENTRIES[tag].writer in writers)
