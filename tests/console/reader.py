"""The calls of a reader, from opening to outcome, and reading out, as docs/RUN.md, docs/KEEPING.md and docs/READOUT.md say."""
import parts
import texts
from texts import ENTRIES, ObjectFault, TextFault

BUFFER = 261
LIST = 64
NEEDED = [0x9F02, 0x9F35, 0xDF8121, 0xDF8122, 0xDF8123, 0xDF856C]
DATA_RECORD = """9F02 9F03 9F26 5F24 82 50 5A 5F34 9F12 9F36 9F07 9F09 9F27 84 9F1E 9F10 9F8109 9F11 9F24 9F33 9F1A 9F35 95 57
5F2A 9A 9C 9F37"""
RESULTS = {"TC": 1, "AAC": 2, "ARQC": 3}


class Refused(Exception):
    """A call that is refused; the reader and its store are as they were."""

    def __init__(self, number, kind=0, place=0, tag=0):
        super().__init__(number)
        self.number, self.kind, self.place, self.tag = number, kind, place, tag


class End(Exception):
    """The end of a run with result 4: what it carries is None, a TextFault or an ObjectFault."""

    def __init__(self, l1, l2, status=b"\x00\x00", missing=0, carries=None):
        super().__init__(l1, l2)
        self.l1, self.l2, self.status, self.missing, self.carries = l1, l2, status, missing, carries


class Outcome:
    def __init__(self, result, end=None, phase=0, record=(0, 0)):
        self.result, self.end, self.phase, self.record = result, end, phase, record


def check(number, passed):
    if not passed:
        raise Refused(number)


def written(tag, value):
    """An object with the shortest length."""
    size = bytes([len(value)]) if len(value) < 128 else bytes([0x81, len(value)])
    return texts.tag_bytes(tag) + size + value


class Reader:
    def __init__(self, store):
        self.store = store
        self.open = False
        self.terminal = self.card = 0
        self.begun = False
        self.phase = 0
        self.count = 0
        self.records = []
        self.requested = None
        self.ended = None

    # what is held

    def value(self, tag):
        return self.store.held.get(tag, b"")

    def put(self, tag, value):
        assert self.store.put(tag, value) is None, "from opening on there is room"

    def put_all(self, values):
        after = {tag: value for tag, value in self.store.held.items() if tag not in values}
        after.update(values)
        assert len(after) <= self.store.objects and sum(map(len, after.values())) <= self.store.total
        self.store.held = after

    def within(self, values, writers, share):
        """Whether the writers' values are within their share after a text."""
        return texts.used({**self.store.held, **values}, writers) <= share

    def own_text(self, text, writers, share):
        """Takes a text of the configuration's or the terminal's."""
        try:
            values = texts.own_values(text, writers, self.begun)
        except TextFault as fault:
            raise Refused(5, fault.kind, fault.place)
        except ObjectFault as fault:
            raise Refused(6, fault.kind, fault.place, fault.tag)
        check(7, self.within(values, writers, share))
        self.put_all(values)

    # calls

    def opening(self, lent, configuration, terminal, card, text):
        check(1, not self.open)
        check(2, lent[1] >= LIST)
        check(3, not self.store.held)
        check(4, self.store.objects >= 64 and self.store.total >= configuration + terminal + card + 16)
        self.own_text(text, "G", configuration)
        self.open = True
        self.terminal, self.card = terminal, card

    def write(self, lent, text):
        check(1, self.open)
        check(2, lent[1] >= LIST)
        self.own_text(text, "TD", self.terminal)

    def begin(self, lent, fci):
        check(1, self.open)
        check(2, lent[0] >= BUFFER and lent[1] >= LIST)
        check(8, not self.begun)
        for tag in NEEDED:
            if not self.value(tag):
                raise Refused(9, tag=tag)
        self.begun = True
        self.count = 0
        return self.step(lambda: self.after_fci(fci))

    def answer(self, lent, data):
        check(1, self.open)
        check(2, lent[0] >= BUFFER and lent[1] >= LIST)
        check(10, self.phase in (20, 22, 26))
        after = {20: self.after_options, 22: self.after_record, 26: self.after_cryptogram}[self.phase]
        return self.step(lambda: after(data))

    def fault(self, code):
        check(1, self.open)
        check(11, code in (1, 2, 3))
        check(10, self.phase in (20, 22, 26))
        self.end_with(End(code, 0))

    def stop(self):
        check(1, self.open)
        check(10, self.phase in (20, 22, 26))
        self.end_with(End(0, 0))

    def clear(self):
        check(1, self.open)
        self.store.held = {tag: value for tag, value in self.store.held.items() if ENTRIES[tag].writer == "G"}
        self.begun = False
        self.phase = self.count = 0
        self.records, self.requested, self.ended = [], None, None

    def outcome(self):
        check(1, self.open)
        check(13, self.phase == 40)
        return self.ended

    # the run

    def step(self, what):
        """The command that a step hands out, or None where it ends the run."""
        try:
            command = what()
        except End as end:
            self.end_with(end)
            return None
        if command is not None:
            self.count += 1
        return command

    def end_with(self, end):
        record = self.records[0] if self.phase == 22 else (0, 0)
        self.finish(Outcome(4, end, self.phase, record), bytes([end.l1, end.l2, 0]) + end.status + b"\x00")

    def finish(self, outcome, indication):
        self.put(0xDF8115, indication)
        self.ended = outcome
        self.phase = 40

    def take(self, text, outer):
        """Stores a text of the card's that is one object of a tag; answers the values that it brings."""
        try:
            outermost, primitive = texts.read_text(text)
        except TextFault as fault:
            raise End(0, 4, carries=fault)
        if len(outermost) != 1 or outermost[0].tag != outer:
            raise End(0, 4)
        try:
            values = texts.judged(primitive, "C", self.begun, self.store.held)
        except ObjectFault as fault:
            raise End(0, 6, carries=fault)
        if not self.within(values, "C", self.card):
            raise End(0, 6)
        self.put_all(values)
        return values

    def take_answer(self, data, outer):
        if not 2 <= len(data) <= 258:
            raise End(0, 4)
        text, status = data[:-2], data[-2:]
        if status != b"\x90\x00":
            raise End(0, 3, status=status)
        return self.take(text, outer)

    def need(self, values, tags):
        for tag in tags:
            if not values.get(tag):
                raise End(0, 1, missing=tag)

    def after_fci(self, fci):
        if len(fci) > 256:
            raise End(0, 4)
        self.take(fci, 0x6F)
        try:
            command = parts.options(self.store.held)
        except parts.Fault:
            raise End(0, 6)
        self.phase = 20
        return command

    def after_options(self, data):
        values = self.take_answer(data, 0x77)
        self.need(values, [0x82, 0x94])
        try:
            records = parts.records(values[0x94])
        except parts.Fault:
            raise End(0, 6)
        self.records = records
        self.phase = 22
        return self.read_record()

    def read_record(self):
        file, number = self.records[0]
        return bytes([0x00, 0xB2, number, file * 8 + 4, 0x00])

    def after_record(self, data):
        self.take_answer(data, 0x70)
        if len(self.records) > 1:
            self.records = self.records[1:]
            return self.read_record()
        self.need(self.store.held, [0x5A, 0x5F24])
        exceeds = int(self.value(0x9F02).hex()) > int(self.value(0xDF8123).hex())
        tvr = bytes([0, 0, 0, 0x80 if exceeds else 0, 0])
        self.put(0x95, tvr)
        kind = parts.decided(tvr, self.value(0xDF8121), self.value(0xDF8122), self.value(0x9F35)[0])
        try:
            command = parts.generated(self.store.held, kind.encode())
        except parts.Fault:
            raise End(0, 6 if self.value(0x8C) else 15)
        self.requested = kind
        self.phase = 26
        return command

    def after_cryptogram(self, data):
        values = self.take_answer(data, 0x77)
        self.need(values, [0x9F27, 0x9F36, 0x9F26])
        try:
            kind = parts.given(self.requested.encode(), values[0x9F27][0])
        except parts.Fault:
            raise End(0, 6)
        self.finish(Outcome(RESULTS[kind]), bytes(6))

    # reading out

    def read_out(self, lent, objects):
        out = b"".join(written(tag, value) for tag, value in objects)
        check(2, lent[0] >= len(out))
        return out

    def wanted(self, lent):
        check(1, self.open)
        check(2, lent[1] >= LIST)
        listed, at, tags = self.value(0xDF8112), 0, []
        try:
            while at < len(listed):
                if listed[at] == 0:
                    at += 1
                    continue
                tag, behind = texts.read_tag(listed, at, len(listed))
                if tag not in tags:
                    if len(tags) == 64:
                        raise TextFault(6, at)
                    tags.append(tag)
                at = behind
        except TextFault as fault:
            raise Refused(5, fault.kind, fault.place)
        return self.read_out(lent, [(tag, self.value(tag)) for tag in tags])

    def one_object(self, lent, tag):
        check(1, self.open)
        check(12, texts.is_tag(tag) and tag in self.store.held)
        return self.read_out(lent, [(tag, self.value(tag))])

    def data_record(self, lent):
        check(1, self.open)
        check(13, self.phase == 40)
        check(14, self.ended.result != 4)
        tags = [int(word, 16) for word in DATA_RECORD.split()]
        return self.read_out(lent, [(tag, self.value(tag)) for tag in tags if tag in self.store.held])
