"""The parts of a sale: lists, records, commands, the decision, as docs/SALE.md says."""
from texts import ENTRIES

KINDS = {b"AAC": 0x00, b"TC": 0x40, b"ARQC": 0x80}


class Fault(Exception):
    pass


def fitted(form, value, size):
    """A value at the length asked for."""
    if form == "n":
        return value[-size:].rjust(size, b"\x00") if size else b""
    return value[:size].ljust(size, b"\xff" if form == "cn" else b"\x00")


def asked(dol):
    """The entries of a list."""
    at = 0
    while at < len(dol):
        end = at + 1
        if dol[at] & 0x1F == 0x1F:
            end += 1
            if end <= len(dol) and dol[end - 1] & 0x80:
                end += 1
                if end <= len(dol) and dol[end - 1] & 0x80:
                    raise Fault
        if end >= len(dol):
            raise Fault
        yield int.from_bytes(dol[at:end], "big"), dol[end]
        at = end + 1


def dol_data(held, dol, most):
    entries = list(asked(dol))
    if sum(size for _, size in entries) > most:
        raise Fault
    out = b""
    for name, size in entries:
        value = held.get(name, b"")
        out += fitted(ENTRIES[name].form, value, size) if value and name in ENTRIES else bytes(size)
    return out


def options(held):
    inner = dol_data(held, held.get(0x9F38, b""), 252)
    form = bytes([len(inner)]) if len(inner) < 128 else bytes([0x81, len(inner)])
    body = b"\x83" + form + inner
    return b"\x80\xa8\x00\x00" + bytes([len(body)]) + body + b"\x00"


def generated(held, kind):
    inner = dol_data(held, held.get(0x8C, b"") or held.get(0xDF856C, b""), 255)
    lc = bytes([len(inner)]) if inner else b""
    return bytes([0x80, 0xAE, KINDS[kind], 0x00]) + lc + inner + b"\x00"


def records(afl):
    if len(afl) % 4:
        raise Fault
    found = []
    for i in range(0, len(afl), 4):
        file, first, last, count = afl[i : i + 4]
        if file % 8 or not 1 <= file // 8 <= 30 or first == 0 or last < first or count > last - first + 1:
            raise Fault
        found += [(file // 8, n) for n in range(first, last + 1)]
    if len(found) > 64 or len(set(found)) < len(found):
        raise Fault
    return found


def share(a, b):
    return int.from_bytes(a, "big") & int.from_bytes(b, "big") != 0


def decided(tvr, denial, online, terminal):
    if share(tvr, denial):
        return "AAC"
    if terminal in (0x11, 0x21, 0x14, 0x24, 0x34):
        return "ARQC"
    if terminal in (0x23, 0x26, 0x36, 0x13, 0x16):
        return "TC"
    return "ARQC" if share(tvr, online) else "TC"


def given(kind, cid):
    got = {0: "AAC", 1: "TC", 2: "ARQC"}.get(cid >> 6)
    allowed = {b"AAC": ["AAC"], b"TC": ["AAC", "TC", "ARQC"], b"ARQC": ["AAC", "ARQC"]}[kind]
    if got not in allowed:
        raise Fault
    return got
