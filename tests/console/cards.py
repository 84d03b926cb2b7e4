"""Objects, texts and answers of cards as hexadecimal digits, for the scripts that edges.py and sales.py write."""
CONFIG = {"DF8121": "0000000000", "DF8122": "0000000000", "DF8123": "000000001000", "DF856C": "9F02069F3704", "9F35": "22"}
AMOUNT = "9F0206000000001000"
FCI = {"84": "A000000999", "50": "4142"}
OPTIONS = {"82": "1980", "94": "08010100"}
RECORD = {"5A": "12345F", "5F24": "251231"}
CRYPTOGRAM = {"9F27": "40", "9F36": "0001", "9F26": "0102030405060708"}
GOOD = "9000"


def obj(tag, value=""):
    """An object with the shortest length; a value of more than 255 bytes has a length that no text may have."""
    n = len(value) // 2
    length = f"{n:02X}" if n < 128 else f"81{n:02X}" if n < 256 else f"82{n:04X}"
    return tag + length + value


def series(objects):
    return "".join(obj(tag, value) for tag, value in objects.items())


def text(outer, objects, more=""):
    """One outer object with some objects in it, and more bytes behind them."""
    return obj(outer, series(objects) + more)


def size(objects):
    """How many bytes the values have."""
    return sum(len(value) for value in objects.values()) // 2


def without(objects, tag):
    return {t: v for t, v in objects.items() if t != tag}


def digits(word):
    """An argument of a line: its digits, or a hyphen for nothing."""
    return word or "-"


def amount(units):
    return obj("9F02", f"{units:012d}")


def store(make, total, objects=64):
    """The line that makes a store with some room for values."""
    return f"store {make} {objects} {total + 5 * objects if 'strip' in make else total}"
