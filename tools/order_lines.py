"""Orders in lines and order sheets: what tools/sheet and ./bench share.

tools/sheet says what a line is. A time may be something else where the caller has a reader of times of its own.
"""
import ctypes
import re

from library import export

# The numbers in a row's 256 bits, the first the highest, with their widths. Behind them three bits are spare and zero, and the last is 1
# where the row is for acquired data only. A row is held as its eight numbers and that bit.
WIDTHS = [32, 32, 32, 32, 32, 30, 32, 30]
ACQUIRED = "acquired"
MOST_ROWS = 32


class Refused(Exception):
    """A sheet against the rules, and the place that read_sheet tells."""


class Wrong(Exception):
    """What is not good about an order or a sheet: why, and how the sheet is refused, if it is one."""


def fault(row):
    """What is against the rules in a row's numbers, and which number it is, counted from 1; or nothing."""
    if row[0] > row[1]:
        return "the first message id is above the last", 1
    if row[2] > row[3]:
        return "the first package id is above the last", 3
    for number in (6, 8):
        if row[number - 1] > 999_999_999:
            return "nanoseconds above 999,999,999", number
    if row[4:6] >= row[6:8]:
        return "the end is not behind the start (the end is left out: for one instant, end one nanosecond later)", 7
    return None


def rows_of(sheet):
    """The rows of a sheet, or Refused: its size before its rows."""
    if len(sheet) > 1024 or len(sheet) % 32:
        raise Refused(len(sheet))
    rows = []
    for place in range(0, len(sheet), 32):
        number = int.from_bytes(sheet[place:place + 32], "big")
        spare, row, number = number % 16 // 2, [number % 2], number >> 4
        for width in reversed(WIDTHS):
            row.insert(0, number % 2 ** width)
            number >>= width
        if spare or fault(row):
            raise Refused(place)
        rows.append(row)
    return rows


def bytes_of(row):
    """The 32 bytes of a row."""
    number = 0
    for value, width in zip(row, WIDTHS):
        number = number << width | value
    return (number << 4 | row[8]).to_bytes(32, "big")


class Order:
    """A line's rows, each held to the rules, and the word of the line that each number of a row stands in."""

    def __init__(self, at, rows, words):
        self.at, self.rows, self.words = at, rows, words

    def fault(self):
        """What is against the rules, or nothing."""
        found = next(filter(None, map(fault, self.rows)), None)
        return found and f"line {self.at}, word {self.words[found[1] - 1]}: {found[0]}"


def wrong_word(at, number, word, why):
    return Wrong(f"line {at}, word {number}: {word[:40]!r} {why}")


def number_in(at, word_number, word, width):
    """The number that a word is."""
    if not (word.isascii() and word.isdigit()):
        raise wrong_word(at, word_number, word, "is no whole number")
    digits = word.lstrip("0") or "0"
    if len(digits) > 10 or int(digits) >= 2 ** width:
        raise wrong_word(at, word_number, word, f"has more than {width} bits")
    return int(digits)


def time_in(at, word_number, word):
    """The seconds and nanoseconds that a word is."""
    if not re.fullmatch(r"[0-9]+(\.[0-9]{9})?", word):
        raise wrong_word(at, word_number, word, "is no time: seconds, or seconds, a point and nine digits of nanoseconds, as 100.000000010")
    seconds, _, nanos = word.partition(".")
    return [number_in(at, word_number, seconds, 32), int(nanos or 0)]


def reader_of_ids():
    """The proved reader of a line of ids."""
    reader = export("hibernaxo_read_ids")
    reader.argtypes = [ctypes.c_char_p, ctypes.c_size_t, ctypes.c_uint64 * 66]
    reader.restype = ctypes.c_uint32
    return reader


def ranges_in(at, word_number, word):
    """The ranges that a list of ids says."""
    values, text = (ctypes.c_uint64 * 66)(), word.encode(errors="replace")
    if reader_of_ids()(text, len(text), values) != 0:
        rest = text[values[0]:][:20].decode(errors="replace")
        where = f"at {rest!r}, its byte {values[0] + 1}" if rest else "at its end"
        raise wrong_word(at, word_number, word, f"is no list of ids {where}: ids and ranges as 7-9,12, at most 32, first not above last, 4294967295 the largest")
    return [values[2 + 2 * k:4 + 2 * k] for k in range(values[1])]


def order_in(line, at, read_time):
    """The order of a line, or None where it is empty. A line that is none is Wrong."""
    words = line.split("#")[0].split()
    if not words:
        return None
    acquired = len(words) in (5, 9) and words[-1] == ACQUIRED
    words = words[:-1] if acquired else words
    if len(words) == 8:
        numbers = [number_in(at, k, word, width) for k, (word, width) in enumerate(zip(words, WIDTHS), 1)]
        return Order(at, [numbers + [int(acquired)]], range(1, 9))
    if len(words) != 4:
        raise Wrong(f"line {at}: message ids, package ids, start and end are wanted, or eight whole numbers, and behind them at most the word {ACQUIRED}")
    messages, packages = ranges_in(at, 1, words[0]), ranges_in(at, 2, words[1])
    times = read_time(at, 3, words[2]) + read_time(at, 4, words[3])
    rows = [[*message, *package, *times, int(acquired)] for message in messages for package in packages]
    return Order(at, rows, [1, 1, 2, 2, 3, 3, 4, 4])


def lines_of(text):
    """The lines of an order, by its byte order mark where it has one."""
    wide = text[:2] in (b"\xff\xfe", b"\xfe\xff")
    return re.split("\r\n|\r|\n", text.decode("utf-16" if wide else "utf-8-sig", "replace"))


def too_many(orders):
    """The line with which there are more rows than a sheet has, or nothing."""
    count = 0
    for order in orders:
        count += len(order.rows)
        if count > MOST_ROWS:
            return f"line {order.at}: with its {len(order.rows)} there are {count} rows, where {MOST_ROWS} are the most"
    return ""


def sheet_of(text, read_time=time_in):
    """The sheet of an order's text, or Wrong. Times are read by `read_time`, which is handed line, word number and word."""
    orders = [order for at, line in enumerate(lines_of(text), 1) if (order := order_in(line, at, read_time))]
    sheet = b"".join(bytes_of(row) for order in orders for row in order.rows)
    try:
        rows_of(sheet)
    except Refused as refusal:
        raise Wrong(too_many(orders) or next(filter(None, (order.fault() for order in orders))), refusal)
    return sheet


def line_of(row):
    """The line of a row."""
    return " ".join(map(str, row[:8])) + f" {ACQUIRED}" * row[8] + "\n"


def lines_in(sheet):
    """The lines of a sheet's rows, or Wrong."""
    try:
        return "".join(line_of(row) for row in rows_of(sheet)).encode()
    except Refused as refusal:
        raise Wrong("", refusal)
