"""The verbs sheet and show: an order's lines into a sheet and back. What a line is, and how one is read, is tools/order_lines.py's.

Times of a recording are seconds and nanoseconds of the recorder's clock. Chapter 24 has it count from 1970 by atomic time (TAI), which
is ahead of clock time (UTC) by some whole seconds, 37 since 2017; a unit may have run by another clock. So a time in UTC is read and
written only where the caller says how far the clock was ahead, and nothing is guessed.
"""
import ctypes
import datetime
import re

import order_lines
from bench import common
from bench.common import Fail, answered, parsed, print_whole, put_whole, taken

SECOND = 1_000_000_000
# More than 32 rows can ever need, comments included.
LONGEST_ORDER = 1 << 24
# A sheet is refused by its length above 1,024 bytes; what is longer than this is not even read.
LONGEST_SHEET = 1 << 26
BEGIN = datetime.datetime(1970, 1, 1)
UTC = re.compile(r"(\d{4}-\d\d-\d\dT\d\d:\d\d:\d\d)(?:\.(\d{9}))?Z", re.ASCII)
ROW_KEYS = ["first_message", "last_message", "first_package", "last_package", "start_seconds", "start_nanoseconds",
            "end_seconds", "end_nanoseconds", "acquired"]


class Clock:
    """How many seconds the recording's clock is ahead of UTC, if that was said."""

    def __init__(self, options):
        word = options.get("--ahead")
        self.ahead = None if word is None else common.number_in(word, "--ahead", -10 ** 6, 10 ** 6)

    def read(self, at, word_number, word):
        """The seconds and nanoseconds that a word of an order is."""
        if match := re.fullmatch(r"0*([0-9]+)ns", word):
            # Twenty digits without zeros before them are above every time already.
            seconds, nanos = divmod(int(match[1][:20]), SECOND)
        elif match := UTC.fullmatch(word):
            seconds, nanos = self.seconds_of(at, word_number, word, match[1]), int(match[2] or 0)
        else:
            return order_lines.time_in(at, word_number, word)
        if not 0 <= seconds < 2 ** 32:
            raise order_lines.wrong_word(at, word_number, word, "is before the clock's start, or its seconds have more than 32 bits")
        return [seconds, nanos]

    def seconds_of(self, at, word_number, word, stamp):
        if self.ahead is None:
            raise order_lines.wrong_word(at, word_number, word, "is UTC: --ahead SECONDS has to say how far the recording's clock was ahead of it (37 for atomic time since 2017)")
        try:
            moment = datetime.datetime.strptime(stamp, "%Y-%m-%dT%H:%M:%S")
        except ValueError:
            raise order_lines.wrong_word(at, word_number, word, "is no time of the calendar; a leap second can be said in seconds of the clock")
        return (moment - BEGIN) // datetime.timedelta(seconds=1) + self.ahead

    def told(self, time):
        """A time in nanoseconds as a word that `read` reads as the same."""
        seconds, nanos = divmod(time, SECOND)
        rest = f".{nanos:09}" if nanos else ""
        if self.ahead is None:
            return f"{seconds}{rest}"
        moment = BEGIN + datetime.timedelta(seconds=seconds - self.ahead)
        return f"{moment:%Y-%m-%dT%H:%M:%S}{rest}Z"

    def heading(self):
        """The comment that states the epoch of an order's times."""
        if self.ahead is None:
            return "# times are seconds of the recording's clock\n"
        return f"# times are UTC, where the recording's clock was {self.ahead} s ahead: read with --ahead {self.ahead}\n"


def ids_told(ranges):
    """Ranges of ids as a line of text, by the proved writer."""
    ends = (ctypes.c_uint32 * 64)(*(end for pair in ranges for end in pair))
    line = bytearray(703)
    length = answered("write_ids", 2, ends, ctypes.c_size_t(len(ranges)), line)[1]
    return line[:length].decode()


def sheet_in(name):
    """The bytes of a file that is to be a sheet."""
    sheet = taken(name, LONGEST_SHEET)
    if len(sheet) > LONGEST_SHEET:
        raise Fail(f"{name} is no sheet: it has more than {LONGEST_SHEET} bytes")
    return sheet


def rows_of(sheet):
    """The rows of a sheet by the proved reader, nine numbers each, or Refused."""
    values = answered("sheet", 290, sheet)
    return [values[2 + 9 * k:11 + 9 * k] for k in range(values[1])]


def line_of(row, clock):
    """A row as a line of an order."""
    times = [clock.told(row[k] * SECOND + row[k + 1]) for k in (4, 6)]
    words = [ids_told([row[0:2]]), ids_told([row[2:4]]), *times] + [order_lines.ACQUIRED] * row[8]
    return " ".join(words) + "\n"


def sheet_(words):
    """./bench sheet [--ahead SECONDS] [--force] [--allow-empty] ORDER SHEET

    Writes the order sheet of an order's lines. A line is message ids, package ids, start and end, and behind them at most the word
    `acquired`, which keeps simulated messages out: `7-9,12 1-3 100 101`. Ids are lists as `7-9,12`. A time is seconds, as `100`;
    seconds with nine digits of nanoseconds, as `100.000000010`; nanoseconds, as `100000000010ns`; or UTC, as `2024-05-01T12:00:00Z`,
    also with nine digits behind a point. The start is granted, the end is not. A line may also be one row in eight whole numbers, and
    what stands behind a '#' does not count. docs/COMMANDS.md says more.

    --ahead SECONDS   how far the recording's clock was ahead of UTC: 37 for atomic time (TAI) since 2017, which Chapter 24 asks for, 18
                      for GPS time since then, 0 for a unit that ran by UTC. A time in UTC is not read without it
    --allow-empty     an order without a line gives a sheet that grants nothing
    --force           a SHEET that exists is overwritten

    Status 0: the sheet is there. Status 1: a line is no row, or against the rules; line and word are on standard error. Status 2: bad usage,
    or a file can not be read or written. Status 3: the order has no line, so there is no sheet.

    Example: ./bench sheet examples/order alpha.sheet
    """
    [order, sheet], options = parsed(words, ["ORDER", "SHEET"], ["--force", "--allow-empty"], ["--ahead"])
    text = taken(order, LONGEST_ORDER)
    if len(text) > LONGEST_ORDER:
        raise Fail(f"{order} is longer than any order")
    try:
        data = order_lines.sheet_of(text, Clock(options).read)
    except order_lines.Wrong as wrong:
        why, *refusal = wrong.args
        if refusal:
            print_whole(f"refused 11 {refusal[0]}\n")
        common.say(f"{order}: {why}")
        return common.REFUSED
    rows_of(data)
    if not data and "--allow-empty" not in options:
        common.say(f"{order} has no line: its sheet would grant nothing")
        return common.NOTHING
    put_whole(sheet, data, "--force" in options, [order])


def show_(words):
    """./bench show [--ahead SECONDS] SHEET

    Shows the rows of an order sheet as lines of an order, one for each: message ids, package ids, start and end, and `acquired`. What is
    shown is an order again: ./bench sheet makes the same sheet of it.

    --ahead SECONDS   times are shown in UTC, where the recording's clock was so far ahead of it; the first line states it
    --json            rows as JSON objects of plain numbers

    Status 0: shown. Status 1: the sheet is refused. Status 2: bad usage, or it can not be read.

    Example: ./bench show examples/sheet
    """
    [name], options = parsed(words, ["SHEET"], ["--json"], ["--ahead"])
    clock, rows = Clock(options), rows_of(sheet_in(name))
    if common.in_json:
        common.tell([("rows", [dict(zip(ROW_KEYS, row)) for row in rows])])
    else:
        print_whole(clock.heading() + "".join(line_of(row, clock) for row in rows))
