"""The verbs check and list: a recording's state, and what it holds, up to the fault where it is refused."""
import ctypes
import json

from bench import common
from bench.common import Recording, Refused, answered, asked, given, parsed, print_whole

# Flag bits 7, 6 and 3 to 0 of a header, by document 01; bits 5 and 4 are zero in every message that passes.
FLAGS = {0x80: "standard", 0x40: "playback", 0x08: "simulated", 0x04: "unlocked", 0x02: "error", 0x01: "end"}
PACKAGE_COLUMNS = ["at", "mdid", "pdid", "sec", "nsec", "len"]
MESSAGE_COLUMNS = ["at", "mdid", "seq", "len", "sec", "nsec", "flags", "options", "packages"]
SECOND = 1_000_000_000


class Message:
    """A message of a window: where it stands there, and its header as the export reads it."""

    def __init__(self, window, at, header):
        self.window, self.at = window, at
        _, self.words, self.flags, self.id, self.sequence, self.length, self.seconds, self.nanoseconds, run, run_length = header
        self.options = window[at + run:at + run + run_length]

    def is_simulated(self):
        return bool(self.flags & 0x08)

    def payload(self):
        return given(self.window, self.at + 24 + 4 * self.words, self.at + self.length)

    def packages(self):
        """Each package: its place in the window, its id, its time in nanoseconds, and L."""
        place, begin = 0, self.at + 24 + 4 * self.words
        time = self.seconds * SECOND + self.nanoseconds
        while True:
            shown = answered("package", 9, self.payload(), ctypes.c_size_t(place))
            if not shown[1]:
                return
            yield begin + place, shown[2], time + shown[5], shown[3]
            place = shown[8]


def messages_in(window, end):
    """The messages of a window that end at or before a place in it."""
    at = 0
    while at < end:
        number, header = asked("header", 10, given(window, at))
        if number or at + header[5] > end:
            return
        yield Message(window, at, header)
        at += header[5]


def parts_of(recording):
    """Places in a recording and the messages from there on, each that passes before the fault where there is one, which is then raised."""
    try:
        for place, window in recording.windows():
            yield place, messages_in(window, len(window))
    except Refused as refused:
        place, window = refused.window
        yield place, messages_in(window, refused.place - place)
        raise


class Table:
    """Lines of a table as they come, under a heading; or a line of JSON for each."""

    def __init__(self, columns):
        self.columns, self.lines = columns, []
        if not common.in_json:
            self.lines.append(" ".join(columns))

    def add(self, values):
        self.lines.append(json.dumps(dict(zip(self.columns, values))) if common.in_json else " ".join(map(str, values)))
        if len(self.lines) > 1000:
            self.flush()

    def end(self, counts):
        """The last line: messages and packages."""
        self.lines.append(json.dumps({"end": counts}) if common.in_json else f"end {counts[0]} {counts[1]}")
        self.flush()

    def flush(self):
        """What has gathered is printed."""
        print_whole("".join(line + "\n" for line in self.lines))
        self.lines = []


def flag_words(flags):
    return "+".join(word for bit, word in FLAGS.items() if flags & bit) or "-"


def check_(words):
    """./bench check RECORDING

    Says whether a recording of any length passes every check, and how many messages and packages it holds.

    --json   the same as a JSON object

    Where it is refused, the first line is `refused NUMBER PLACE`, and behind it stand how many bytes, messages and packages there are before
    the message with the fault; what the refusal means and what to do stands on standard error.

    Status 0: it passes. Status 1: it is refused. Status 2: it can not be read.

    Example: ./bench check examples/recording
    """
    [name], _ = parsed(words, ["RECORDING"], ["--json"])
    counts = [0, 0, 0]

    def count(window):
        _, messages, packages = answered("check", 3, window)
        for k, more in enumerate([len(window), messages, packages]):
            counts[k] += more

    told = lambda: list(zip(["bytes", "messages", "packages"], counts))
    try:
        for _, window in Recording(name).windows():
            count(window)
    except Refused as refused:
        place, window = refused.window
        whole = [message.at + message.length for message in messages_in(window, refused.place - place)]
        count(window[:whole[-1] if whole else 0])
        common.tell_refusal(refused, told())
        return common.REFUSED
    common.tell([("state", "passes")] + told())


def list_(words):
    """./bench list [--messages] RECORDING

    Lists the packages of a recording of any length as ./list does, a line for each: where it begins, message id, package id, its time in
    seconds and nanoseconds, and L. With --messages a line for each message: where it begins, message id, sequence number, length, time, its
    flags by name, its options as they stand (in hex), and how many packages it has. A last line `end` has the messages and packages.

    --messages   messages in place of packages
    --json       a JSON object a line

    Where the recording is refused, what stands before the message with the fault is listed, and the last line is `refused NUMBER PLACE`.

    Status 0: listed. Status 1: refused; the list ends at the fault. Status 2: it can not be read, or the list not be written.

    Example: ./bench list --messages examples/recording
    """
    [name], options = parsed(words, ["RECORDING"], ["--json", "--messages"])
    by_message = "--messages" in options
    recording, counts = Recording(name), [0, 0]
    table = Table(MESSAGE_COLUMNS if by_message else PACKAGE_COLUMNS)
    try:
        for place, messages in parts_of(recording):
            for message in messages:
                packages = list(message.packages())
                counts[0] += 1
                counts[1] += len(packages)
                for values in [message_values(place, message, packages)] if by_message else package_values(place, message, packages):
                    table.add(values)
    except Refused:
        table.flush()
        raise
    table.end(counts)


def message_values(place, message, packages):
    return [place + message.at, message.id, message.sequence, message.length, message.seconds, message.nanoseconds,
            flag_words(message.flags), message.options.hex() or "-", len(packages)]


def package_values(place, message, packages):
    return [[place + at, message.id, package, *divmod(time, SECOND), length] for at, package, time, length in packages]
