"""The verb tenants: which ids a recording holds, how many packages of each, and when; as an order to be cut down, and as a picture."""
import io
import os

from bench.common import Fail, Recording, Usage, parsed, put_whole
from bench.orders import SECOND, Clock, ids_told
from bench.reading import Table, parts_of

COLUMNS = ["mdid", "pdid", "packages", "simulated", "first", "last"]
MOST_RANGES = 32
# The times that a row can grant end before this: its end is left out, and has 32 bits of seconds.
TIMES_END = (2 ** 32 - 1) * SECOND + SECOND - 1
PICTURES = (".svg", ".png", ".pdf")


class Seen:
    """How many packages of one message id and package id there are, those in simulated messages too, and the first and last time."""

    def __init__(self):
        self.packages = self.simulated = 0
        self.first = self.last = None

    def add(self, time, is_simulated):
        self.packages += 1
        self.simulated += is_simulated
        self.first = time if self.first is None else min(self.first, time)
        self.last = time if self.last is None else max(self.last, time)


class Census:
    """What a recording holds of each message id: its messages, its package ids, and the whole seconds in which it has packages, where
    they are to be drawn."""

    def __init__(self, recording, with_seconds):
        self.messages, self.ids, self.seconds = {}, {}, {}
        for _, messages in parts_of(recording):
            for message in messages:
                self.add(message, with_seconds)

    def add(self, message, with_seconds):
        self.messages[message.id] = self.messages.get(message.id, 0) + 1
        packages = self.ids.setdefault(message.id, {})
        for _, package, time, _ in message.packages():
            packages.setdefault(package, Seen()).add(time, message.is_simulated())
            if with_seconds:
                self.seconds.setdefault(message.id, set()).add(time // SECOND)


def tenants_(words):
    """./bench tenants [--order ORDER] [--plot PICTURE] RECORDING

    Tells which ids a recording of any length holds: a line for each message id and package id, with the packages, how many of them are in
    simulated messages, and their first and last time. A message id whose messages hold no package has a line with `-`. The last line,
    `end`, has the messages and the packages.

    --order ORDER     also writes an order that grants all of it, a line for each message id, to be cut down to one tenant's own; ids that
                      share a window and do not fit one line have a second one
    --plot PICTURE    also draws who flew when, by whole seconds, an .svg, .png or .pdf by matplotlib (Debian's package python3-matplotlib)
    --ahead SECONDS   times in UTC, where the recording's clock was so far ahead of it (./bench sheet --help)
    --force           an ORDER or PICTURE that exists is overwritten
    --json            a JSON object a line

    Status 0: told, and what was asked for is written. Status 1: the recording is refused; nothing is told or written. Status 2: bad usage,
    matplotlib is missing, or a file can not be read or written.

    Example: ./bench tenants --order all.order examples/recording
    """
    [name], options = parsed(words, ["RECORDING"], ["--json", "--force"], ["--order", "--plot", "--ahead"])
    clock, force, order, picture = Clock(options), "--force" in options, options.get("--order"), options.get("--plot")
    if picture and not picture.endswith(PICTURES):
        raise Usage("a picture's name ends in " + ", ".join(PICTURES))
    pyplot = matplotlib() if picture else None
    census = Census(Recording(name), bool(picture))
    if order:
        put_whole(order, order_of(census, clock), force, [name])
    if picture:
        draw(pyplot, census, clock, picture, force, name)
    tell(census, clock)


def tell(census, clock):
    table = Table(COLUMNS)
    for message, packages in sorted(census.ids.items()):
        for package, seen in sorted(packages.items()):
            table.add([message, package, seen.packages, seen.simulated, clock.told(seen.first), clock.told(seen.last)])
        if not packages:
            table.add([message, "-", 0, 0, "-", "-"])
    counts = [sum(census.messages.values()), sum(seen.packages for packages in census.ids.values() for seen in packages.values())]
    table.end(counts)


def ranges_of(ids):
    """Ids that stand side by side, as ranges."""
    ranges = []
    for one in sorted(ids):
        if ranges and ranges[-1][1] + 1 == one:
            ranges[-1][1] = one
        else:
            ranges.append([one, one])
    return ranges


def order_of(census, clock):
    """An order that grants every package of a recording, as far as rows can."""
    lines = [clock.heading(), "# all that the recording holds: cut it down to what is the tenant's own; a sheet has at most 32 rows\n"]
    for message, packages in sorted(census.ids.items()):
        lines += order_lines(message, packages, clock)
    return "".join(lines)


def order_lines(message, packages, clock):
    """The lines of a message id: its package ids from the first time to a nanosecond behind the last."""
    within = {package: seen for package, seen in packages.items() if seen.last < TIMES_END}
    ranges = ranges_of(within)
    for k in range(0, len(ranges), MOST_RANGES):
        part = ranges[k:k + MOST_RANGES]
        seen = [within[one] for first, last in part for one in range(first, last + 1)]
        first, last, count = min(one.first for one in seen), max(one.last for one in seen), sum(one.packages for one in seen)
        yield f"{message} {ids_told(part)} {clock.told(first)} {clock.told(last + 1)}  # packages {count}\n"
    for package in sorted(set(packages) - set(within)):
        yield f"# no row can grant all of package id {package} in message id {message}: it has packages behind the last time of a sheet\n"


def matplotlib():
    try:
        import matplotlib
        matplotlib.use("Agg")
        from matplotlib import pyplot
    except ImportError:
        raise Fail("matplotlib is missing: Debian's package python3-matplotlib")
    return pyplot


def draw(pyplot, census, clock, picture, force, recording):
    """A row for each message id, with a bar for each run of seconds in which it has a package."""
    ids = sorted(census.seconds)
    figure, panel = pyplot.subplots(figsize=(10, 1.5 + 0.3 * len(ids)))
    for row, message in enumerate(ids):
        bars = [(first, last + 1 - first) for first, last in ranges_of(census.seconds[message])]
        panel.broken_barh(bars, (row - 0.4, 0.8), edgecolor="C0", linewidth=1.5)
    panel.set_yticks(range(len(ids)), [str(message) for message in ids])
    panel.set_ylabel("message id")
    panel.set_xlabel("seconds of the recording's clock" + (f"; from {clock.told(min(map(min, census.seconds.values())) * SECOND)} on" if ids and clock.ahead is not None else ""))
    panel.ticklabel_format(axis="x", useOffset=False, style="plain")
    panel.grid(True, axis="x")
    figure.tight_layout()
    drawn = io.BytesIO()
    figure.savefig(drawn, format=os.path.splitext(picture)[1][1:])
    put_whole(picture, drawn.getvalue(), force, [recording])
