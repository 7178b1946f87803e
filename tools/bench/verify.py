"""The verb verify: a copy is made again and compared, and so is all that its report says."""
import datetime
import hashlib
import re
import subprocess

from bench import common
from bench import report
from bench.common import Fail, REFUSED, ROOT, WINDOW, Recording, filled, opened, parsed, Usage
from bench.orders import sheet_in
from bench.purge import gone_over
from bench.reading import messages_in
from bench.release import copy_parts

# The form of what a report says of how and when it was made.
FORMS = {"commit": r"[0-9a-f]{40}(-changed)?|unknown", "toolchain": r"\S.*", "processor": r"\S+",
         "made": r"exports native|program (native|emulated)", "time": r"\d{4}-\d\d-\d\dT\d\d:\d\d:\d\dZ"}


class Comparison:
    """A file that is compared with the copy that it should be, part by part."""

    def __init__(self, name):
        self.file, self.hash, self.place, self.difference = opened(name), hashlib.sha256(), 0, None

    def add(self, wanted):
        """The next bytes that should be there, whole messages of a copy."""
        found = filled(self.file, len(wanted))
        self.hash.update(found)
        if found != wanted and self.difference is None:
            at = next((k for k, (a, b) in enumerate(zip(wanted, found)) if a != b), len(found))
            self.difference = told_difference(self.place, wanted, found, at)
        self.place += len(wanted)

    def end(self):
        """What stands behind the last byte that should be there."""
        while more := filled(self.file, WINDOW):
            self.hash.update(more)
            self.difference = self.difference or [("at", self.place), ("wanted", "end"), ("found", f"{more[0]:02x}")]


def told_difference(place, wanted, found, at):
    """Where a copy differs first, and in which message of the copy that it should be."""
    around = next(message for message in messages_in(wanted, len(wanted)) if at < message.at + message.length)
    return [("at", place + at), ("wanted", f"{wanted[at]:02x}"), ("found", f"{found[at]:02x}" if at < len(found) else "end"),
            ("message", place + around.at), ("message_id", around.id), ("byte_of_message", at - around.at)]


def verify_(words):
    """./bench verify [--report REPORT] RECORDING SHEET COPY
    ./bench verify --purge [--report REPORT] RECORDING SHEET LEFT

    Makes the copy of a recording under a sheet again, and compares it with a file that is there. Where they differ it says what differs
    first: the byte (`at`, counted from 0), what it should be and what it is, and the message of the copy that it stands in. With --purge it
    is what a purge has left that is compared, and RECORDING is the recording as it was before.

    --report REPORT   also checks the bench's own report of the copy, line for line: hashes, rows, counts and the definitions' version have to
                      be those of these files and of this repository; commit, toolchain, processor and how it was made have to have their
                      form, and the time to be past; where they are not those of here and now, a line `other` says so
    --purge           the file is what a purge has left, and the report that of a purge
    --program         also has the program of ./run make the copy, and compares that
    --json            what is said as JSON

    Status 0: the copy is the copy, and the report is true. Status 1: the recording or the sheet is refused, or something differs. Status 2:
    bad usage, or a file can not be read.

    Example: ./bench verify --report alpha.report examples/recording examples/sheet alpha.copy
    """
    names, options = parsed(words, ["RECORDING", "SHEET", "COPY"], ["--json", "--program", "--purge"], ["--report"])
    job = "purge" if "--purge" in options else "copy"
    if job == "purge" and "--program" in options:
        raise Usage("the program of ./run makes copies, and no purge")
    recording, sheet, compared = Recording(names[0]), sheet_in(names[1]), Comparison(names[2])
    said = None
    if "--report" in options:
        said = report.read(options["--report"])
        report.bring_library()
    whole, copy, taken = report.Facts(), report.Facts(), report.Facts()
    for part in made_again(job, recording, sheet, whole, copy, taken):
        compared.add(part)
    compared.end()
    if "--program" in options and not compared.difference:
        compare_program(names)
    counts = (taken.messages, taken.packages) if job == "purge" else (copy.messages, copy.packages)
    wrong, other = check_report(said, job, whole, sheet, copy, counts, compared) if said is not None else ([], [])
    is_same = not compared.difference and not wrong
    facts = [(report.RESULTS[job] + "_sha256", copy.hash.hexdigest()), ("bytes", copy.bytes), ("messages", copy.messages), ("packages", copy.packages)]
    common.tell([("state", "same" if is_same else "differs"), *(compared.difference or facts), ("report_differs", wrong), ("other", other)])
    return 0 if is_same else REFUSED


def made_again(job, recording, sheet, whole, result, taken):
    """The copy, or what a purge leaves, part by part; the facts are gathered on the way."""
    if job == "copy":
        return copy_parts(recording, sheet, whole, result)
    return (kept for _, _, kept in gone_over(recording, sheet, whole, result, taken))


def compare_program(names):
    """The same by the program of ./run: another way to the same bytes."""
    run = subprocess.Popen([ROOT + "/run", "--allow-empty", *names[:2]], stdin=subprocess.DEVNULL, stdout=subprocess.PIPE, close_fds=False)
    compared, is_same = opened(names[2]), True
    while part := run.stdout.read(WINDOW):
        is_same = is_same and filled(compared, len(part)) == part
    if run.wait() or not is_same or filled(compared, 1):
        raise Fail("the program of ./run makes another copy than the exports, which is a fault of one of them")


def check_report(said, job, whole, sheet, result, counts, compared):
    """What a report says otherwise than it is, and what it says of how it was made that is not so here."""
    true = dict(report.bench_report(job, whole, sheet, result, counts, said.get("made", "")))
    true[report.RESULTS[job] + "_sha256"] = compared.hash.hexdigest()
    wrong, other = [], []
    for key in [*true, *sorted(set(said) - set(true))]:
        found, wanted = said.get(key, "-"), true.get(key, "-")
        if key not in FORMS:
            wrong += [f"{key} {found}"] if found != (wanted if key == "row" else str(wanted)) else []
        elif key not in said or not re.fullmatch(FORMS[key], found, re.ASCII) or key == "time" and not is_past(found):
            wrong.append(f"{key} {found}")
        elif found != wanted and key != "time":
            other.append(f"{key} {found}")
    return wrong, other


def is_past(found):
    """Whether a time is one, and not to come."""
    try:
        moment = datetime.datetime.strptime(found, "%Y-%m-%dT%H:%M:%SZ").replace(tzinfo=datetime.timezone.utc)
    except ValueError:
        return False
    return moment <= datetime.datetime.now(datetime.timezone.utc)
