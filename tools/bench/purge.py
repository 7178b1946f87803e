"""./bench purge: what a sheet grants is taken out of a file in its place, at any length, with no second disk and no loss at a power cut.

Windows. The file is gone over in windows of whole messages, and what is kept of each is hibernaxo_purge of it. One behind the other these
are the purge of the whole: KeptExactly.messages and LeftClean in crates/purge/specs/Claims.antt. With `read` the end of the windows that
were taken and `written` the end of what is kept of them, written <= read, since what is kept of a window is never longer than it
(NeverTooLong). So what is overwritten was read before, or belongs to the window at hand.

Passes. The first only reads, so that a refusal changes no byte; it finds what will be left, and its SHA-256. The second moves what is kept
down. Then the freed bytes are overwritten with zeros, and once these are on the disk the file is cut to what is left.

Turns. The file is overwritten in whole blocks, in turns of two steps:
  1. the blocks as they shall be go into the journal, RECORDING.purge-journal beside the file, with a head that tells the state which they
     lead to, in the place of the older of two heads; the journal is synced.
  2. the blocks go into the file; the file is synced.
A cut may lose any write that is not synced, or tear it, but touches no other block. Then for the newest head that is whole, by its own
SHA-256, one of three holds:
  a. its blocks are whole in the journal: put into the file, whatever stands there by now, they give its state;
  b. they are not, but stand in the file: its turn was ended, and the next one was cut off in its first step;
  c. neither: its own first step was cut off, so that the file is in the other head's state, of which b holds.
So a state is always found, and the purge goes on from there; by b and c it first makes the turn anew, since what stands in the file alone
must not be overwritten. A head also has the sheet's SHA-256, that of the file's first `written`
bytes, and a sum over the windows from `read` on: a call with another sheet, or on a file that was changed meanwhile, is told so before any
byte is written. A turn that would change nothing is left out: its state follows from the head before.

The journal has one size: two heads of a block, and the 17 blocks that 65,536 bytes can touch, 77,824 bytes, less than two windows. It gets
its name once it is on the disk, and before it is removed it is overwritten with zeros, under another name: it may hold bytes that had to go.

The mark. While a purge is under way the file's first byte is 0 on the disk, and the head has the true one. A recording that is moved by
half may pass every check, with messages in it twice; with the mark every reader refuses it, as VERSION at 0. The last turn takes it away.
"""
import fcntl
import hashlib
import os
import stat
import types

from bench import common
from bench import report
from bench.common import WINDOW, Fail, Recording, Refused, Together, answered
from bench.journal import BLOCK, Disk, Journal, digest
from bench.orders import sheet_in
from bench.report import Facts

ZEROS = memoryview(bytes(16 * WINDOW))
MOVING, FREEING, ENDING = "moving", "freeing", "ending"


class Changed(Fail):
    def __init__(self, name):
        super().__init__(f"{name} was changed while it was purged; it is not purged whole, and its journal is kept")


class InPlace(Recording):
    """The file that is purged, shown as it shall be: with its true first byte, and with the blocks over it that may not have been written.
    It is held open in its folder, and locked."""

    def __init__(self, name):
        place = os.path.realpath(name)
        self.name, self.base, self.held = name, os.path.basename(place), None
        self.first, self.over = None, (0, b"")
        try:
            self.folder = os.open(os.path.dirname(place), os.O_RDONLY | os.O_DIRECTORY)
            self.number = os.open(self.base, os.O_RDWR | os.O_NOFOLLOW | os.O_NONBLOCK, dir_fd=self.folder)
        except OSError as error:
            raise Fail(f"{name} can not be read and written: {error.strerror}")
        if not stat.S_ISREG(os.fstat(self.number).st_mode):
            raise Fail(f"{name} is no regular file")
        try:
            fcntl.flock(self.number, fcntl.LOCK_EX | fcntl.LOCK_NB)
        except BlockingIOError:
            raise Fail(f"another purge of {name} is at work")
        self.file = open(self.number, "r+b", buffering=0)
        self.file.name = name

    def size(self):
        return os.fstat(self.number).st_size

    def part(self, place, size):
        shown = bytearray(super().part(place, size))
        if place == 0 and shown and self.first is not None:
            shown[0] = self.first
        start, over = self.over
        low, high = max(place, start), min(place + len(shown), start + len(over))
        if low < high:
            shown[low - place:high - place] = over[low - start:high - start]
        return bytes(shown)

    def sha256(self, size):
        """The running SHA-256 of the first so many bytes."""
        running = hashlib.sha256()
        for place in range(0, size, WINDOW):
            running.update(self.part(place, min(WINDOW, size - place)))
        return running


# ---- The first pass.

def kept_of(window, sheet):
    """What a purge keeps of whole messages."""
    buffer = bytearray(window)
    return bytes(buffer[:answered("purge", 2, buffer, sheet)[1]])


def sum_with(rest, place, window, times=1):
    """The sum over windows, by which they are known again, with one more of them, or one less. It does not depend on those before it."""
    number = int.from_bytes(hashlib.sha256(place.to_bytes(8, "big") + window).digest(), "big")
    return f"{(int(rest, 16) + times * number) % 2 ** 256:064x}"


NO_SUM = f"{0:064x}"


def gone_over(recording, sheet, whole, left, taken):
    """Each window of a recording, its place, and what a purge keeps of it; or Refused, for a bad sheet before anything else. The facts of the
    recording, of what is left and of what goes are gathered on the way."""
    answered("purge", 2, bytearray(), sheet)
    for place, window in recording.windows():
        kept = kept_of(window, sheet)
        whole.add(window, *answered("check", 3, window)[1:])
        left.add(kept, *answered("check", 3, kept)[1:])
        taken.add(b"", *answered("copy_measure", 4, window, sheet)[2:])
        yield place, window, kept


def planned(recording, sheet):
    """What the purge will take and leave, and the sum over all windows."""
    whole, left, taken, rest = Facts(), Facts(), Facts(), NO_SUM
    for place, window, _ in gone_over(recording, sheet, whole, left, taken):
        rest = sum_with(rest, place, window)
    return {
        "sheet": digest(sheet), "purged_messages": taken.messages, "purged": taken.packages,
        "sha256": whole.hash.hexdigest(), "bytes": whole.bytes, "messages": whole.messages, "packages": whole.packages,
        "left_sha256": left.hash.hexdigest(), "left": left.bytes, "left_messages": left.messages,
    }, rest


# ---- The purge itself.

def of_blocks(place, blocks):
    """What a head says of its turn's blocks."""
    return {"place": place, "length": len(blocks), "data": digest(blocks)}


class Purge:
    """A purge under way: the file, the journal, and the last turn's head and blocks."""

    def __init__(self, disk, file, journal, sheet):
        self.disk, self.file, self.journal, self.sheet = disk, file, journal, sheet
        self.head, self.blocks, self.in_journal = None, b"", True

    def begin(self, plan, rest):
        """The turn before the first: it changes nothing but the mark."""
        self.blocks = self.file.part(0, BLOCK)
        self.file.first = self.blocks[0]
        state = {"turn": 0, "phase": MOVING, "read": 0, "written": 0, "kept": digest(b""), "rest": rest, "first": self.blocks[0]}
        self.head = plan | state | of_blocks(0, self.blocks)
        self.journal.create(self.head, self.blocks)

    def run(self):
        """From the state of the last turn, whose second step may be missing, to the end."""
        if self.in_journal:
            self.apply()
        else:
            self.turn(self.head["place"], self.blocks)
        try:
            if self.head["phase"] == MOVING:
                self.move()
                self.free()
        except Refused:
            raise Changed(self.file.name)
        if self.head["phase"] == FREEING:
            self.zero()
            self.end()

    def turn(self, place, blocks, **state):
        """Whole blocks of the file are overwritten, in two steps."""
        first = blocks[0] if place == 0 and blocks else self.head["first"]
        self.head = self.head | state | of_blocks(place, blocks) | {"turn": self.head["turn"] + 1, "first": first}
        self.blocks = blocks
        self.journal.put(self.head, blocks)
        self.file.first = first
        self.apply()

    def apply(self):
        """The second step: the last turn's blocks go into the file, marked until the end. At the end the file is cut before it loses its mark."""
        shown, ending = bytearray(self.blocks), self.head["phase"] == ENDING
        if ending and self.file.size() != self.head["left"]:
            self.disk.shorten(self.file.number, self.head["left"])
            self.disk.sync(self.file.number)
        if self.head["place"] == 0 and shown and not ending:
            shown[0] = 0
        if shown:
            self.disk.write(self.file.number, shown, self.head["place"])
            self.disk.sync(self.file.number)
        self.file.over = (0, b"")

    def move(self):
        """What is kept of each window that is left moves down."""
        written, rest = self.head["written"], self.head["rest"]
        kept = self.file.sha256(written)
        for place, window in self.file.windows(self.head["read"]):
            stays = kept_of(window, self.sheet)
            kept.update(stays)
            rest = sum_with(rest, place, window, -1)
            start, blocks = self.with_part(written, stays)
            written += len(stays)
            if blocks != self.file.part(start, len(blocks)):
                self.turn(start, blocks, read=place + len(window), written=written, kept=kept.hexdigest(), rest=rest)
        if (rest, written, kept.hexdigest()) != (NO_SUM, self.head["left"], self.head["left_sha256"]):
            raise Changed(self.file.name)

    def with_part(self, place, part):
        """The blocks that a part touches at a place of the file, with the part in them, and where they begin."""
        start, end = place // BLOCK * BLOCK, -(-(place + len(part)) // BLOCK) * BLOCK
        there = self.file.part(start, end - start) if part else b""
        return start, there[:place - start] + part + there[place - start + len(part):]

    def free(self):
        """The rest of the block in which what is left ends is zero, and every block behind it is free."""
        left, size = self.head["left"], self.head["bytes"]
        start, blocks = self.with_part(left, bytes(min(size - left, -left % BLOCK)))
        self.turn(start, blocks, phase=FREEING, read=size, written=left, kept=self.head["left_sha256"], rest=NO_SUM)

    def zero(self):
        """The free blocks are overwritten. Nothing in them counts, so they need no journal."""
        place, size = -(-self.head["left"] // BLOCK) * BLOCK, self.head["bytes"]
        for start in range(place, size, len(ZEROS)):
            self.disk.write(self.file.number, ZEROS[:size - start], start)
        self.disk.sync(self.file.number)

    def end(self):
        """What is left is read once more from the file, and then the file is cut."""
        if self.file.sha256(self.head["left"]).hexdigest() != self.head["left_sha256"]:
            raise Changed(self.file.name)
        self.turn(0, self.file.part(0, min(BLOCK, self.head["left"])), phase=ENDING)

    # ---- Going on.

    def go_on(self):
        """Finds the state in which a purge was cut off, and sees that it is one of this sheet and this file."""
        heads = self.journal.heads()
        if any(head["sheet"] != digest(self.sheet) for head in heads):
            raise Fail(f"a purge of {self.file.name} under another sheet was cut off: first end it by a call with that sheet")
        if not (any(map(self.take, heads)) and self.is_whole()):
            raise Fail(f"{self.file.name} or {self.journal.name} was changed since a purge was cut off; nothing is overwritten")

    def take(self, head):
        """The state of a head, if its blocks are whole in the journal or in the file."""
        self.file.first = head["first"]
        for blocks, self.in_journal in ((self.journal.blocks(head), True), (self.file.part(head["place"], head["length"]), False)):
            if digest(blocks) == head["data"]:
                self.head, self.blocks, self.file.over = head, blocks, (head["place"], blocks)
                return True
        return False

    def is_whole(self):
        """Whether the file is the head's, with its blocks put in: its length, what is kept so far, and the windows that are left."""
        sizes, rest = [self.head["bytes"]], NO_SUM
        if self.head["phase"] == ENDING:
            sizes.append(self.head["left"])
        if self.file.size() not in sizes or self.file.sha256(self.head["written"]).hexdigest() != self.head["kept"]:
            return False
        if self.head["phase"] != MOVING:
            return True
        try:
            for place, window in self.file.windows(self.head["read"]):
                rest = sum_with(rest, place, window)
        except Refused:
            return False
        return rest == self.head["rest"]


# ---- The verb.

def purge_file(disk, file, sheet, allow_empty=False, at_the_end=lambda plan: None):
    """Purges a file, or goes on with a purge that was cut off: what it took and left, and whether it was begun, had been over, or took
    nothing. `at_the_end` is called once the file is purged, while a cut would still let the purge go on."""
    journal = Journal(disk, file.base)
    was_over = journal.tidy()
    purge = Purge(disk, file, journal, sheet)
    if journal.find():
        purge.go_on()
    else:
        plan, rest = planned(file, sheet)
        if plan["purged"] == 0 and (was_over or not allow_empty):
            return plan, "over" if was_over else "nothing"
        if plan["left_sha256"] == plan["sha256"]:
            at_the_end(plan)
            return plan, "purged"
        purge.begin(plan, rest)
    purge.run()
    at_the_end(purge.head)
    journal.retire()
    return purge.head, "purged"


def told_of(plan):
    """What a purge took and left, as keys and values."""
    return [
        ("bytes", plan["bytes"]), ("messages", plan["messages"]), ("packages", plan["packages"]), ("packages_purged", plan["purged"]),
        ("bytes_left", plan["left"]), ("messages_left", plan["left_messages"]), ("packages_left", plan["packages"] - plan["purged"]),
    ]


def facts(sha256, size, messages, packages):
    """What a report says of the recording, or of what is left: a purge that went on has it from its journal."""
    known = Facts()
    known.hash, known.bytes, known.messages, known.packages = types.SimpleNamespace(hexdigest=lambda: sha256), size, messages, packages
    return known


def put_reports(files, plan, sheet):
    """The reports that are wanted, each whole and under its name."""
    was = facts(plan["sha256"], plan["bytes"], plan["messages"], plan["packages"])
    left = facts(plan["left_sha256"], plan["left"], plan["left_messages"], plan["packages"] - plan["purged"])
    counts = plan["purged_messages"], plan["purged"]
    if "--report" in files:
        files["--report"].write(report.written(report.bench_report("purge", was, sheet, left, counts, "exports native")))
    if "--tenant-report" in files:
        files["--tenant-report"].write(report.written(report.tenant_report("purge", sheet, None, counts)))
    for file in files.values():
        file.keep()


def purge_(words):
    """./bench purge [--measure] [--report REPORT] [--tenant-report REPORT] RECORDING SHEET

    Takes every package that a sheet grants out of a recording, in the file itself. What is left is in clean form; a message that loses its
    last package goes whole. The bytes that are freed are overwritten with zeros on the disk, and then the file is cut to what is left. A
    recording has any length.

    All of it is checked before the first byte is changed. From then on the file RECORDING.purge-journal stands beside it, of 77,824 bytes,
    and no reader takes the half-purged recording (refused 2 0). Where the purge is cut off, by a power cut too, the same call goes on with
    it, and no byte that is to be kept is lost. A call with another sheet, or on a file that was changed meanwhile, changes nothing.

    --measure                says what would be taken and left, and changes nothing
    --report REPORT          also writes the bench's own report: the SHA-256 of the recording as it was, of the sheet and of what is left, the
                             sheet's rows, what was purged and kept, commit, toolchain, processor and the time
    --tenant-report REPORT   also writes the tenant's: the sheet's hash and rows, what was purged, and the definitions' version; nothing of
                             the recording or of what is left
    --allow-empty            where the sheet grants nothing, the recording is only cleaned
    --force                  reports that exist are overwritten
    --json                   what is said, and reports, as JSON

    Status 0: purged, and on the disk. Status 1: refused; no byte is changed. Status 2: bad usage, a file can not be read or written, another
    purge of the file is at work, or one that was cut off can not go on. Status 3: the sheet grants nothing, and no byte is changed.

    Example: ./bench purge --measure examples/recording examples/sheet
    """
    names, options = common.parsed(words, ["RECORDING", "SHEET"], ["--measure", "--allow-empty", "--force", "--json"], ["--report", "--tenant-report"])
    sheet = sheet_in(names[1])
    if "--measure" in options:
        return common.tell([("state", "measured")] + told_of(planned(Recording(names[0]), sheet)[0]))
    file = InPlace(names[0])
    if os.path.samestat(os.stat(names[1]), os.fstat(file.number)):
        raise Fail(f"{names[0]} and {names[1]} are one file, which is kept")
    together = Together("--force" in options, names)
    try:
        reports = {key: together.add(options[key]) for key in ("--report", "--tenant-report") if key in options}
        if reports:
            # What keeps a report from being made is found before the first byte is changed.
            report.bring_library()
        plan, state = purge_file(Disk(file.folder), file, sheet, "--allow-empty" in options, lambda plan: put_reports(reports, plan, sheet))
    except OSError as error:
        raise Fail(f"{names[0]} could not be purged: {error.strerror}. If {file.base}.purge-journal stands beside it, the same call goes on")
    finally:
        for one in together.files:
            one.close()
    if state == "nothing":
        common.say(f"nothing was purged: no row of {names[1]} grants a package of {names[0]}")
        return common.NOTHING
    if state == "over":
        common.say("the purge that was cut off was over, and nothing was left to do")
    common.tell([("state", "purged")] + told_of(plan))
    return common.DONE
