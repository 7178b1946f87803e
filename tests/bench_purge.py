"""The purge in place: its answers beside the second program's, and the power cut at each of its writes.

A purge does everything to the disk through journal.Disk. Here other disks stand in its place: one that kills the process at its n-th call,
in the middle of a write; and one that cuts the power there, after which what was not synced is lost, kept or torn, block by block, at
random. Each purge is cut off at each of its calls, the n from 1 up to where it is no longer reached; then it goes on, or is cut off again.
"""
import errno
import fcntl
import hashlib
import json
import os
import random
import shutil
import signal
import subprocess
import sys
import time

from benching import HERE, M, R, bench, forked, names_in, pairs_of, put, read, same, second

sys.path.insert(0, HERE + "/tools")
from bench import common, journal, purge

SECTOR = 512
cuts = 0


class Unsynced(journal.Disk):
    """A disk that believes every sync, and keeps what it is asked, call by call."""

    def __init__(self, folder, at=0):
        super().__init__(folder)
        self.calls, self.at = [], at

    def call(self, name):
        """Each call of a disk comes here, before it is done."""
        self.calls.append(name)
        if len(self.calls) == self.at:
            self.cut()

    def cut(self):
        pass

    def create(self, name):
        self.call("create")
        return super().create(name)

    def write(self, file, data, place):
        self.call("write")
        super().write(file, data, place)

    def sync(self, file):
        self.call("sync")

    def shorten(self, file, size):
        self.call("shorten")
        super().shorten(file, size)

    def rename(self, old, new):
        self.call("rename")
        super().rename(old, new)

    def remove(self, name):
        self.call("remove")
        super().remove(name)

    def sync_folder(self):
        self.call("sync_folder")


class Killing(Unsynced):
    """A disk at whose n-th call the process is killed: half of a write is done by then, and nothing of anything else."""

    def write(self, file, data, place):
        if len(self.calls) + 1 == self.at:
            journal.Disk.write(self, file, bytes(data)[:len(data) // 2], place)
        super().write(file, data, place)

    def cut(self):
        os.kill(os.getpid(), signal.SIGKILL)


class Failing(Unsynced):
    """A disk whose n-th call fails, as one without room does."""

    def cut(self):
        raise OSError(errno.ENOSPC, "no room")


class Off(Exception):
    """The power is off."""


class Cutting(Unsynced):
    """A disk whose power is cut at the n-th call, before it or in the middle of it. What is not synced by then is on the disk or not: of each
    block that a write touched all, nothing, some sectors, or whatever; of what was done to names the first so many steps."""

    def __init__(self, folder, at, dice):
        super().__init__(folder, at)
        self.dice, self.writes, self.steps = dice, [], []

    def cut(self):
        for number, place, old, new in self.writes:
            self.lose(number, place, old, new)
        for undo in reversed(self.steps[self.dice.randint(0, len(self.steps)):]):
            undo()
        raise Off

    def lose(self, number, place, old, new):
        """One write as the disk may have it: place is a block's, and old and new are all bytes of the blocks that are touched."""
        size = os.fstat(number).st_size
        for at in range(0, len(new), journal.BLOCK):
            way = self.dice.choice(["old", "new", "sectors", "torn"])
            was, now = old[at:at + journal.BLOCK], new[at:at + journal.BLOCK]
            if way == "sectors":
                parts = range(0, journal.BLOCK, SECTOR)
                now = b"".join((now if self.dice.random() < 0.5 else was)[k:k + SECTOR] for k in parts)
            if way == "torn":
                now = self.dice.randbytes(len(now))
            now = was if way == "old" else now
            os.pwrite(number, now[:max(0, size - place - at)], place + at)

    def write(self, file, data, place):
        start, end = place // journal.BLOCK * journal.BLOCK, -(-(place + len(data)) // journal.BLOCK) * journal.BLOCK
        old = os.pread(file, end - start, start)
        new = old[:place - start].ljust(place - start, b"\0") + bytes(data) + old[place - start + len(data):]
        self.writes.append((file, start, old.ljust(len(new), b"\0"), new))
        super().write(file, data, place)

    def sync(self, file):
        super().sync(file)
        self.writes = [write for write in self.writes if write[0] != file]
        self.steps = [step for step in self.steps if getattr(step, "file", None) != file]

    def create(self, name):
        number = super().create(name)
        self.steps.append(lambda: os.unlink(name, dir_fd=self.folder))
        return number

    def shorten(self, file, size):
        """It is on the disk at the latest with the file's next sync."""
        tail = os.pread(file, os.fstat(file).st_size, size)
        pending = [write for write in self.writes if write[0] == file]
        same("what is freed is zero on the disk before the file is cut", (tail.strip(b"\0"), pending), (b"", []))
        step = lambda: os.pwrite(file, tail, size)
        step.file = file
        super().shorten(file, size)
        self.steps.append(step)

    def rename(self, old, new):
        super().rename(old, new)
        self.steps.append(lambda: os.rename(new, old, src_dir_fd=self.folder, dst_dir_fd=self.folder))

    def remove(self, name):
        kept = os.open(name, os.O_RDONLY, dir_fd=self.folder)
        data = os.pread(kept, journal.SIZE + 1, 0)
        os.close(kept)
        super().remove(name)

        def undo():
            number = os.open(name, os.O_RDWR | os.O_CREAT | os.O_EXCL, 0o600, dir_fd=self.folder)
            os.pwrite(number, data, 0)
            os.close(number)
        self.steps.append(undo)

    def sync_folder(self):
        super().sync_folder()
        self.steps = [step for step in self.steps if hasattr(step, "file")]


def purged(disk_of, name, sheet):
    """A purge in this process, with another disk: its disk, and the state it ends in, or None where the power went."""
    file = purge.InPlace(name)
    disk = disk_of(file.folder)
    try:
        return disk, purge.purge_file(disk, file, sheet, allow_empty=True)[1]
    except Off:
        return disk, None
    finally:
        file.file.close()
        os.close(file.folder)


def is_refused(recording):
    """Whether the first window of a recording is."""
    try:
        common.handed_over(recording[:common.WINDOW], len(recording) > common.WINDOW)
        return False
    except common.Refused:
        return True


class Case:
    """A recording and a sheet that the second program has purged: what is left, and what is told; or the refusal."""

    def __init__(self, room, stem, told):
        self.room, self.told = room, told.split(";")
        self.recording, self.sheet = read(stem + ".in"), read(stem + ".sheet")
        self.left = read(stem + ".out") if os.path.exists(stem + ".out") else None
        self.sheet_name = stem + ".sheet"
        self.what = f"purge of {os.path.basename(stem)}"

    def fresh(self):
        """A folder with the recording alone."""
        shutil.rmtree(self.room, ignore_errors=True)
        os.mkdir(self.room)
        return put(self.room + "/recording", self.recording)

    def command(self, *words):
        status, told, said = forked("purge", *words)
        return status, told.splitlines(), said

    def is_over(self, what):
        """Nothing is in the folder but what is left of the recording."""
        same(what, (os.listdir(self.room), read(self.room + "/recording") == self.left), (["recording"], True))

    def answers(self):
        """The verb's own answer, refusals too, and what it would do."""
        name = self.fresh()
        if self.left is None:
            same(self.what, self.command(name, self.sheet_name)[:2], (1, self.told))
            same(self.what + ", no byte is changed", (os.listdir(self.room), read(name) == self.recording), (["recording"], True))
            return
        same(self.what + ", measured", self.command("--measure", name, self.sheet_name)[:2], (0, ["state measured"] + self.told))
        same(self.what + ", measured alone", (os.listdir(self.room), read(name) == self.recording), (["recording"], True))
        takes = "packages_purged 0" not in self.told
        if not takes:
            same(self.what + ", nothing granted", self.command(name, self.sheet_name)[:2], (3, []))
            same(self.what + ", nothing granted, no byte is changed", read(name) == self.recording, True)
        same(self.what, self.command(*["--allow-empty"] * (not takes), name, self.sheet_name)[:2], (0, ["state purged"] + self.told))
        self.is_over(self.what)

    def killed(self):
        """The process is killed at each of its calls, and the command goes on."""
        global cuts
        at = 0
        while True:
            at += 1
            name = self.fresh()
            child = os.fork()
            if child == 0:
                purged(lambda folder: Killing(folder, at), name, self.sheet)
                os._exit(0)
            if os.waitstatus_to_exitcode(os.waitpid(child, 0)[1]) == 0:
                break
            cuts += 1
            self.is_told_apart(f"{self.what}, killed at call {at}")
            status = self.command("--allow-empty", name, self.sheet_name)[0]
            same(f"{self.what}, killed at call {at}, goes on", status, 0)
            self.is_over(f"{self.what}, killed at call {at}")
        self.is_over(self.what + ", not killed")
        same(self.what + ", calls that were tried", at > 20, True)

    def call_of_zeros(self):
        """The number of the call that overwrites the freed blocks: behind it come a sync, and the journal's two writes and its sync."""
        before = purged(Unsynced, self.fresh(), self.sheet)[0].calls
        before = before[:before.index("shorten")]
        same("the calls before a file is cut", before[-5:], ["write", "sync", "write", "write", "sync"])
        return len(before) - 4

    def fails(self):
        """Each call of the disk fails once, and the purge goes on."""
        at, failing = 0, True
        while failing:
            at, failing = at + 1, False
            name = self.fresh()
            try:
                purged(lambda folder: Failing(folder, at), name, self.sheet)
            except OSError:
                failing = True
                self.is_told_apart(f"{self.what}, call {at} failed")
                same(f"{self.what}, call {at} failed, goes on", purged(Unsynced, name, self.sheet)[1] in ("purged", "over"), True)
            self.is_over(f"{self.what}, call {at} failed")

    def is_told_apart(self, what):
        """A file that passes is the recording as it was, or what is left of it; and another sheet is not taken while a purge is under way."""
        name = self.room + "/recording"
        now = read(name)
        same(what + ", a half-purged file is refused", now in (self.recording, self.left) or is_refused(now), True)
        if os.path.exists(name + ".purge-journal"):
            same(what + ", journal's size", os.path.getsize(name + ".purge-journal") <= 2 * common.WINDOW, True)
            try:
                purged(Unsynced, name, b"")
                same(what + ", another sheet", "taken", "refused")
            except common.Fail as wrong:
                same(what + ", another sheet", "under another sheet" in str(wrong), True)
            same(what + ", another sheet changes nothing", read(name) == now, True)

    def cut_off(self, seeds):
        """The power is cut at each call, and again while the purge goes on, until it is over."""
        global cuts
        at, reached = 0, True
        while reached:
            at, reached = at + 1, False
            for seed in range(seeds):
                dice = random.Random(f"{self.what} {at} {seed}")
                name = self.fresh()
                disk, state = purged(lambda folder: Cutting(folder, at, dice), name, self.sheet)
                reached = reached or state is None
                while state is None:
                    cuts += 1
                    self.is_told_apart(f"{self.what}, cut off at call {at}, seed {seed}")
                    again = dice.randint(1, 60) if dice.random() < 0.5 else 0
                    disk, state = purged(lambda folder: Cutting(folder, again, dice), name, self.sheet)
                same(f"{self.what}, cut off at call {at}, seed {seed}", state in ("purged", "over"), True)
                self.is_over(f"{self.what}, cut off at call {at}, seed {seed}")


def by_document(room):
    """M of document 01 under its row R, worked out by hand as in document 02's A9: the first package goes, and the second stays clean."""
    name, sheet = put(room + "/m/recording", M), put(room + "/m/sheet", R)
    told = "bytes 56\nmessages 1\npackages 2\npackages_purged 1\nbytes_left 40\nmessages_left 1\npackages_left 1\n"
    left = bytes.fromhex("10000080 00000007 00000005 00000028 00000064 00000000 00000002 00100000 0000000A DEADBEEF")
    report, tenant = room + "/m/report", room + "/m/tenant"
    same("purge of M", bench("purge", "--report", report, "--tenant-report", tenant, name, sheet), (0, "state purged\n" + told, ""))
    same("what is left of M", (read(name), names_in(room + "/m")), (left, ["recording", "report", "sheet", "tenant"]))
    hashes = {what: hashlib.sha256(data).hexdigest() for what, data in {"recording": M, "sheet": R, "left": left}.items()}
    row = "7 7 1 1 100 0 101 0"
    counts = {"recording_bytes": "56", "recording_messages": "1", "recording_packages": "2", "left_bytes": "40", "left_messages": "1",
              "left_packages": "1", "purged_messages": "1", "purged_packages": "1", "untouched_messages": "0", "untouched_packages": "1"}
    said = dict(pairs_of(read(report).decode()))
    wanted = {f"{what}_sha256": value for what, value in hashes.items()} | counts | {"report": "bench purge", "sheet_rows": "1", "row": row}
    same("the bench's report of a purge", {key: said.get(key) for key in wanted}, wanted)
    same("what else it says", sorted(set(said) - set(wanted)), ["commit", "definitions", "made", "processor", "time", "toolchain"])
    wanted = {"report": "tenant purge", "sheet_sha256": hashes["sheet"], "sheet_rows": "1", "row": row, "purged_messages": "1", "purged_packages": "1",
              "definitions": said["definitions"]}
    same("the tenant's says nothing of the recording, or of what is left", dict(pairs_of(read(tenant).decode())), wanted)
    verified(room, report, sheet, name)
    same("purged again, nothing is granted", bench("purge", name, sheet)[:2], (3, ""))
    same("purged again, as JSON", json.loads(bench("purge", "--allow-empty", "--json", name, sheet)[1])["packages_purged"], 0)
    same("it stays as it is", read(name), left)
    put(name, b"")
    same("an empty recording", [bench("purge", *words, name, sheet)[0] for words in ([], ["--allow-empty"], ["--measure"])], [3, 0, 0])
    same("it stays empty", (read(name), names_in(room + "/m")), (b"", ["recording", "report", "sheet", "tenant"]))


def verified(room, report, sheet, name):
    """What a purge has left is compared with a purge of the recording as it was, and so is each line of its report."""
    was = put(room + "/m.was", M)
    call = lambda report, left: forked("verify", "--purge", "--report", report, was, sheet, left)[:2]
    status, told = call(report, name)
    same("a purge is verified", (status, told.splitlines()[0]), (0, "state same"))
    other = {"time": "2999-01-01T00:00:00Z"}
    lines = [(key, other.get(key, value + "x")) for key, value in pairs_of(read(report).decode()) if key not in ("toolchain", "processor")]
    status, told = call(put(room + "/m.changed", "".join(f"{key} {value}\n" for key, value in lines)), name)
    wrong = sorted(line.split()[1] for line in told.splitlines() if line.startswith("report_differs "))
    same("a report whose every line is wrong", (status, wrong), (1, sorted([key for key, _ in lines] + ["processor", "toolchain"])))
    status, told = call(report, put(room + "/m.left", read(name)[:-1] + b"\xee"))
    same("what is left differs", (status, told.splitlines()[:4]), (1, ["state differs", "at 39", "wanted ef", "found ee"]))
    same("no program purges", forked("verify", "--purge", "--program", was, sheet, name)[0], 2)


def mistakes(room):
    """Status 2, a line, and no byte changed."""
    folder = room + "/mistakes"
    name, sheet, other = put(folder + "/recording", M), put(folder + "/sheet", R), put(folder + "/report", b"kept")
    os.mkfifo(folder + "/fifo")
    before = names_in(folder)
    for words in ([], [name], [name, sheet, sheet], [name, folder + "/none"], [folder + "/none", sheet], [folder, sheet], [folder + "/fifo", sheet],
                  [sheet, sheet], ["--report", other, name, sheet], ["--report", name, "--force", name, sheet], ["--report", sheet, "--force", name, sheet],
                  ["--report", folder + "/r", "--tenant-report", folder + "/r", name, sheet], ["--undo", name, sheet]):
        status, told, said = forked("purge", *words)
        same(f"purge {words}", (status, told, bool(said), names_in(folder), read(name) == M, read(sheet) == R), (2, "", True, before, True, True))
    same("a link is followed", (os.symlink("recording", folder + "/link"), forked("purge", "--measure", folder + "/link", sheet)[0])[1], 0)
    with open(name, "rb") as file:
        fcntl.flock(file, fcntl.LOCK_EX)
        status, _, said = forked("purge", name, sheet)
        same("another purge is at work", (status, "at work" in said, read(name) == M), (2, True, True))
    for kind, data in {"": b"no journal", "-new": bytes(100_000), "-over": bytes(100_000)}.items():
        mine = put(name + ".purge-journal" + kind, data)
        same(f"a file in the journal's way {kind}", (forked("purge", name, sheet)[0], read(mine) == data, read(name) == M), (2, True, True))
        os.remove(mine)


def changed(case):
    """A purge that was cut off does not go on in a file, or by a journal, that was changed since; nothing else takes the file meanwhile."""
    journal_name = case.room + "/recording.purge-journal"
    change = lambda name, place: put(name, (data := read(name))[:place] + bytes([data[place] ^ 1]) + data[place + 1:])
    always = {
        "a byte that is kept": lambda name: change(name, 100),
        "the file is shorter": lambda name: put(name, read(name)[:-4]),
        "the file is longer": lambda name: put(name, read(name) + M),
        "another file": lambda name: put(name, M),
        "no file": lambda name: put(name, b""),
        "both heads": lambda name: change(change(journal_name, 40), journal.BLOCK + 40),
        "a longer journal": lambda name: put(journal_name, read(journal_name) + b"x"),
    }
    moving = always | {"a byte that is left": lambda name: change(name, len(case.recording) - 1)}
    # Where the second window's blocks are written, and where the freed ones are.
    for at, phase, ways in [(16, purge.MOVING, moving), (case.call_of_zeros(), purge.FREEING, always)]:
        for what, ruin in ways.items():
            name, what = case.fresh(), f"{phase}, {what}"
            purged(lambda folder: Cutting(folder, at, random.Random(1)), name, case.sheet)
            same(f"{what}: a purge is under way", phase.encode() in read(journal_name), True)
            ruin(name)
            now = read(name), read(journal_name)
            status, told, said = forked("purge", name, case.sheet_name)
            same(f"{what}: status", (status, told, said.count("\n")), (2, "", 1))
            same(f"{what}: nothing is overwritten", (read(name), read(journal_name)) == now, True)
    name = case.fresh()
    purged(lambda folder: Cutting(folder, 16, random.Random(1)), name, case.sheet)
    for words in (["check", name], ["copy", name, case.sheet_name, case.room + "/copy"], ["purge", "--measure", name, case.sheet_name]):
        same(f"{words[0]} while a purge is under way", forked(*words)[:2], (2, ""))
    same("the same call goes on", forked("purge", name, case.sheet_name)[0], 0)
    case.is_over("after all that")


def interrupted(case):
    """A purge that is ended by a signal goes on, too, and its report is that of a purge which was not ended."""
    case.recording, longer = case.recording * 40, case.recording * 40
    name, report = case.fresh(), case.room + "/report"
    run = subprocess.Popen([sys.executable, HERE + "/bench", "purge", name, case.sheet_name], stdout=subprocess.DEVNULL, stderr=subprocess.DEVNULL)
    while not os.path.exists(name + ".purge-journal") and run.poll() is None:
        time.sleep(0.001)
    run.send_signal(signal.SIGTERM)
    same("ended by a signal", run.wait(), 128 + signal.SIGTERM)
    same("it goes on", bench("purge", "--report", report, name, case.sheet_name)[0], 0)
    same("what is left", read(name) == case.left * 40, True)
    said = dict(pairs_of(read(report).decode()))
    same("the report is of the recording as it was", said["recording_sha256"], hashlib.sha256(longer).hexdigest())
    same("and of what is left", said["left_sha256"], hashlib.sha256(case.left * 40).hexdigest())


def run(room):
    cases = []
    os.mkdir(room + "/cases")
    for line in subprocess.run([second(room, "bench_second"), room + "/cases"], check=True, stdout=subprocess.PIPE, text=True).stdout.splitlines():
        words, told = line.split("|")
        number, verb = words.split()[:2]
        if verb == "purge":
            cases.append(Case(room + "/at", f"{room}/cases/{number}", told))
    for case in cases:
        case.answers()
    for case in cases:
        if case.left is not None:
            case.cut_off(3)
    cases[0].killed()
    cases[0].fails()
    by_document(room)
    mistakes(room)
    changed(cases[0])
    interrupted(cases[0])
    print(f"tests/bench: purge: cut off {cuts} times, at each call of a disk")
