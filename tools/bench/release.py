"""The verbs copy and release: one tenant's copy, and a copy for every sheet of a folder.

A copy is made by the proved exports: a recording of one input by hibernaxo_copy_write, a longer one by hibernaxo_step, window by window,
in one pass. It gets its name only once all of the recording was checked and all of the copy is written.
"""
import ctypes
import os
import platform
import re
import subprocess

from bench import common
from bench import report
from bench.common import Ended, Fail, NOTHING, REFUSED, ROOT, WINDOW, Recording, Refused, Together, answered, parsed
from bench.orders import Clock, rows_of, sheet_in
from bench.reading import messages_in

# No step is to stop before the end of its window: a window has fewer messages than bytes.
NO_QUOTA = ctypes.c_size_t(WINDOW)
# What may stand in a folder of sheets beside them.
KINDS = (".copy", ".report", ".tenant-report", ".order")
NAME = re.compile(r"[A-Za-z0-9_-][A-Za-z0-9._-]*", re.ASCII)


# ---- One copy.

def copied(window, sheet):
    """The copy of one input: its bytes, messages and packages."""
    out = bytearray(len(window))
    _, size, messages, packages = answered("copy_write", 4, window, sheet, out)
    return bytes(out[:size]), messages, packages


class Stepped:
    """The copy of a recording that is handed over window by window, numbered on from one to the next."""

    def __init__(self):
        self.state = (ctypes.c_uint32 * 129)()

    def copied(self, window, sheet):
        out = bytearray(len(window))
        _, _, _, size, messages, packages = answered("step", 6, window, sheet, NO_QUOTA, self.state, out)
        return bytes(out[:size]), messages, packages


def copy_parts(recording, sheet, whole, copy):
    """The copy of a recording part by part; the facts of both are gathered on the way."""
    rows_of(sheet)
    stepped = Stepped()
    for place, window in recording.windows():
        whole.add(window, *answered("check", 3, window)[1:])
        try:
            part, messages, packages = (copied if recording.is_one else stepped.copied)(window, sheet)
        except Refused as refused:
            raise Refused(refused.number, place + refused.place, recording.name)
        copy.add(part, messages, packages)
        yield part


def program_copy(recording, sheet_name, out, copy):
    """The copy by the program of ./run, into a file that is open; its facts by the exports."""
    if recording.held is not None:
        raise Fail(f"{recording.name} is no regular file: the program can not go over it")
    run = subprocess.run([ROOT + "/run", "--allow-empty", recording.name, sheet_name], stdin=subprocess.DEVNULL, stdout=out.fileno(), close_fds=False)
    made = Recording(f"/proc/self/fd/{out.fileno()}")
    if run.returncode:
        common.print_whole(made.part(0, WINDOW) if run.returncode == REFUSED else b"")
        raise Ended(run.returncode)
    for _, window in made.windows():
        copy.add(window, *answered("check", 3, window)[1:])


def facts_of(recording):
    """The facts of a recording that passes."""
    facts = report.Facts()
    for _, window in recording.windows():
        facts.add(window, *answered("check", 3, window)[1:])
    return facts


def how_made(options):
    if "--program" not in options:
        return "exports native"
    return "program native" if platform.machine() == "x86_64" else "program emulated"


def put_copy(names, sheet, by_program, file):
    """A copy into a file, by the exports or by the program: the facts of the recording and of the copy."""
    recording, whole, copy = Recording(names[0]), report.Facts(), report.Facts()
    if by_program:
        before = facts_of(recording)
        program_copy(recording, names[1], file.file, copy)
        whole = facts_of(recording)
        if before.hash.digest() != whole.hash.digest() or sheet_in(names[1]) != sheet:
            raise Fail(f"{names[0]} or {names[1]} changed while it was copied")
    else:
        for part in copy_parts(recording, sheet, whole, copy):
            file.write(part)
    return whole, copy


def copy_(words):
    """./bench copy [--report REPORT] [--tenant-report REPORT] RECORDING SHEET COPY

    Writes the release copy of a recording of any length under an order sheet, by the proved exports, and says how many bytes, messages and
    packages it has. It is the copy that ./run writes, byte for byte.

    --report REPORT          also writes the bench's own report: the SHA-256 of recording, sheet and copy, the sheet's rows, what was
                             released and withheld, commit, toolchain, processor, how it was made, and the time. ./bench verify checks it
    --tenant-report REPORT   also writes the tenant's: the hashes of copy and sheet, the rows, what was released, and the definitions'
                             version; nothing of the recording
    --allow-empty            where nothing is released, an empty copy is written
    --force                  files that exist are overwritten
    --json                   what is said, and reports, as JSON
    --program                the copy is made by the program of ./run (emulated where the processor is no x86-64) in place of the exports

    Status 0: the copy is there, whole, and so is each report. Status 1: refused. Status 2: bad usage, or a file can not be read or written.
    Status 3: nothing was released. In all but the first nothing is written.

    Example: ./bench copy --report alpha.report examples/recording examples/sheet alpha.copy
    """
    names, options = parsed(words, ["RECORDING", "SHEET", "COPY"], ["--allow-empty", "--force", "--json", "--program"],
                            ["--report", "--tenant-report"])
    sheet = sheet_in(names[1])
    with Together("--force" in options, names[:2]) as files:
        file = files.add(names[2])
        reports = {key: files.add(options[key]) for key in ("--report", "--tenant-report") if key in options}
        if reports:
            report.bring_library()
        whole, copy = put_copy(names, sheet, "--program" in options, file)
        if not copy.packages and "--allow-empty" not in options:
            common.say(f"nothing was released: no row of {names[1]} grants a package of {names[0]}")
            raise Ended(NOTHING)
        put_reports(reports, whole, sheet, copy, how_made(options))
    common.tell([("state", "copied"), ("bytes", copy.bytes), ("messages", copy.messages), ("packages", copy.packages)])


def put_reports(files, whole, sheet, copy, made):
    """The two reports of a copy into the files that are wanted."""
    counts = (copy.messages, copy.packages)
    if "--report" in files:
        files["--report"].write(report.written(report.bench_report("copy", whole, sheet, copy, counts, made)))
    if "--tenant-report" in files:
        files["--tenant-report"].write(report.written(report.tenant_report("copy", sheet, copy, counts)))


# ---- A copy for every sheet of a folder.

class Tenant:
    """A sheet of the folder, what was counted under it, and which of its rows have granted nothing so far."""

    def __init__(self, name, path):
        self.name, self.path, self.sheet = name, path, sheet_in(path)
        try:
            self.idle = dict.fromkeys(range(1, len(rows_of(self.sheet)) + 1))
        except Refused:
            common.say(f"{path} is refused")
            raise
        self.bytes = self.messages = self.packages = 0

    def count(self, window):
        """The copy of a window under the sheet, counted. A row grants nothing of the window that the sheet does not."""
        part, messages, packages = copied(window, self.sheet)
        self.bytes, self.messages, self.packages = self.bytes + len(part), self.messages + messages, self.packages + packages
        for row in list(self.idle) if packages else []:
            if answered("copy_measure", 4, part, self.sheet[32 * row - 32:32 * row])[3]:
                del self.idle[row]
        return part


class Survey:
    """What the sheets of a folder grant of a recording: each alone, each two together, and all of them. Everything is counted by the
    exports: a copy that is copied again under a second sheet has the packages that both grant, and what is left when every sheet has
    been purged in turn is what none of them grants."""

    def __init__(self, recording, tenants):
        self.whole, self.tenants = report.Facts(), tenants
        self.both, self.none, self.first_none = {}, 0, None
        for _, window in recording.windows():
            self.whole.add(window, *answered("check", 3, window)[1:])
            parts = [tenant.count(window) for tenant in tenants]
            self.count_both(parts)
            self.count_none(window)

    def count_both(self, parts):
        for k, part in enumerate(parts):
            for other in self.tenants[k + 1:] if part else []:
                shared, _, packages = copied(part, other.sheet)
                if packages:
                    pair = self.both.setdefault((self.tenants[k].name, other.name), [0, first_package(shared)])
                    pair[0] += packages

    def count_none(self, window):
        left = window
        for tenant in self.tenants:
            buffer = bytearray(left)
            left = bytes(buffer[:answered("purge", 2, buffer, tenant.sheet)[1]])
        packages = answered("check", 3, left)[2]
        if packages and not self.none:
            self.first_none = first_package(left)
        self.none += packages

    def state(self, options):
        if self.both and "--shared" not in options:
            return "shared"
        if any(not tenant.packages for tenant in self.tenants) and "--allow-empty" not in options:
            return "nothing"
        return "tried" if "--dry-run" in options else "released"

    def told(self, state):
        released = [{"tenant": one.name, "messages": one.messages, "packages": one.packages, "bytes": one.bytes} for one in self.tenants]
        both = [{"tenant": a, "other": b, "packages": count, "first": first} for (a, b), (count, first) in sorted(self.both.items())]
        idle = [{"tenant": one.name, "row": row} for one in self.tenants for row in one.idle]
        first = [("first_none", self.first_none)] if self.none else []
        return [("state", state), *self.whole.told("recording"), ("released", released), ("both", both), ("none", self.none), *first,
                ("idle_row", idle)]


def first_package(recording):
    """Message id, package id and time of a recording's first package."""
    for message in messages_in(recording, len(recording)):
        for _, package, time, _ in message.packages():
            return f"{message.id} {package} {Clock({}).told(time)}"


def tenants_in(folder):
    """The tenants of a folder: every TENANT.sheet in it, and nothing that may be meant as one."""
    try:
        names = sorted(os.listdir(folder))
    except OSError as error:
        raise Fail(f"{folder} can not be read: {error.strerror}")
    tenants = []
    for name in names:
        stem, kind = os.path.splitext(name)
        if kind == ".sheet" and NAME.fullmatch(stem):
            tenants.append(Tenant(stem, os.path.join(folder, name)))
        elif kind not in KINDS and not name.startswith("."):
            raise Fail(f"{os.path.join(folder, name)} is no TENANT.sheet, TENANT of letters, digits, '.', '_' and '-'; take it out if it is no sheet")
    if not tenants:
        raise Fail(f"{folder} has no TENANT.sheet")
    return tenants


def put_release(recording, survey, options, into):
    """Every tenant's copy, and the reports where they are wanted, named once all of them are whole."""
    paths = [tenant.path for tenant in survey.tenants]
    with Together("--force" in options, [recording.name, *paths]) as files:
        for tenant in survey.tenants:
            place = os.path.join(into, tenant.name)
            kinds = {"--report": ".report", "--tenant-report": ".tenant-report"} if "--reports" in options else {}
            file, reports = files.add(place + ".copy"), {key: files.add(place + kind) for key, kind in kinds.items()}
            whole, copy = report.Facts(), report.Facts()
            for part in copy_parts(recording, tenant.sheet, whole, copy):
                file.write(part)
            if whole.hash.digest() != survey.whole.hash.digest():
                raise Fail(f"{recording.name} changed while it was copied")
            put_reports(reports, whole, tenant.sheet, copy, how_made({}))


def release_(words):
    """./bench release [--into FOLDER] [--reports] RECORDING FOLDER

    Writes a release copy for every sheet of a folder: TENANT.copy for each TENANT.sheet. First it counts what the sheets grant, and says so:
    a line `released` for each tenant (messages, packages, bytes of his copy); `both` for each two tenants whose sheets grant one package
    (how many; message id, package id and time of the first); `none`, the packages that no sheet grants, with the first of them; and
    `idle_row` for each row that grants nothing, counted from 1. Where two sheets grant one package it goes no further, unless told so.

    --into FOLDER   copies and reports are put there in place of the folder of sheets
    --reports       beside each copy the bench's own report, TENANT.report, and the tenant's, TENANT.tenant-report (./bench copy --help)
    --shared        packages that two tenants' sheets grant are released to both
    --allow-empty   a tenant whose sheet grants nothing gets an empty copy
    --dry-run       nothing is written
    --force         files that exist are overwritten
    --json          what is said, and reports, as JSON

    Beside sheets there may be nothing in the folder but copies, reports and orders, TENANT.order, by their names.

    Status 0: every copy is there, whole. Status 1: the recording or a sheet is refused, or two sheets grant one package. Status 2: bad usage,
    or a file can not be read or written. Status 3: a sheet grants nothing. In all but the first no copy is written.

    Example: ./bench release --reports recording sheets
    """
    [name, folder], options = parsed(words, ["RECORDING", "FOLDER"], ["--reports", "--shared", "--allow-empty", "--dry-run", "--force", "--json"], ["--into"])
    if "--reports" in options:
        report.bring_library()
    recording, tenants = Recording(name), tenants_in(folder)
    survey = Survey(recording, tenants)
    state = survey.state(options)
    if state == "released":
        put_release(recording, survey, options, options.get("--into", folder))
    common.tell(survey.told(state))
    if state == "shared":
        common.say("two tenants' sheets grant one package, and nothing is written; --shared releases it to both")
    elif state == "nothing":
        common.say("a sheet grants nothing, and nothing is written; --allow-empty writes an empty copy")
    return {"shared": REFUSED, "nothing": NOTHING}.get(state, 0)
