"""The two reports that copy, release and purge write where they are asked for.

The bench's own has everything that is needed to make the copy again and to check it. The tenant's says nothing but the copy's hash, the
sheet's hash and rows, the counts released and the definitions' version: nothing of the recording, whose hash would tell a tenant that
guesses. Both are one `key value` a line, a `row` for each of the sheet's, or a JSON object.
"""
import datetime
import hashlib
import json
import os
import platform
import subprocess

import order_lines
from bench import common
from bench.common import ROOT, Fail
from bench.orders import rows_of

# The crates whose definitions say what a job's answer is; those that they use count too.
JOBS = {"copy": ["release", "step", "windows"], "purge": ["purge"]}
# What comes out of a job.
RESULTS = {"copy": "copy", "purge": "left"}
# What is counted: messages with a granted package and the granted packages, and the others.
TAKEN, KEPT = {"copy": "released", "purge": "purged"}, {"copy": "withheld", "purge": "untouched"}
# What a report says of how and when it was made: true of one run, and of no other.
CIRCUMSTANCES = ["commit", "toolchain", "processor", "made", "time"]


class Facts:
    """The SHA-256 of bytes that come part by part, how many they are, and their messages and packages."""

    def __init__(self):
        self.hash, self.bytes, self.messages, self.packages = hashlib.sha256(), 0, 0, 0

    def add(self, data, messages, packages):
        self.hash.update(data)
        self.bytes += len(data)
        self.messages += messages
        self.packages += packages

    def told(self, name):
        return [(name + "_sha256", self.hash.hexdigest()), (name + "_bytes", self.bytes),
                (name + "_messages", self.messages), (name + "_packages", self.packages)]


def crates_used(names):
    """Crates with those that they use, by crates.txt."""
    uses, todo, found = {}, list(names), []
    with open(ROOT + "/crates.txt") as file:
        for line in file:
            name, _, used = line.split("#")[0].partition(":")
            uses["".join(name.split()[:1])] = used.split()
    while todo:
        name = todo.pop()
        if name in uses and name not in found:
            found.append(name)
            todo += uses[name]
    return sorted(found)


def definitions(job):
    """The version of the definitions of a job's answer: the SHA-256 of their files' names and contents."""
    version = hashlib.sha256()
    for crate in crates_used(JOBS[job]):
        for folder, _, names in sorted(os.walk(f"{ROOT}/crates/{crate}/specs")):
            for name in sorted(names):
                path = os.path.join(folder, name)
                with open(path, "rb") as file:
                    version.update(f"{hashlib.sha256(file.read()).hexdigest()} {os.path.relpath(path, ROOT)}\n".encode())
    return version.hexdigest()


def said_by(*command):
    """What a command prints, or nothing where there is none."""
    try:
        run = subprocess.run(command, stdin=subprocess.DEVNULL, stdout=subprocess.PIPE, stderr=subprocess.DEVNULL, text=True)
    except OSError:
        return ""
    return run.stdout.strip() if run.returncode == 0 else ""


def commit():
    """The commit of the sources, and whether they have been changed since."""
    found = said_by("git", "-C", ROOT, "rev-parse", "HEAD")
    return (found + ("-changed" if said_by("git", "-C", ROOT, "status", "--porcelain", "-uno") else "")) if found else "unknown"


def toolchain():
    return said_by("rt", "version") or "unknown"


def bring_library():
    """Brings the library to the sources as they are, before the first export is called, so that a report's commit is that of what was run.
    Open files go on to ./native: one of them may be the lock under which it is called."""
    if subprocess.run([ROOT + "/native"], stdin=subprocess.DEVNULL, stdout=subprocess.DEVNULL, close_fds=False).returncode:
        raise Fail("the exports could not be made from the sources as they are, so no report can say what was run")


def circumstances(made):
    """How an answer was made, and when."""
    now = datetime.datetime.now(datetime.timezone.utc)
    return list(zip(CIRCUMSTANCES, [commit(), toolchain(), platform.machine(), made, f"{now:%Y-%m-%dT%H:%M:%SZ}"]))


def sheet_told(sheet):
    """A sheet's hash and rows, each in plain numbers as tools/sheet shows it."""
    rows = [order_lines.line_of(list(row)).strip() for row in rows_of(sheet)]
    return [("sheet_sha256", hashlib.sha256(sheet).hexdigest()), ("sheet_rows", len(rows)), ("row", rows)]


def bench_report(job, recording, sheet, result, released, made):
    """The bench's own report: facts of the recording and of what came out, the copy or what a purge has left, and the messages and
    packages that were released, or purged."""
    name = RESULTS[job]
    rest = recording.messages - released[0], recording.packages - released[1]
    counts = counts_told(TAKEN[job], released) + counts_told(KEPT[job], rest)
    return [("report", f"bench {job}"), *recording.told("recording"), *sheet_told(sheet), *result.told(name), *counts,
            ("definitions", definitions(job)), *circumstances(made)]


def counts_told(word, counts):
    return [(word + "_messages", counts[0]), (word + "_packages", counts[1])]


def tenant_report(job, sheet, copy, released):
    """The tenant's report. Of a purge there is no copy, and the hash of what is left would tell of others."""
    hashed = [("copy_sha256", copy.hash.hexdigest())] if copy else []
    return [("report", f"tenant {job}"), *hashed, *sheet_told(sheet), *counts_told(TAKEN[job], released), ("definitions", definitions(job))]


def written(pairs):
    """A report's text."""
    return common.lines_told(pairs).encode()


def read(name):
    """The keys and values of a report, each value as a text, a list of texts for rows; or Fail."""
    text = common.taken(name, 1 << 20).decode(errors="replace")
    try:
        pairs = list(json.loads(text).items()) if text.lstrip().startswith("{") else [tuple(line.split(" ", 1)) for line in text.splitlines()]
    except ValueError:
        raise Fail(f"{name} is no report")
    found = {"row": []}
    for pair in pairs:
        if len(pair) != 2 or pair[0] != "row" and pair[0] in found:
            raise Fail(f"{name} is no report: {' '.join(map(str, pair))[:60]}")
        if pair[0] == "row":
            found["row"] += pair[1] if isinstance(pair[1], list) else [pair[1]]
        else:
            found[pair[0]] = str(pair[1])
    return found
