"""The verbs copy, release and verify, and the reports: beside the second program on recordings of three tenants, on the examples, and on
each kind of mistake."""
import glob
import hashlib
import json
import os
import resource
import signal
import subprocess
import sys
import time

from benching import HERE, M, R, RECORDING, SHEET, bench, holds, names_in, pairs_of, put, read, same, second

sys.path.insert(0, HERE + "/tools")
from bench import common

ALPHA = "state copied\nbytes 188\nmessages 3\npackages 5\n"
# The keys of both reports, in their order.
OWN = """report recording_sha256 recording_bytes recording_messages recording_packages sheet_sha256 sheet_rows row row copy_sha256 copy_bytes
    copy_messages copy_packages released_messages released_packages withheld_messages withheld_packages definitions commit toolchain processor
    made time""".split()
TENANTS = "report copy_sha256 sheet_sha256 sheet_rows row row released_messages released_packages definitions".split()


def run(room):
    beside_second(room)
    copies(room)
    inputs_are_kept(room)
    half_written(room)
    meanwhile(room)
    without_links(room)
    reports(room)
    nothing_of_the_recording(room)
    verified(room)
    reports_checked(room)
    releases(room)
    wrong_folders(room)


def sha256(data):
    return hashlib.sha256(data).hexdigest()


# ---- Beside the second program.

def beside_second(room):
    subprocess.run([second(room, "bench_release"), room + "/cases"], check=True)
    seen = set()
    for case in sorted(glob.glob(room + "/cases/*")):
        name, recording, wanted = os.path.basename(case), case + "/recording", lambda part: read(f"{case}/wanted/{part}")
        figures = f"recording_sha256 {sha256(read(recording))}\n" + wanted("survey").decode()
        seen.add(check_release(f"case {name}", case, figures))
        check_copies(f"case {name}", case, figures)
        if int(name) % 2 == 0:
            same(f"case {name}: its messages", bench("list", "--messages", recording)[1].encode(), wanted("messages"))
            same(f"case {name}: its ids", bench("tenants", recording)[1].encode(), wanted("ids"))
            listing = subprocess.run([HERE + "/tools/program", "listing", recording], stdin=subprocess.DEVNULL, capture_output=True).stdout
            same(f"case {name}: its packages", bench("list", recording)[1].encode(), listing)
    same("how the cases end", seen, {"released", "shared", "nothing"})


def check_release(what, case, figures):
    """What ./bench release says and does of its own accord. Gives the state that it ends in."""
    keys = pairs_of(figures)
    state = "released"
    if any(key == "both" for key, _ in keys):
        state = "shared"
    elif any(key == "released" and value.split()[2] == "0" for key, value in keys):
        state = "nothing"
    status, told, said = bench("release", case + "/recording", case + "/sheets")
    same(f"{what}: what is said", (status, told), ({"released": 0, "shared": 1, "nothing": 3}[state], f"state {state}\n{figures}"))
    copies = [name for name in names_in(case + "/sheets") if not name.endswith(".sheet")]
    same(f"{what}: what is written", copies, ["alpha.copy", "beta.copy", "gamma.copy"] if state == "released" else [])
    holds(f"{what}: a reason", bool(said) == (state != "released"), said)
    return state


def check_copies(what, case, figures):
    """Every tenant's copy and its reports, where packages may be shared and copies empty."""
    into = case + "/into"
    os.makedirs(into)
    status, told, said = bench("release", "--shared", "--allow-empty", "--reports", "--into", into, case + "/recording", case + "/sheets")
    same(f"{what}: released to all", (status, told, said), (0, f"state released\n{figures}", ""))
    kinds = ("copy", "report", "tenant-report")
    same(f"{what}: the files", names_in(into), [f"{tenant}.{kind}" for tenant in ("alpha", "beta", "gamma") for kind in kinds])
    keys = dict(pairs_of(figures))
    for key, value in pairs_of(figures):
        if key == "released":
            tenant, messages, packages, size = value.split()
            copy, sheet = read(f"{into}/{tenant}.copy"), read(f"{case}/sheets/{tenant}.sheet")
            same(f"{what}: {tenant}'s copy", copy, read(f"{case}/wanted/{tenant}.copy"))
            withheld = [int(keys["recording_messages"]) - int(messages), int(keys["recording_packages"]) - int(packages)]
            hashes = {"recording_sha256": keys["recording_sha256"], "sheet_sha256": sha256(sheet), "copy_sha256": sha256(copy)}
            counts = {"recording_bytes": keys["recording_bytes"], "sheet_rows": str(len(sheet) // 32), "copy_bytes": size, "released_messages": messages,
                      "released_packages": packages, "withheld_messages": str(withheld[0]), "withheld_packages": str(withheld[1])}
            own, tenants = dict(pairs_of(read(f"{into}/{tenant}.report").decode())), dict(pairs_of(read(f"{into}/{tenant}.tenant-report").decode()))
            same(f"{what}: {tenant}'s report", {key: own.get(key) for key in hashes | counts}, hashes | counts)
            known = {key: value for key, value in (hashes | counts).items() if key in TENANTS}
            same(f"{what}: {tenant}'s own report", {key: tenants.get(key) for key in known}, known)
    words = [case + "/recording", case + "/sheets/alpha.sheet", into + "/alpha.copy"]
    same(f"{what}: verified", bench("verify", "--report", into + "/alpha.report", *words)[::2], (0, ""))


# ---- Copies.

def copies(room):
    os.makedirs(room + "/c")
    copy = room + "/c/copy"
    same("copy", bench("copy", RECORDING, SHEET, copy), (0, ALPHA, ""))
    same("the copy's listing", bench("list", copy)[1].encode(), read(HERE + "/examples/copied"))
    same("the copy that ./run writes", subprocess.run([HERE + "/run", RECORDING, SHEET], capture_output=True, close_fds=False).stdout, read(copy))
    # P10 of document 01.
    m, r = put(room + "/m", M), put(room + "/r", R)
    same("M under R", bench("copy", "--force", m, r, copy)[1], "state copied\nbytes 40\nmessages 1\npackages 1\n")
    same("P10", read(copy).hex(), "100000c0000000070000000000000028000000640000000000000001000d000000000000aa000000")
    same("by the program", bench("copy", "--force", "--program", RECORDING, SHEET, copy), (0, ALPHA, ""))
    same("verified by the program", bench("verify", "--program", RECORDING, SHEET, copy)[::2], (0, ""))
    same("as JSON", json.loads(bench("copy", "--json", "--force", m, r, copy)[1]), {"state": "copied", "bytes": 40, "messages": 1, "packages": 1})
    before = read(copy)
    bad, other = put(room + "/bad", M + M[:23]), put(room + "/other", R[:31])
    for words, status, told in [
            ([bad, r], 1, "refused 1 56\n"), ([m, other], 1, "refused 11 31\n"), ([bad, other], 1, "refused 11 31\n"), (["--program", bad, r], 1, "refused 1 56\n"),
            ([room + "/none", r], 2, ""), ([m, room + "/none"], 2, ""), ([room, r], 2, ""), ([m, "/dev/null"], 3, ""), (["/dev/null", r], 3, "")]:
        got = bench("copy", "--force", *words, copy)
        same(f"copy {words}", got[:2], (status, told))
        holds(f"copy {words} says why", got[2])
    same("what was there is kept", (read(copy), names_in(room + "/c")), (before, ["copy"]))
    same("an empty copy, asked for", bench("copy", "--force", "--allow-empty", "/dev/null", r, copy)[:2], (0, "state copied\nbytes 0\nmessages 0\npackages 0\n"))
    same("it is empty", read(copy), b"")
    # 65 message ids are too many for a long recording in steps, and not for one input.
    many = b"".join(M[:4] + k.to_bytes(4, "big") + M[8:] for k in range(65))
    everything = put(room + "/all", bytes.fromhex("00000000 FFFFFFFF 00000000 FFFFFFFF 00000000 00000003 FFFFFFFF B9AC9FF0"))
    same("65 ids in one input", bench("copy", "--force", put(room + "/many", many), everything, copy)[0], 0)
    long = put(room + "/many", many + M * 1200)
    same("65 ids in a long recording", bench("copy", "--force", long, everything, copy)[:2], (1, f"refused 20 {64 * 56}\n"))


def inputs_are_kept(room):
    """Neither the recording nor the sheet is overwritten, nor a file that exists, by whatever name."""
    folder = room + "/k"
    recording, sheet, kept = put(folder + "/recording", read(RECORDING)), put(folder + "/sheet", read(SHEET)), put(folder + "/kept", "kept")
    os.symlink("recording", folder + "/link")
    os.link(recording, folder + "/hard")
    before = names_in(folder)
    for words in ([recording], [sheet], [folder + "/link"], [folder + "/hard"], [folder], [folder + "/no/copy"],
                  ["--report", recording, folder + "/new"], ["--tenant-report", sheet, folder + "/new"], ["--report", folder + "/new", folder + "/new"]):
        holds(f"not onto {words}", bench("copy", "--force", recording, sheet, *words)[:2] == (2, ""))
    for words in ([kept], ["--report", kept, folder + "/new"], [folder + "/new/"]):
        holds(f"not over {words}", bench("copy", recording, sheet, *words)[:2] == (2, ""))
    same("all is as it was", (names_in(folder), read(recording), read(sheet), read(kept)), (before, read(RECORDING), read(SHEET), b"kept"))
    os.symlink("new", folder + "/to-new")
    same("a link to no file yet", (bench("copy", recording, sheet, folder + "/to-new")[0], len(read(folder + "/new"))), (0, 188))


def little_room():
    """No file gets longer than 100 bytes from here on; a write that would make it so fails."""
    resource.setrlimit(resource.RLIMIT_FSIZE, (100, 100))
    signal.signal(signal.SIGXFSZ, signal.SIG_IGN)


def half_written(room):
    """Where there is no room, or it is interrupted, nothing is left."""
    folder = room + "/h"
    os.makedirs(folder)
    got = bench("copy", RECORDING, SHEET, folder + "/copy", preexec_fn=little_room)
    same("no room for the copy", (got[:2], names_in(folder)), ((2, ""), []))
    os.mkfifo(room + "/pipe")
    started = subprocess.Popen([sys.executable, HERE + "/bench", "copy", room + "/pipe", SHEET, folder + "/copy"], stderr=subprocess.PIPE)
    with open(room + "/pipe", "wb"):
        for _ in range(100):
            if names_in(folder):
                break
            time.sleep(0.1)
        holds("it is under way", len(names_in(folder)) == 1)
        started.send_signal(signal.SIGTERM)
        started.communicate(timeout=60)
    same("interrupted", (started.returncode, names_in(folder)), (128 + signal.SIGTERM, []))


def meanwhile(room):
    """What another program does while a verb is at work."""
    folder = room + "/a"
    first, second_one = folder + "/first", folder + "/second"
    recording = put(folder + "/recording", M * 2000)
    windows = common.Recording(recording).windows()
    next(windows)
    os.truncate(recording, 40 * 56)
    same("a recording that is cut", told_by(lambda: list(windows)), f"{recording} was cut while it was read")
    one = common.Recording(recording)
    windows = one.windows()
    same("a recording of one input", (len(next(windows)[1]), one.is_one), (40 * 56, True))
    put(recording, M * 50)
    same("what is appended is not seen", list(windows), [])
    os.remove(recording)

    def named():
        with common.Together() as files:
            for name in (first, second_one):
                files.add(name).write(b"new")
            put(second_one, b"other's")
    same("a file that is there by now", told_by(named), f"{second_one} exists by now, and is kept; --force overwrites it")
    same("neither is named", (names_in(folder), read(second_one)), (["second"], b"other's"))
    os.remove(second_one)
    os.makedirs(folder + "/true")
    os.symlink("true", folder + "/link")

    def through_link():
        with common.Together() as files:
            files.add(folder + "/link/copy").write(b"new")
            os.remove(folder + "/link")
            os.symlink("..", folder + "/link")
    through_link()
    same("a link that is put elsewhere", (names_in(folder + "/true"), os.path.exists(room + "/copy")), (["copy"], False))


def without_links(room):
    """A file system that has no links."""
    link, name = os.link, room + "/stick"

    def none(*_, **__):
        raise PermissionError
    os.link = none
    try:
        with common.Together() as files:
            files.add(name).write(b"new")
        same("named without a link", (read(name), [one for one in names_in(room) if one.startswith(".")]), (b"new", []))

        def again():
            with common.Together() as files:
                os.remove(name)
                files.add(name).write(b"newer")
                put(name, b"other's")
        same("kept without a link", (told_by(again), read(name)), (f"{name} exists by now, and is kept; --force overwrites it", b"other's"))
    finally:
        os.link = link


def told_by(function):
    """How a function fails."""
    try:
        function()
    except common.Fail as failure:
        return str(failure)


# ---- Reports.

def reports(room):
    folder = room + "/p"
    os.makedirs(folder)
    words = ["--report", folder + "/report", "--tenant-report", folder + "/tenant", RECORDING, SHEET, folder + "/copy"]
    same("copy with reports", bench("copy", *words), (0, ALPHA, ""))
    same("the files", names_in(folder), ["copy", "report", "tenant"])
    own, tenants = (pairs_of(read(f"{folder}/{name}").decode()) for name in ("report", "tenant"))
    same("the keys", ([key for key, _ in own], [key for key, _ in tenants]), (OWN, TENANTS))
    # Of the example: eight messages and ten packages, of which alpha gets five in three messages of 188 bytes.
    known = {"report": "bench copy", "recording_bytes": "520", "recording_messages": "8", "recording_packages": "10", "sheet_rows": "2",
             "copy_bytes": "188", "released_messages": "3", "released_packages": "5", "withheld_messages": "5", "withheld_packages": "5",
             "recording_sha256": sha256(read(RECORDING)), "sheet_sha256": sha256(read(SHEET)), "copy_sha256": sha256(read(folder + "/copy"))}
    same("the figures", {key: dict(own)[key] for key in known}, known)
    rows = ["100 100 0 4294967295 0 0 4294967295 999999999 acquired", "7 7 1 9 1000 0 2000 0"]
    same("the rows", [value for key, value in own if key == "row"], rows)
    same("the tenant's rows", [value for key, value in tenants if key == "row"], rows)
    bench("copy", "--json", "--force", *words)
    in_json = json.loads(read(folder + "/tenant"))
    same("the tenant's as JSON", in_json, {key: [v for k, v in tenants if k == key] if key == "row" else int(value) if value.isdigit() else value
                                            for key, value in tenants})
    same("verified as JSON", bench("verify", "--report", folder + "/report", *words[4:])[::2], (0, ""))
    os.remove(folder + "/copy")
    holds("a report that exists", bench("copy", *words)[0] == 2)
    same("then there is no copy either", names_in(folder), ["report", "tenant"])


def nothing_of_the_recording(room):
    """Two recordings of which the same is released give one copy and one tenant's report."""
    folder, texts = room + "/n", []
    other = M[:8] + b"\0\0\0\x09" + M[12:40] + M[40:53] + b"\x11\x22\x33"
    for name, recording in (("one", M), ("other", other + b"\x10\0\0\0" + bytes(8) + b"\0\0\0\x18" + bytes(8))):
        bench("copy", "--report", f"{folder}/{name}.own", "--tenant-report", f"{folder}/{name}.report", put(f"{folder}/{name}", recording),
              put(folder + "/r", R), f"{folder}/{name}.copy")
        texts.append((read(f"{folder}/{name}.report"), read(f"{folder}/{name}.copy")))
    same("the same is told of both", texts[0], texts[1])
    holds("the bench's own tells them apart", dict(pairs_of(read(folder + "/one.own").decode()))["recording_sha256"]
          != dict(pairs_of(read(folder + "/other.own").decode()))["recording_sha256"])


# ---- Verifying.

def verified(room):
    folder = room + "/v"
    os.makedirs(folder)
    copy = folder + "/copy"
    bench("copy", RECORDING, SHEET, copy)
    data = read(copy)
    facts = f"copy_sha256 {sha256(data)}\nbytes 188\nmessages 3\npackages 5\n"
    same("verify", bench("verify", RECORDING, SHEET, copy), (0, "state same\n" + facts, ""))
    # The second message of alpha's copy stands at 72: 24 bytes, and two packages of 24 each, before it.
    for what, changed, told in [
            ("a byte", data[:100] + b"\x55" + data[101:], f"at 100\nwanted {data[100]:02x}\nfound 55\nmessage 72\nmessage_id 7\nbyte_of_message 28\n"),
            ("the first byte", b"\x20" + data[1:], "at 0\nwanted 10\nfound 20\nmessage 0\nmessage_id 100\nbyte_of_message 0\n"),
            ("a byte less", data[:-1], f"at 187\nwanted {data[187]:02x}\nfound end\nmessage 140\nmessage_id 100\nbyte_of_message 47\n"),
            ("nothing", b"", "at 0\nwanted 10\nfound end\nmessage 0\nmessage_id 100\nbyte_of_message 0\n"),
            ("a byte more", data + b"\x07", "at 188\nwanted end\nfound 07\n")]:
        same(f"a copy with {what}", bench("verify", RECORDING, SHEET, put(folder + "/other", changed))[:2], (1, "state differs\n" + told))
    same("verify, refused", bench("verify", put(room + "/bad", M[:23]), SHEET, copy)[:2], (1, "refused 1 0\n"))
    same("verify with a bad sheet", bench("verify", RECORDING, put(room + "/bad", R[:31]), copy)[:2], (1, "refused 11 31\n"))
    holds("verify what can not be read", bench("verify", RECORDING, SHEET, room + "/none")[:2] == (2, ""))
    holds("a report that can not be read", bench("verify", "--report", room + "/none", RECORDING, SHEET, copy)[:2] == (2, ""))
    holds("a report that is none", bench("verify", "--report", RECORDING, RECORDING, SHEET, copy)[:2] == (2, ""))


def changed_line(line):
    """A line of a report with another value."""
    key, value = line.split(" ", 1)
    return f"{key} {'1' if value[0] == '0' else '0'}{value[1:]}"


def reports_checked(room):
    """Each line of a report is checked: changed in any way but a good one, it is told."""
    folder = room + "/v"
    report, copy, changed = folder + "/report", folder + "/copy", folder + "/changed"
    bench("copy", "--force", "--report", report, RECORDING, SHEET, copy)
    lines = read(report).decode().splitlines()
    verify = lambda text: bench("verify", "--report", put(changed, text), RECORDING, SHEET, copy)
    # The last five are how it was made: a good commit, toolchain or processor may be another, and is told.
    facts = [line.split(" ")[0] for line in lines[:-5]]
    status, told, _ = verify("\n".join(map(changed_line, lines[:-5])) + "\n" + "\n".join(lines[-5:]) + "\n")
    differs = [value.split(" ")[0] for key, value in pairs_of(told) if key == "report_differs"]
    same("every fact is wrong", (status, told.startswith("state differs\n"), sorted(differs)), (1, True, sorted(set(facts))))
    status, told, _ = verify("\n".join(lines[:-5] + list(map(changed_line, lines[-5:-2])) + lines[-2:]) + "\n")
    same("made elsewhere", (status, [value.split(" ")[0] for key, value in pairs_of(told) if key == "other"]), (0, ["commit", "toolchain", "processor"]))
    status, told, _ = verify("\n".join(lines[:-5] + [line.split(" ")[0] + "  " for line in lines[-5:]]) + "\n")
    differs = [value.split(" ")[0] for key, value in pairs_of(told) if key == "report_differs"]
    same("of no form", (status, differs), (1, ["commit", "toolchain", "processor", "made", "time"]))
    same("a line is missing", verify("\n".join(lines[1:]) + "\n")[0], 1)
    same("a line more", verify("\n".join(lines + ["tenant nobody"]) + "\n")[0], 1)
    same("a line twice", verify("\n".join(lines + lines[-1:]) + "\n")[0], 2)
    same("a time to come", verify("\n".join(lines[:-1] + ["time 2999-01-01T00:00:00Z"]) + "\n")[0], 1)
    same("the report of another recording", bench("verify", "--report", report, put(room + "/m", M), SHEET, copy)[0], 1)


# ---- Releases.

def releases(room):
    """Alpha of the examples beside beta, who has message 200, and has a row for a message that is not there."""
    folder = room + "/f"
    put(folder + "/alpha.sheet", read(SHEET))
    order = put(folder + "/beta.order", "200 1-3 0 5000\n999 1 0 5\n")
    bench("sheet", order, folder + "/beta.sheet")
    figures = f"recording_sha256 {sha256(read(RECORDING))}\nrecording_bytes 520\nrecording_messages 8\nrecording_packages 10\n"
    # Beta's two messages have a package each, of 27 and of 55 bytes. Of message 7 package 21 and the one at 2000 s are nobody's, and of 100 the simulated one.
    own = f"{figures}released alpha 3 5 188\nreleased beta 2 2 132\nnone 3\nfirst_none 7 21 1001.999999010\nidle_row beta 2\n"
    same("tried", bench("release", "--dry-run", RECORDING, folder), (0, "state tried\n" + own, ""))
    same("nothing is written", names_in(folder), ["alpha.sheet", "beta.order", "beta.sheet"])
    same("release", bench("release", "--reports", RECORDING, folder), (0, "state released\n" + own, ""))
    kinds = ("copy", "report", "sheet", "tenant-report")
    same("the files", names_in(folder), sorted([f"{tenant}.{kind}" for tenant in ("alpha", "beta") for kind in kinds] + ["beta.order"]))
    holds("again, without --force", bench("release", RECORDING, folder)[:2] == (2, ""))
    same("again, with it", bench("release", "--force", RECORDING, folder)[0], 0)
    # Now beta's sheet has package 5 of message 7 too, which alpha's has at 1001 s.
    put(order, "200 1-3 0 5000\n7 5 0 5000\n")
    bench("sheet", "--force", order, folder + "/beta.sheet")
    before = read(folder + "/beta.copy")
    shared = f"{figures}released alpha 3 5 188\nreleased beta 4 4 252\nboth alpha beta 1 7 5 1001.999999000\nnone 2\nfirst_none 7 21 1001.999999010\n"
    status, told, said = bench("release", "--force", RECORDING, folder)
    same("two sheets grant one package", (status, told, read(folder + "/beta.copy")), (1, "state shared\n" + shared, before))
    holds("it is said", "two tenants" in said, said)
    in_json = json.loads(bench("release", "--json", "--dry-run", "--shared", RECORDING, folder)[1])
    same("as JSON", in_json["both"], [{"tenant": "alpha", "other": "beta", "packages": 1, "first": "7 5 1001.999999000"}])
    same("told to go on", bench("release", "--force", "--shared", RECORDING, folder)[:2], (0, "state released\n" + shared))
    same("beta has it too", len(read(folder + "/beta.copy")), 252)


def wrong_folders(room):
    folder = room + "/g"
    put(folder + "/alpha.sheet", read(SHEET))
    put(folder + "/gamma.sheet", R)
    kept = lambda: [name for name in names_in(folder) if name.endswith(".copy")]
    status, told, said = bench("release", RECORDING, folder)
    same("a sheet that grants nothing", (status, told.splitlines()[0], kept()), (3, "state nothing", []))
    holds("it is said", "--allow-empty" in said, said)
    put(folder + "/gamma.copy", "kept")
    same("the second copy exists", (bench("release", "--allow-empty", RECORDING, folder)[:2], kept()), ((2, ""), ["gamma.copy"]))
    same("an empty copy, asked for", (bench("release", "--allow-empty", "--force", RECORDING, folder)[0], read(folder + "/gamma.copy")), (0, b""))
    for name in kept():
        os.remove(f"{folder}/{name}")
    bad = put(room + "/bad", M[:23])
    same("a recording that is refused", (bench("release", bad, folder)[:2], kept()), ((1, "refused 1 0\n"), []))
    status, told, said = bench("release", RECORDING, put(folder + "/gamma.sheet", R[:31]) and folder)
    same("a sheet that is refused", (status, told, "gamma.sheet" in said, kept()), (1, "refused 11 31\n", True, []))
    os.remove(folder + "/gamma.sheet")
    for name in ("beta.Sheet", "beta sheet.sheet", "beta", "beta.sheet~"):
        put(f"{folder}/{name}", R)
        holds(f"a file {name} in the folder", bench("release", RECORDING, folder)[:2] == (2, ""))
        os.remove(f"{folder}/{name}")
    for where in (room + "/none", RECORDING, put(room + "/empty/alpha.order", "") and room + "/empty"):
        holds(f"a folder of sheets, {where}", bench("release", RECORDING, where)[:2] == (2, ""))
    holds("no folder to put it in", bench("release", "--into", room + "/none", RECORDING, folder)[:2] == (2, ""))
    same("at last", bench("release", RECORDING, folder)[0], 0)
