"""The verbs salvage, clean, cut, join, capture, radio and burst: beside the second program on made-up files, good and bad, on document 01's
numbers, and on each kind of mistake."""
import json
import os
import subprocess

from benching import M, RECORDING, bench, forked, holds, names_in, put, read, same, second

MARKER = bytes.fromhex("034776C7 272895B0")
# What a verb says it did, and the words in front of the file's name and behind it. A case of the second program has its verb and one word.
STATES = {"salvage": "salvaged", "clean": "cleaned", "cut": "cut", "join": "joined", "capture-read": "read", "capture-write": "written",
          "burst-open": "opened", "burst-randomize": "randomized"}
# The TLVs of tests/links, each reserved bit set, and the lines that they are, worked out by hand from 24.3 of source document 000.
RADIO = bytes.fromhex(
    "003F 1234 5678 00000007 010D 2328 80 0102 05 30D40F423F 0504 FFFE 060B FFFF423F 2329 C4 80 03"
    "0A1B EAF14345 00000011 00 0001 0002 0003 0004 0005 0006 0007 0008")


def run(room):
    beside_second(room)
    by_document(room)
    radio(room)
    one_message(room)
    nothing(room)
    mistakes(room)


def beside_second(room):
    """Each case as the second program has it: what is told, and the file; nothing is written where it is refused, or where there is nothing."""
    program = second(room, "bench_second")
    os.mkdir(room + "/cases")
    reached = {}
    for line in subprocess.run([program, room + "/cases"], check=True, stdout=subprocess.PIPE, text=True).stdout.splitlines():
        words, told = line.split("|")
        number, verb, *rest = words.split()
        if verb != "purge":
            case = f"{room}/cases/{number}"
            reached.setdefault(verb, set()).add(told.split()[0] if told.startswith("refused") else "written")
            compare(f"{verb} {number}", room, case, verb, rest, told.split(";"))
    same("each verb is refused in some cases and not in others", {verb: sorted(ways) for verb, ways in reached.items()},
         {verb: ["refused", "written"] for verb in [*STATES, "radio"]})


def compare(what, room, case, verb, rest, told):
    out = f"{room}/out/out"
    os.makedirs(room + "/out", exist_ok=True)
    wanted = read(case + ".out") if os.path.exists(case + ".out") else None
    if verb == "radio":
        got = forked("radio", "read", case + ".in")[:2]
        state = []
        if wanted is not None:
            lines = put(room + "/lines", "\n".join(told))
            same(what + ", written again", forked("radio", "write", lines, out)[0], 0)
    else:
        got = forked(*verb.split("-"), case + ".in", *rest, out)[:2]
        state = [f"state {STATES[verb]}"]
    status = 1 if wanted is None else 0 if wanted else 3
    same(what, got, (status, "".join(line + "\n" for line in (state if wanted is not None else []) + told)))
    same(what + ", the file", read(out) if os.path.exists(out) else None, wanted or None)
    same(what + ", no other file", names_in(room + "/out"), ["out"] * bool(wanted))
    if wanted:
        os.remove(out)


def by_document(room):
    """M and P10 and P12 of document 01."""
    m, out = put(room + "/m", M), room + "/document"
    clean = M[:37] + bytes(3) + M[40:46] + bytes(1) + M[47:]
    same("clean M", (bench("clean", m, out), read(out)), ((0, "state cleaned\nbytes 56\nmessages 1\npackages 2\n", ""), clean))
    same("join of one whole message", (bench("join", "--force", m, out), read(out)), ((0, "state joined\nbytes 56\n", ""), clean))
    block = bytes(768)
    burst = put(room + "/burst", MARKER + block)
    same("open a burst", bench("burst", "open", "--force", burst, out), (0, "state opened\ncodeblocks 1\n", ""))
    same("the first bytes of the sequence", (read(out)[:13], read(out)[8 + 255]), (MARKER + bytes.fromhex("FF 48 0E C0 9A"), 0xFF))
    same("a marker alone", bench("burst", "open", put(room + "/marker", MARKER), room + "/none")[:2], (1, "refused 15 8\n"))
    same("salvage M behind four bytes", bench("salvage", "--force", put(room + "/four", bytes(4) + M), out),
         (0, "state salvaged\nbytes 56\nmessages 1\nstretches 1\nstretch 0 4\n", ""))
    same("what is salvaged is not cleaned", read(out), M)
    same("salvage, as JSON", json.loads(bench("salvage", "--force", "--json", room + "/four", out)[1]),
         {"state": "salvaged", "bytes": 56, "messages": 1, "stretches": 1, "stretch": ["0 4"]})
    same("refused, as JSON", json.loads(bench("clean", "--json", put(room + "/short", M[:23]), room + "/none")[1]),
         {"state": "refused", "number": 1, "place": 0})


def radio(room):
    """A message worked out by hand, and lines that are none."""
    name, lines, out = put(room + "/worked", RADIO), room + "/worked.lines", room + "/worked.out"
    told = ("destination 4660\nsource 22136\nsequence 7\ntlv txop 9000 258 5 200000 999999\ntlv heartbeat 65534\n"
            "tlv link 63 999999 9001 -60 -128 3\ntlv queues 42 82757 17 1 2 3 4 5 6 7 8\n")
    same("radio read", forked("radio", "read", name), (0, told, ""))
    holds("radio read, as JSON", json.loads(forked("radio", "read", "--json", name)[1])["tlv"][1] == "heartbeat 65534")
    put(lines, "# a comment\n\n" + told)
    same("radio write", forked("radio", "write", lines, out), (0, "state written\nbytes 65\n", ""))
    same("what is written is read as the same", forked("radio", "read", out)[1], told)
    same("what is written is clean", (len(read(out)), read(out)[27:33]), (65, bytes.fromhex("060B 03FF423F")))
    status, table, _ = forked("radio", "links", name)
    same("radio links", (status, table.splitlines()[1]), (0, f"{name},27,4660,22136,7,63,999999,2250.25,-60.0,,0.01171875"))
    for what, text in {"line 1": told.replace("destination", "destiny"), "line 4: txop has 5 numbers": told.replace(" 258 ", " "),
                       "line 6: word 6": told.replace("-60", "-129"), "line 6: link is refused 19 27": told.replace("link 63", "link 64"),
                       "line 8": told + "sequence 8\n", "no line says source": told.replace("source 22136\n", ""),
                       "line 5: a TLV is": told.replace("heartbeat", "pulse")}.items():
        status, printed, said = forked("radio", "write", put(room + "/bad.lines", text), room + "/none")
        same(f"radio write, {what}", (status, printed, f"bad.lines: {what}" in said), (1, "", True))
    same("no TLV", forked("radio", "write", put(room + "/bad.lines", told.split("tlv")[0]), room + "/none")[:2], (1, "refused 19 0\n"))
    same("nothing is written", os.path.exists(room + "/none"), False)


def one_message(room):
    """cut takes one message, alone or where it stands in a recording of any length."""
    m, long, out = put(room + "/one", M), put(room + "/many", M * 2000), room + "/fragments"
    same("cut", forked("cut", m, 16, out), (0, "state cut\nbytes 96\nfragments 2\n", ""))
    whole = read(out)
    status, told, said = forked("cut", put(room + "/two", M + M), 16, room + "/none")
    same("cut, more behind it", (status, told, "--at 0" in said, os.path.exists(room + "/none")), (2, "", True, False))
    same("cut --at", (forked("cut", "--force", "--at", 56 * 1999, long, 16, out)[0], read(out)), (0, whole))
    same("cut --at, behind the end", forked("cut", "--at", 112000, long, 16, room + "/none")[:2], (1, "refused 1 0\n"))
    same("cut --at, within a message", forked("cut", "--at=4", long, 16, room + "/none")[:2], (1, "refused 2 0\n"))
    same("joined again", (forked("join", out, room + "/joined")[0], read(room + "/joined")), (0, M[:37] + bytes(3) + M[40:46] + bytes(1) + M[47:]))


def nothing(room):
    """Status 3, and no file; with --allow-empty an empty one."""
    empty, zeros, out = put(room + "/empty", b""), put(room + "/zeros", bytes(8)), room + "/nothing"
    forked("capture", "write", RECORDING, 5000, room + "/pcap")
    for words in (["salvage", zeros], ["clean", empty], ["burst", "randomize", empty], ["capture", "read", room + "/pcap", 5001]):
        status, _, said = forked(*words, out)
        same(f"{words[0]}, nothing", (status, os.path.exists(out), said.count("\n")), (3, False, 1))
        same(f"{words[0]}, nothing, allowed", (forked(*words, "--allow-empty", out)[0], read(out)), (0, b""))
        os.remove(out)


def mistakes(room):
    """What is bad usage, can not be read or is kept: status 2, one line or the usage, and no file."""
    good = {"salvage": [], "clean": [], "cut": [16], "join": [], "capture write": [5000], "burst randomize": []}
    folder = room + "/kept"
    kept = put(folder + "/kept", M)
    os.symlink("kept", folder + "/link")
    for verb, rest in good.items():
        for what, words in {"a file that exists": [kept, *rest, folder + "/link"], "its own input": ["--force", kept, *rest, folder + "/link"],
                            "no such file": [room + "/none", *rest, folder + "/new"], "a folder": [folder, *rest, folder + "/new"],
                            "no such folder": [kept, *rest, folder + "/no/new"], "too few words": [kept, *rest], "no name": [kept, *rest, ""],
                            "a device": ["--force", kept, *rest, "/dev/null"]}.items():
            status, told, said = forked(*verb.split(), *words)
            same(f"{verb}: {what}", (status, told, bool(said), names_in(folder), read(kept) == M), (2, "", True, ["kept", "link"], True))
    for words in (["capture", kept, 5000, folder + "/new"], ["capture", "write", kept, 65536, folder + "/new"], ["cut", kept, "x", folder + "/new"],
                  ["cut", "--at", "-1", kept, 16, folder + "/new"], ["radio"], ["radio", "read"], ["radio", "show", kept], ["burst", kept, folder + "/new"]):
        status, told, said = forked(*words)
        same(f"bad usage {words}", (status, told, "usage: " in said, names_in(folder)), (2, "", True, ["kept", "link"]))
