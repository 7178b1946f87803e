"""The verbs check, list, tenants, sheet and show on the examples, on document 01's numbers, and on each kind of mistake."""
import importlib.util
import json
import os
import subprocess

from benching import HERE, M, R, RECORDING, SHEET, bench, holds, names_in, put, read, same

# M with another version; M cut; M, and behind it a message whose first package is one byte too short for its header.
OTHER_VERSION = b"\x20" + M[1:]
BAD_PACKAGE = M + M[:29] + b"\x0b" + M[30:]
HEADING = "at mdid pdid sec nsec len\n"
MESSAGES = "at mdid seq len sec nsec flags options packages\n"
IDS = "mdid pdid packages simulated first last\n"


def run(room):
    usage(room)
    states(room)
    lists(room)
    tenants(room)
    orders(room)
    wrong_orders(room)
    times(room)


def usage(room):
    """What is said of the verbs and of bad words. The example of each verb does what it says, in a folder of its own."""
    status, told, _ = bench("--help")
    verbs = [line.split()[0] for line in told.splitlines() if line.startswith("  ")]
    same("the verbs", (status, verbs), (0, "check list tenants sheet show copy release verify purge salvage clean cut join capture radio burst".split()))
    put(room + "/x/recording", read(RECORDING))
    put(room + "/x/sheets/alpha.sheet", read(SHEET))
    for name in ("bench", "examples"):
        os.symlink(f"{HERE}/{name}", f"{room}/x/{name}")
    for verb in verbs:
        status, told, said = bench(verb, "--help")
        example = told.rpartition("\nExample: ")[2].strip()
        holds(f"{verb} --help", status == 0 and told.startswith(f"./bench {verb}") and f"./bench {verb} " in example and not said, told + said)
        tried = subprocess.run(["bash", "-c", example], cwd=room + "/x", stdin=subprocess.DEVNULL, capture_output=True, close_fds=False)
        same(f"the example of {verb}", (tried.returncode, tried.stderr), (0, b""))
        # The next example writes these anew.
        for name in {"fragments", "message"} & set(names_in(room + "/x")):
            os.remove(f"{room}/x/{name}")
        status, told, said = bench(verb, "--nonsense")
        holds(f"{verb} with an option that is none", status == 2 and not told and said.count("\n") >= 2 and "usage: " in said, said)
    for words in ([], ["nonsense"], ["check"], ["check", ""], ["check", RECORDING, RECORDING], ["list", "--json", "--json", RECORDING], ["sheet", "--ahead"]):
        status, told, said = bench(*words)
        holds(f"bad usage {words}", status == 2 and not told and said, said)


def states(room):
    good = put(room + "/m", M)
    same("check M", bench("check", good), (0, "state passes\nbytes 56\nmessages 1\npackages 2\n", ""))
    same("check nothing", bench("check", "/dev/null"), (0, "state passes\nbytes 0\nmessages 0\npackages 0\n", ""))
    same("check, as JSON", json.loads(bench("check", "--json", good)[1]), {"state": "passes", "bytes": 56, "messages": 1, "packages": 2})
    for what, data, refused, before in [("23 bytes", M[:23], "1 0", (0, 0, 0)), ("another version", OTHER_VERSION, "2 0", (0, 0, 0)),
                                        ("a second message that is cut", M + M[:-4], "5 56", (56, 1, 2)),
                                        ("a bad package", BAD_PACKAGE, "10 80", (56, 1, 2))]:
        name = put(room + "/bad", data)
        status, told, said = bench("check", name)
        same(f"check {what}", (status, told), (1, "refused {}\nbytes {}\nmessages {}\npackages {}\n".format(refused, *before)))
        holds(f"check {what}: what is said", said.startswith("bench check: refused as ") and "what to do: " in said, said)
        number, place = map(int, refused.split())
        wanted = {"state": "refused", "number": number, "place": place} | dict(zip(["bytes", "messages", "packages"], before))
        same(f"check {what}, as JSON", json.loads(bench("check", "--json", name)[1]), wanted)
    for name in (room + "/none", room, ""):
        holds(f"check of what can not be read, {name}", bench("check", name)[:2] == (2, ""))
    long = put(room + "/long", M * 2000)
    same("check a long recording", bench("check", long)[1], "state passes\nbytes 112000\nmessages 2000\npackages 4000\n")
    cut = put(room + "/cut", M * 2000 + M[:24])
    same("check a long recording that is cut", bench("check", cut)[:2], (1, "refused 5 112000\nbytes 112000\nmessages 2000\npackages 4000\n"))
    with open(long, "rb") as file:
        run = subprocess.Popen(["cat"], stdin=file, stdout=subprocess.PIPE)
        same("what is no regular file is one input", bench("check", "/dev/stdin", stdin=run.stdout)[:2], (1, "refused 12 65536\nbytes 0\nmessages 0\npackages 0\n"))
        run.stdout.close()
        run.wait()


def lists(room):
    # Document 01's own listing of M.
    same("list M", bench("list", put(room + "/m", M)), (0, HEADING + "24 7 1 100 0 13\n40 7 2 100 10 16\nend 1 2\n", ""))
    same("list nothing", bench("list", "/dev/null"), (0, HEADING + "end 0 0\n", ""))
    same("list the example", bench("list", RECORDING)[1].encode(), read(HERE + "/examples/listing"))
    same("list --messages M", bench("list", "--messages", room + "/m")[1], MESSAGES + "0 7 5 56 100 0 standard - 2\nend 1 2\n")
    lines = [json.loads(line) for line in bench("list", "--json", room + "/m")[1].splitlines()]
    same("list as JSON", lines, [dict(zip(HEADING.split(), row)) for row in ([24, 7, 1, 100, 0, 13], [40, 7, 2, 100, 10, 16])] + [{"end": [1, 2]}])
    status, told, said = bench("list", put(room + "/bad", BAD_PACKAGE))
    same("list up to the fault", (status, told), (1, HEADING + "24 7 1 100 0 13\n40 7 2 100 10 16\nrefused 10 80\n"))
    holds("what is said of the fault", "the message at offset 56, which is 56 bytes long" in said, said)
    status, told, _ = bench("list", "--messages", put(room + "/bad", M * 1200 + OTHER_VERSION))
    lines = told.splitlines()
    same("list a long recording up to the fault", (status, len(lines), lines[-2:]), (1, 1202, ["67144 7 5 56 100 0 standard - 2", "refused 2 67200"]))
    # P7's option bytes: the option run is the first six of them.
    options = M[:12] + bytes.fromhex("00000040") + M[16:24] + bytes.fromhex("87060000000200FF") + M[24:]
    same("a message's options", bench("list", "--messages", put(room + "/options", b"\x12" + options[1:]))[1], MESSAGES + "0 7 5 64 100 0 standard 870600000002 2\nend 1 2\n")
    holds("list of what can not be read", bench("list", room + "/none")[:2] == (2, ""))


def tenants(room):
    os.makedirs(room + "/t")
    m, order = put(room + "/m", M), room + "/t/order"
    wanted = IDS + "7 1 1 0 100 100\n7 2 1 0 100.000000010 100.000000010\nend 1 2\n"
    same("tenants of M", bench("tenants", "--order", order, m), (0, wanted, ""))
    lines = [line for line in read(order).decode().splitlines() if not line.startswith("#")]
    same("its order", lines, ["7 1-2 100 100.000000011  # packages 2"])
    same("nothing else is written", names_in(room + "/t"), ["order"])
    holds("an order that exists", bench("tenants", "--order", order, m)[0] == 2)
    same("tenants in UTC", bench("tenants", "--ahead", "37", m)[1].splitlines()[1], "7 1 1 0 1970-01-01T00:01:03Z 1970-01-01T00:01:03Z")
    empty = b"\x10\0\0\0" + (9).to_bytes(4, "big") + bytes(7) + b"\x18" + bytes(8)
    same("an id without a package", bench("tenants", put(room + "/e", empty))[1], IDS + "9 - 0 0 - -\nend 1 0\n")
    # Forty package ids, no two side by side: a line has 32 ranges at most.
    packages = b"".join((2 * k).to_bytes(4, "big") + b"\0\x0c\0\0" + k.to_bytes(4, "big") for k in range(40))
    many = M[:12] + (24 + len(packages)).to_bytes(4, "big") + M[16:24] + packages
    same("forty ids", bench("tenants", "--force", "--order", order, put(room + "/many", many))[0], 0)
    lists = [",".join(str(2 * k) for k in part) for part in (range(32), range(32, 40))]
    lines = [line for line in read(order).decode().splitlines() if not line.startswith("#")]
    same("their order", lines, [f"7 {lists[0]} 100 100.000000032  # packages 32", f"7 {lists[1]} 100.000000032 100.000000040  # packages 8"])
    late = M[:16] + b"\xff\xff\xff\xff" + (999999995).to_bytes(4, "big") + M[24:]
    bench("tenants", "--force", "--order", order, put(room + "/late", late))
    lines = read(order).decode().splitlines()[2:]
    same("a package behind the last time of a sheet", (lines[0], lines[1].startswith("# no row can grant all of package id 2")),
         ("7 1 4294967295.999999995 4294967295.999999996  # packages 1", True))
    same("tenants, refused", bench("tenants", "--order", room + "/t/no", put(room + "/bad", BAD_PACKAGE))[:2], (1, "refused 10 80\n"))
    same("a refusal writes no order", names_in(room + "/t"), ["order"])
    # An order of everything, as it stands, releases everything.
    all_of_it, copy = room + "/t/all", room + "/t/copy"
    bench("tenants", "--order", all_of_it, RECORDING)
    same("the order as a sheet", bench("sheet", all_of_it, room + "/t/sheet"), (0, "", ""))
    # The messages that have a package, 24 bytes each, and each package's L in examples/listing, rounded up to a multiple of 4.
    same("its copy", bench("copy", RECORDING, room + "/t/sheet", copy)[1], "state copied\nbytes 464\nmessages 7\npackages 10\n")
    holds("a picture of another kind", bench("tenants", "--plot", room + "/t/p.bmp", m)[0] == 2)
    drawn = bench("tenants", "--plot", room + "/t/p.svg", RECORDING)
    if importlib.util.find_spec("matplotlib"):
        picture = read(room + "/t/p.svg")
        holds("a picture", drawn[0] == 0 and picture.startswith(b"<?xml") and b"</svg>" in picture, drawn)
    else:
        holds("no picture without matplotlib", drawn[:2] == (2, "") and "matplotlib is missing" in drawn[2], drawn)


def orders(room):
    """An order into a sheet and back."""
    os.makedirs(room + "/o")
    sheet = room + "/o/sheet"
    same("sheet", bench("sheet", HERE + "/examples/order", sheet), (0, "", ""))
    same("the example's sheet", read(sheet), read(SHEET))
    same("show", bench("show", SHEET), (0, "# times are seconds of the recording's clock\n100 0-4294967295 0 4294967295.999999999 acquired\n7 1-9 1000 2000\n", ""))
    shown = put(room + "/o/shown", bench("show", "--ahead", "37", SHEET)[1])
    same("what is shown in UTC", (bench("sheet", "--force", "--ahead", "37", shown, sheet)[0], read(sheet)), (0, read(SHEET)))
    # Row R, and what document 01 says it is.
    row = put(room + "/o/r", R)
    same("show R", bench("show", row)[1].splitlines()[1:], ["7 1 100 101"])
    rows = json.loads(bench("show", "--json", row)[1])["rows"]
    same("show R as JSON", [list(one.values()) for one in rows], [[7, 7, 1, 1, 100, 0, 101, 0, 0]])
    same("show of a bad sheet", bench("show", put(room + "/o/bad", R[:31]))[:2], (1, "refused 11 31\n"))
    same("show of a bad row", bench("show", put(room + "/o/bad", R + R[:4] + bytes(28)))[:2], (1, "refused 11 32\n"))
    same("show of a recording", bench("show", put(room + "/o/bad", M * 100))[:2], (1, "refused 11 5600\n"))
    holds("show of what can not be read", bench("show", room + "/none")[0] == 2)


def wrong_orders(room):
    """Orders that are no good: nothing is written."""
    os.makedirs(room + "/w")
    order, sheet = room + "/w/order", room + "/w/sheet"
    for text, status, told, said in [
            ("7 1 100 101\n7-9,,12 1 100 101", 1, "", "line 2, word 1: '7-9,,12' is no list of ids at ',12', its byte 5"),
            ("7 1 100", 1, "", "line 1: message ids, package ids, start and end are wanted"),
            ("7 1 100 100", 1, "refused 11 0\n", "line 1, word 4: the end is not behind the start"),
            ("7 1 2024-01-01T00:00:00Z 5000000000", 1, "", "line 1, word 3: '2024-01-01T00:00:00Z' is UTC: --ahead SECONDS"),
            ("7 1 1 4294967296000000000ns", 1, "", "line 1, word 4: '4294967296000000000ns' is before"),
            ("# nobody's", 3, "", "has no line"), ("", 3, "", "has no line")]:
        got = bench("sheet", put(order, text), sheet)
        same(f"the order {text!r}", got[:2], (status, told))
        holds(f"what is said of {text!r}", said in got[2], got[2])
    for stamp in ("2024-02-30T00:00:00Z", "2024-01-01T24:00:00Z", "2016-12-31T23:59:60Z", "1960-01-01T00:00:00Z", "2024-01-01T00:00:00.5Z", "2024-01-01 00:00:00Z"):
        holds(f"the time {stamp}", bench("sheet", "--ahead", "37", put(order, f"7 1 {stamp} 4294967295"), sheet)[0] == 1)
    same("no sheet is written", names_in(room + "/w"), ["order"])
    put(order, "7 1 100 101")
    holds("a word that is no number", bench("sheet", "--ahead", "x", order, sheet)[0] == 2)
    holds("an order that can not be read", bench("sheet", room + "/none", sheet)[0] == 2)
    holds("a sheet in no folder", bench("sheet", order, room + "/no/sheet")[0] == 2)
    holds("a sheet that is the order", bench("sheet", "--force", order, order)[0] == 2)
    same("the order is kept", read(order), b"7 1 100 101")
    put(sheet, "kept")
    holds("a sheet that exists", bench("sheet", order, sheet)[0] == 2)
    same("it is kept", read(sheet), b"kept")
    same("an empty order, asked for", (bench("sheet", "--force", "--allow-empty", put(order, ""), sheet)[0], read(sheet)), (0, b""))


def times(room):
    """A time in each of its forms is the same row: 2017-01-01 UTC, when atomic time came to be 37 seconds ahead, is 1483228837 s."""
    order, sheet = room + "/order", room + "/sheet"
    wanted = ["7 1-3 1483228837.000000005 1483228838"]
    for start, end in [("1483228837.000000005", "1483228838"), ("1483228837000000005ns", "01483228838000000000ns"),
                       ("2017-01-01T00:00:00.000000005Z", "2017-01-01T00:00:01Z")]:
        bench("sheet", "--force", "--ahead", "37", put(order, f"7 1-3 {start} {end}"), sheet)
        same(f"from {start} to {end}", bench("show", sheet)[1].splitlines()[1:], wanted)
    same("shown by another clock", bench("show", "--ahead", "18", sheet)[1].splitlines()[1:], ["7 1-3 2017-01-01T00:00:19.000000005Z 2017-01-01T00:00:20Z"])
