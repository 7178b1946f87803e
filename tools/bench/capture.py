"""The verb capture: a capture from the switch into a recording, and a recording as a capture."""
import ctypes

from bench.common import WRITES, Usage, number_in, parsed, put_answer, taken, written_by


def read(name, port, out, options):
    recording, values = written_by("read_capture", 6, taken(name), port)
    pairs = [("state", "read"), *zip(["bytes", "kept", "not_for_us", "cut_short", "bad"], values[1:])]
    return put_answer(out, recording, options, [name], pairs, f"no packet of {name} is kept")


def write(name, port, out, options):
    capture, values = written_by("write_capture", 3, taken(name), port)
    pairs = [("state", "written"), *zip(["bytes", "messages"], values[1:])]
    return put_answer(out, capture, options, [name], pairs, "")


def capture_(words):
    """./bench capture read CAPTURE PORT RECORDING
    ./bench capture write RECORDING PORT CAPTURE

    Reads the messages that a capture of the switch holds for a UDP port into a recording, or writes a recording's messages as a capture to
    that port. A capture is a file of classic pcap. Each packet counts once: kept, not for us, cut short or a bad message. Both take at most
    65,536 bytes; `editcap -c` splits a longer capture.

    --allow-empty   where no packet is kept, an empty recording is written
    --force         a file that exists is overwritten
    --json          what is said as a JSON object

    Status 0: written. Status 1: refused. Status 2: bad usage, or a file can not be read or written. Status 3: no packet is kept, and nothing
    is written; the counts tell why. Is it another port?

    Example: ./bench capture write examples/recording 5000 capture.pcap && ./bench capture read capture.pcap 5000 again
    """
    ways = {"read": read, "write": write}
    if words[:1] not in [[way] for way in ways]:
        raise Usage("the first word is read or write")
    [name, port, out], options = parsed(words[1:], ["a file", "PORT", "the file to be written"], WRITES)
    return ways[words[0]](name, ctypes.c_uint16(number_in(port, "PORT", 0, 65535)), out, options)
