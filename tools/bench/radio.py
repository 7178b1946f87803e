"""The verb radio: a radio message as lines, lines as a radio message, and its link metrics."""
import ctypes
import subprocess

from bench import common
from bench.common import REFUSED, ROOT, WINDOW, Usage, answered, asked, given, number_in, parsed, put_answer, taken, written_by

FIRST_TLV = 10
# The TLV types, and of each the smallest and largest number of its fields, by the header of the exports; RSSI and CINR are signed.
BYTE, HALF, WORD, SIGNED = (0, 255), (0, 65535), (0, 2 ** 32 - 1), (-128, 127)
TYPES = {
    1: ("txop", [HALF, HALF, BYTE, WORD, WORD]),
    5: ("heartbeat", [HALF]),
    6: ("link", [BYTE, WORD, HALF, SIGNED, SIGNED, BYTE]),
    10: ("queues", [BYTE, WORD, WORD] + [HALF] * 8),
}
NUMBERS = {name: number for number, (name, _) in TYPES.items()}
HEADER = {"destination": HALF, "source": HALF, "sequence": WORD}
LONGEST_LINES = 1 << 24


class Wrong(Exception):
    """What is not good about a line."""


# ---- A message as lines.

def tlv_told(kind, fields):
    """A TLV in words: its name and its fields, the bytes of signed ones as numbers."""
    name, kinds = TYPES[kind]
    shown = [ctypes.c_int8(field).value if one is SIGNED else field for one, field in zip(kinds, fields)]
    return " ".join(map(str, [name, *shown]))


def tlvs_of(message):
    """The TLVs of a message that was read, in words."""
    place = FIRST_TLV
    while True:
        values = answered("radio_tlv", 14, message, ctypes.c_size_t(place))
        if values[1] == 0:
            return
        yield tlv_told(values[1], values[3:])
        place = values[2]


def read(words):
    [name], _ = parsed(words, ["MESSAGE"], ["--json"])
    message = taken(name)
    _, *header, _ = answered("read_radio", 5, message)
    common.tell([*zip(HEADER, header), ("tlv", list(tlvs_of(message)))])


# ---- Lines as a message.

def number_of(word, limits, what):
    try:
        return number_in(word, what, *limits)
    except Usage as wrong:
        raise Wrong(wrong)


def put_tlv(run, words):
    """Puts the TLV that words say behind a run, which begins where a message's TLVs do."""
    kind = NUMBERS.get("".join(words[:1]))
    if kind is None:
        raise Wrong("a TLV is " + ", ".join(NUMBERS))
    kinds = TYPES[kind][1]
    if len(words) != 1 + len(kinds):
        raise Wrong(f"{words[0]} has {len(kinds)} numbers")
    fields = [number_of(word, limits, f"word {k}") for k, (word, limits) in enumerate(zip(words[1:], kinds), 3)]
    shown = (ctypes.c_uint64 * 11)(*(field % 256 if one is SIGNED else field for one, field in zip(kinds, fields)))
    room = bytearray(WINDOW)
    number, values = asked("put_radio_tlv", 2, ctypes.c_uint32(kind), shown, room, ctypes.c_size_t(len(run)))
    if number:
        raise Wrong(f"{words[0]} is refused {number} {values[0]}: seconds go to 63, and microseconds, start and stop to 999999")
    run += room[len(run):len(run) + values[1]]


def lines_read(text):
    """The header's numbers and the run of TLVs that lines say, a message's place before it; or Wrong, with the line."""
    header, run = {}, bytearray(FIRST_TLV)
    for at, line in enumerate(text.decode("utf-8-sig", "replace").splitlines(), 1):
        words = line.split("#")[0].split()
        try:
            if words[:1] == ["tlv"]:
                put_tlv(run, words[1:])
            elif words and (len(words) != 2 or words[0] not in HEADER or words[0] in header):
                raise Wrong("a line is destination, source or sequence with a number, each once, or tlv with a TLV")
            elif words:
                header[words[0]] = number_of(words[1], HEADER[words[0]], words[0])
        except Wrong as wrong:
            raise Wrong(f"line {at}: {wrong}")
    missing = [key for key in HEADER if key not in header]
    if missing:
        raise Wrong("no line says " + " and ".join(missing))
    return [header[key] for key in HEADER], bytes(run)


def write(words):
    [name, out], options = parsed(words, ["LINES", "MESSAGE"], ["--force", "--json"])
    try:
        (destination, source, sequence), run = lines_read(taken(name, LONGEST_LINES))
    except Wrong as wrong:
        common.say(f"{name}: {wrong}")
        return REFUSED
    header = ctypes.c_uint16(destination), ctypes.c_uint16(source), ctypes.c_uint32(sequence)
    message, values = written_by("write_radio", 2, *header, given(run, FIRST_TLV))
    return put_answer(out, message, options, [name], [("state", "written"), ("bytes", values[1])], "")


def links(words):
    return subprocess.run([ROOT + "/tools/links", *words]).returncode


def radio_(words):
    """./bench radio read MESSAGE
    ./bench radio write LINES MESSAGE
    ./bench radio links MESSAGE..

    Reads a radio message, which is a whole file, into lines; writes one from such lines; or prints the link metrics of messages as tools/links
    does. Read and written again, a message has its reserved bits zero. The lines are destination, source and sequence, each with a number,
    and one for each TLV, in their order; what stands behind a '#' does not count:

      tlv txop FREQUENCY ID TIMEOUT START STOP
      tlv heartbeat TIMEOUT
      tlv link SECONDS MICROSECONDS FREQUENCY RSSI CINR ERRORS
      tlv queues SECONDS MICROSECONDS MSLPID and eight levels

    FREQUENCY is the centre frequency in units of 250 kHz, ERRORS the error rate in units of 1/256; RSSI and CINR are in dBm and dB, -128
    where they are missing, and an error rate of 0 is missing.

    --force   a MESSAGE that exists is overwritten
    --json    what is read as a JSON object

    Status 0: done. Status 1: refused, or a line is none; number and text are on standard error. Status 2: bad usage, or a file can not be
    read or written.

    Example: ./bench radio read examples/radio > lines && ./bench radio write lines message
    """
    ways = {"read": read, "write": write, "links": links}
    if words[:1] not in [[way] for way in ways]:
        raise Usage("the first word is read, write or links")
    return ways[words[0]](words[1:])
