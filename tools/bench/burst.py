"""The verb burst: a burst opened, or bytes randomized."""
from bench.common import WRITES, Usage, answered, parsed, put_answer, taken


def open_burst(buffer):
    return [("state", "opened"), ("codeblocks", answered("open_burst", 2, buffer)[1])]


def randomize(buffer):
    answered("randomize", 1, buffer)
    return [("state", "randomized"), ("bytes", len(buffer))]


def burst_(words):
    """./bench burst open BURST OPENED
    ./bench burst randomize FILE RANDOMIZED

    Opens a burst: its marker stays, and its codeblocks are randomized, as one run behind it. Or randomizes any bytes from the first on; twice
    gives them back. At most 65,536 bytes.

    --allow-empty   no bytes are randomized to no bytes
    --force         a file that exists is overwritten
    --json          what is said as a JSON object

    Status 0: written. Status 1: refused, as MARKER or BLOCKS where it is no burst. Status 2: bad usage, or a file can not be read or written.
    Status 3: there is nothing to randomize, and nothing is written.

    Example: ./bench burst randomize examples/recording randomized
    """
    ways = {"open": open_burst, "randomize": randomize}
    if words[:1] not in [[way] for way in ways]:
        raise Usage("the first word is open or randomize")
    [name, out], options = parsed(words[1:], ["a file", "the file to be written"], WRITES)
    buffer = bytearray(taken(name))
    pairs = ways[words[0]](buffer)
    return put_answer(out, bytes(buffer), options, [name], pairs, f"{name} is empty")
