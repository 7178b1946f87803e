"""The verb salvage: what passes of a damaged recording."""
from bench.common import WRITES, parsed, put_answer, taken, written_by


def salvage_(words):
    """./bench salvage DAMAGED RECORDING

    Writes each message of a damaged recording that passes every check, as it stands, and reports what was skipped: a line
    `stretch START LENGTH` for each stretch of bytes. Kept messages and stretches together are all of it. This is the owner's tool and no
    release: what it writes may be anybody's.

    A damaged recording has at most 65,536 bytes. A longer one is refused as LARGE: what to keep at the edge of two pieces is not laid down
    anywhere, so it has to be cut by hand, at a message that passes (./bench list shows where they begin, up to the fault).

    --allow-empty   where no message passes, an empty recording is written
    --force         a RECORDING that exists is overwritten
    --json          what is said as a JSON object

    Status 0: written. Status 1: refused, as LARGE, or as HOLES where more than 64 stretches would be skipped. Status 2: bad usage, or a file
    can not be read or written. Status 3: no message passes, and nothing is written.

    Example: ./bench salvage examples/recording salvaged
    """
    [name, out], options = parsed(words, ["DAMAGED", "RECORDING"], WRITES)
    kept, values = written_by("salvage", 132, taken(name))
    stretches = [f"{values[place]} {values[place + 1]}" for place in range(4, 4 + 2 * values[3], 2)]
    pairs = [("state", "salvaged"), ("bytes", values[1]), ("messages", values[2]), ("stretches", values[3]), ("stretch", stretches)]
    return put_answer(out, kept, options, [name], pairs, f"no message of {name} passes")
