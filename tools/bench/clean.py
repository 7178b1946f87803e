"""The verb clean: a recording of any length in clean form.

The purge under a sheet without rows keeps every message in clean form (NoRows in crates/purge/specs/Claims.antt), so that a window is
cleaned in one call.
"""
from bench import common
from bench.common import NOTHING, WRITES, Ended, Recording, Whole, answered, parsed
from bench.purge import kept_of

NO_ROWS = b""


def clean_(words):
    """./bench clean RECORDING CLEAN

    Writes the messages of a recording of any length in clean form, one behind the other: reserved bits, reserved bytes and padding zero, and
    the fewest option words. All of it is checked; nothing is taken out, and sequence numbers and options stay, so a clean recording is
    no release.

    --allow-empty   where the recording is empty, an empty one is written
    --force         a CLEAN that exists is overwritten
    --json          what is said as a JSON object

    Status 0: written. Status 1: refused, and nothing is written. Status 2: bad usage, or a file can not be read or written. Status 3: the
    recording is empty, and nothing is written.

    Example: ./bench clean examples/recording clean
    """
    [name, out], options = parsed(words, ["RECORDING", "CLEAN"], WRITES)
    counts = [0, 0, 0]
    with Whole(out, "--force" in options, [name]) as file:
        for _, window in Recording(name).windows():
            cleaned = kept_of(window, NO_ROWS)
            file.write(cleaned)
            counts = [count + more for count, more in zip(counts, [len(cleaned), *answered("check", 3, window)[1:]])]
        if not counts[0] and "--allow-empty" not in options:
            common.say(f"{name} is empty, so {out} is not written")
            raise Ended(NOTHING)
    common.tell([("state", "cleaned"), *zip(["bytes", "messages", "packages"], counts)])
