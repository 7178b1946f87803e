"""The verbs cut and join: a message cut into fragments, and fragments joined."""
import ctypes

from bench.common import WINDOW, Fail, Recording, answered, number_in, parsed, put_answer, taken, written_by


def message_in(name, place):
    """The message of a recording that begins at a place. Refused: the place is counted from there."""
    found = Recording(name).part(place, WINDOW)
    return found[:answered("header", 10, found)[5]]


def cut_(words):
    """./bench cut [--at PLACE] RECORDING SIZE FRAGMENTS

    Cuts the clean form of a message into fragments with SIZE bytes of payload each, a multiple of 4, and writes them one behind the other. A
    payload that fits is not cut. RECORDING is the message alone, or with --at a recording of any length that it stands in.

    --at PLACE   where the message begins in RECORDING, as ./bench list --messages shows it; a refusal's place is counted from there
    --force      FRAGMENTS that exist are overwritten
    --json       what is said as a JSON object

    Status 0: written. Status 1: refused. Status 2: bad usage, something stands behind the message, or a file can not be read or written.

    Example: ./bench cut --at 0 examples/recording 16 fragments
    """
    [name, size, out], options = parsed(words, ["RECORDING", "SIZE", "FRAGMENTS"], ["--force", "--json"], ["--at"])
    size = number_in(size, "SIZE")
    message = message_in(name, number_in(options["--at"], "--at", 0, 2 ** 62)) if "--at" in options else taken(name)
    fragments, values = written_by("cut", 3, message, ctypes.c_size_t(size))
    length = answered("header", 10, message)[5]
    if length != len(message):
        raise Fail(f"{name} has more behind its first message, of {length} bytes; --at 0 cuts that one")
    pairs = [("state", "cut"), ("bytes", values[1]), ("fragments", values[2])]
    return put_answer(out, fragments, options, [name], pairs, "")


def join_(words):
    """./bench join FRAGMENTS MESSAGE

    Joins the fragments of one message, which stand one behind the other from the first to the last, into the clean form of the message. One
    whole message is cleaned.

    --force   a MESSAGE that exists is overwritten
    --json    what is said as a JSON object

    Status 0: written. Status 1: refused, as GAP at the first fragment that does not continue those before it. Status 2: bad usage, or a file
    can not be read or written.

    Example: ./bench cut --at 0 examples/recording 16 fragments && ./bench join fragments message
    """
    [name, out], options = parsed(words, ["FRAGMENTS", "MESSAGE"], ["--force", "--json"])
    message, values = written_by("join", 2, taken(name))
    return put_answer(out, message, options, [name], [("state", "joined"), ("bytes", values[1])], "")
