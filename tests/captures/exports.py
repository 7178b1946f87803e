"""The two exports of captures, called from Python over target/native/libhibernaxo.so."""
import ctypes
import os
import sys

ROOT = os.path.normpath(os.path.join(os.path.dirname(os.path.abspath(__file__)), "..", ".."))
LIBRARY = f"{ROOT}/target/native/libhibernaxo.so"
FOLDER = f"{ROOT}/tests/captures"
UNWRITTEN = 0xEE


def library():
    if not os.path.exists(LIBRARY):
        sys.exit("tests/captures: target/native has no library: run ./native first")
    return ctypes.CDLL(LIBRARY)


def call(export, count, source, port, room):
    """Number and values of an export on these bytes, and the buffer of so many bytes as it leaves it."""
    given = (ctypes.c_uint8 * (len(source) + 1)).from_buffer_copy(source + b"\0")
    out = (ctypes.c_uint8 * (room + 1))(*[UNWRITTEN] * (room + 1))
    values = (ctypes.c_uint64 * count)()
    export.argtypes = [ctypes.c_void_p, ctypes.c_size_t, ctypes.c_uint16, ctypes.c_void_p, ctypes.c_size_t, ctypes.c_void_p]
    export.restype = ctypes.c_uint32
    number = export(given, len(source), port, out, room, values)
    return [number, *values], bytes(out)


def read_capture(lib, file, port, room):
    return call(lib.hibernaxo_read_capture, 6, file, port, room)


def write_capture(lib, recording, port, room):
    return call(lib.hibernaxo_write_capture, 3, recording, port, room)


def cases():
    """The rows of expected.txt: a file's name, the port, and number, place, bytes and the four counts."""
    with open(f"{FOLDER}/expected.txt") as lines:
        rows = [line.split("#")[0].split() for line in lines if not line.startswith("#")]
    return [(name, int(port), [int(number) for number in numbers]) for name, port, *numbers in rows]


def held(name):
    with open(f"{FOLDER}/{name}", "rb") as file:
        return file.read()
