"""What the verbs of ./bench share: statuses and what is said, options, files read and written whole, the exports, and a recording of
any length in windows.

A verb ends by returning its status, or by one of the exceptions below, each of which ./bench turns into its line and its status.
"""
import ctypes
import functools
import json
import os
import re
import stat
import subprocess
import traceback

import library

DONE, REFUSED, FAILED, NOTHING = 0, 1, 2, 3
ROOT = library.ROOT
# The most that an export takes as one input, and so the size of a window.
WINDOW = 65536
# What the name of a purge's journal has behind the recording's.
JOURNAL = ".purge-journal"
# Refusal numbers of the published table that a window's end can cause, and that of a buffer without room.
SHORT, CUT, LARGE, ROOM = 1, 5, 12, 13
# The options of a verb that writes one file.
WRITES = ["--allow-empty", "--force", "--json"]

# How the command calls itself in what it says, and whether it was asked for JSON.
me = "bench"
in_json = False


class Usage(Exception):
    """Bad usage: why."""


class Fail(Exception):
    """What keeps a verb from its answer, in one line."""


class Ended(Exception):
    """The end of a verb whose status is told already; files that are not named yet go away."""


class Refused(Exception):
    """A refusal: number, place, the name of the recording that it was found in, if it was one, and the window of it."""

    def __init__(self, number, place, recording="", window=(0, b"")):
        super().__init__(number, place, recording)
        self.number, self.place, self.recording, self.window = number, place, recording, window


# ---- What is said.

def say(text):
    """A line on standard error, where that can be written."""
    try:
        os.write(2, f"{me}: {text}\n".encode(errors="replace"))
    except OSError:
        pass


def print_whole(text):
    """A text on standard output, all of it."""
    left = text.encode(errors="surrogateescape") if isinstance(text, str) else text
    try:
        while left:
            left = left[os.write(1, left):]
    except OSError as error:
        raise Fail(f"standard output: {error.strerror}")


def lines_told(pairs):
    """Keys and values, one pair a line, or as a JSON object. A value that is a list is a line for each of its items in the one, and a
    list in the other; an item that is an object has its values on its line."""
    if in_json:
        return json.dumps(dict(pairs), indent=1) + "\n"
    flat = [(key, item) for key, value in pairs for item in (value if isinstance(value, list) else [value])]
    return "".join(f"{key} {' '.join(map(str, value.values())) if isinstance(value, dict) else value}\n" for key, value in flat)


def tell(pairs):
    print_whole(lines_told(pairs))


def refusal_words(number, place, recording=""):
    """The lines that say what a refusal means, and what to do about it."""
    command = [ROOT + "/tools/refusal-text", str(number), str(place)] + ([recording] if recording else [])
    return subprocess.run(command, stdin=subprocess.DEVNULL, stdout=subprocess.PIPE, text=True).stdout.splitlines()


def tell_refusal(refused, more=()):
    """A refusal as ./run tells it, and more pairs behind it."""
    if in_json:
        pairs = [("state", "refused"), ("number", refused.number), ("place", refused.place), *more]
        print_whole(json.dumps(dict(pairs)) + "\n")
    else:
        print_whole(f"refused {refused.number} {refused.place}\n" + lines_told(more))
    for line in refusal_words(refused.number, refused.place, refused.recording):
        say(line)


def guarded(main, words):
    """The status of a command, whatever ends it."""
    try:
        return main(words)
    except Refused as refused:
        try:
            tell_refusal(refused)
        except Fail as failure:
            say(failure)
            return FAILED
        return REFUSED
    except Ended as ended:
        return ended.args[0]
    except Fail as failure:
        say(failure)
    except library.Unmade:
        say("the exports could not be made: ./native says why")
    except OSError as error:
        say(f"{error.filename or 'a file'}: {error.strerror or error}")
    except Exception:
        traceback.print_exc()
        say("this is a fault of the command itself")
    return FAILED


# ---- Options.

def parsed(words, names, flags=(), valued=()):
    """The names that a verb is called with, and its options: True for each flag that is given, and the word behind each valued one."""
    global in_json
    found, options, rest = [], {}, list(words)
    while rest:
        word = rest.pop(0)
        if word == "--":
            found, rest = found + rest, []
        elif word in flags:
            put_option(options, word, True)
        elif word.split("=")[0] in valued:
            name, is_joined, value = word.partition("=")
            if not is_joined and not rest:
                raise Usage(f"{name} wants a word behind it")
            put_option(options, name, value if is_joined else rest.pop(0))
        elif word.startswith("-") and word != "-":
            raise Usage(f"there is no option {word}")
        else:
            found.append(word)
    if len(found) != len(names) or "" in found or "" in options.values():
        raise Usage("wanted are " + ", ".join(names))
    in_json = "--json" in options
    return found, options


def put_option(options, name, value):
    """An option that is given twice may mean two things, and is none."""
    if name in options:
        raise Usage(f"{name} is given twice")
    options[name] = value


def number_in(word, what, least=0, most=2 ** 64 - 1):
    """The whole number that a word is."""
    if not re.fullmatch("-?[0-9]{1,20}", word) or not least <= int(word) <= most:
        raise Usage(f"{what} is a whole number from {least} to {most}, and not {word}")
    return int(word)


# ---- Files that are read.

def opened(name):
    """A file to be read, which is no folder, and no recording that is purged by half."""
    if os.path.exists(os.path.realpath(name) + JOURNAL):
        raise Fail(f"a purge of {name} was cut off, and it is no recording before that is ended: call ./bench purge with its sheet again")
    try:
        file = open(name, "rb", buffering=0)
    except OSError as error:
        raise Fail(f"{name} can not be read: {error.strerror}")
    return file


def filled(file, size):
    """The next bytes of a file, fewer than asked for only at its end."""
    parts = []
    while size > 0:
        try:
            part = file.read(size)
        except OSError as error:
            raise Fail(f"{file.name} can not be read: {error.strerror}")
        if not part:
            break
        parts.append(part)
        size -= len(part)
    return b"".join(parts)


def taken(name, most=WINDOW):
    """All of a file, or one byte above the most that its reader takes, which that reader then refuses as too long."""
    with opened(name) as file:
        return filled(file, most + 1)


# ---- Files that are written.

class Whole:
    """A file that gets its name once it is whole, and no other file ever bears that name: it is written beside its place, synced, and
    then named. What stands there is kept without `force`, and an input is kept in any case. The folder is held open, so that a link that
    is put in its way meanwhile leads nowhere else; a link as the name itself is followed once, at the start."""

    def __init__(self, name, force=False, inputs=()):
        self.name, self.force = name, force
        if name.endswith("/"):
            raise Fail(f"{name} is the name of a folder")
        place = os.path.realpath(name)
        self.base = os.path.basename(place)
        self.check(place, inputs)
        try:
            self.folder = os.open(os.path.dirname(place), os.O_RDONLY | os.O_DIRECTORY)
        except OSError:
            raise Fail(f"{name} can not be written: its folder is not there")
        self.beside = f".bench.{os.urandom(8).hex()}"
        try:
            number = os.open(self.beside, os.O_RDWR | os.O_CREAT | os.O_EXCL | os.O_NOFOLLOW, 0o600, dir_fd=self.folder)
        except OSError as error:
            os.close(self.folder)
            raise Fail(f"no file can be made beside {name}: {error.strerror}")
        self.file, self.is_named = open(number, "w+b", buffering=0), False

    def check(self, place, inputs):
        """That a file may be put there."""
        if not os.path.exists(place):
            return
        there = os.stat(place)
        for file in inputs:
            if os.path.exists(file) and os.path.samestat(there, os.stat(file)):
                raise Fail(f"{self.name} and {file} are one file, which is kept")
        if not stat.S_ISREG(there.st_mode):
            raise Fail(f"{self.name} is no regular file")
        if not self.force:
            raise Fail(f"{self.name} exists, and is kept; --force overwrites it")

    def write(self, data):
        left = memoryview(data)
        try:
            while left:
                left = left[self.file.write(left):]
        except OSError as error:
            raise Fail(f"{self.name} can not be written whole: {error.strerror}")

    def keep(self):
        """Gives the file its name. A link is made where nothing may be overwritten, since that fails where there is a file."""
        mask = os.umask(0)
        os.umask(mask)
        try:
            os.fchmod(self.file.fileno(), 0o666 & ~mask)
            os.fsync(self.file.fileno())
            if self.force:
                os.replace(self.beside, self.base, src_dir_fd=self.folder, dst_dir_fd=self.folder)
            else:
                self.link()
            self.is_named = True
            os.fsync(self.folder)
        except FileExistsError:
            raise Fail(f"{self.name} exists by now, and is kept; --force overwrites it")
        except OSError as error:
            raise Fail(f"{self.name} can not be written: {error.strerror}")

    def link(self):
        """A file system without links has no way that is safe from another writer; there the name is looked at once more."""
        try:
            os.link(self.beside, self.base, src_dir_fd=self.folder, dst_dir_fd=self.folder, follow_symlinks=False)
        except FileExistsError:
            raise
        except OSError:
            if self.base in os.listdir(self.folder):
                raise FileExistsError
            os.rename(self.beside, self.base, src_dir_fd=self.folder, dst_dir_fd=self.folder)

    def undo(self):
        """Takes the name away again, where nothing was overwritten by it."""
        if self.is_named and not self.force:
            os.unlink(self.base, dir_fd=self.folder)
            os.fsync(self.folder)

    def close(self):
        """Takes away what was written, unless it has been named."""
        self.file.close()
        try:
            os.unlink(self.beside, dir_fd=self.folder)
        except FileNotFoundError:
            pass
        os.close(self.folder)

    def __enter__(self):
        return self

    def __exit__(self, kind, *_):
        try:
            if kind is None:
                self.keep()
        finally:
            self.close()


class Together:
    """Files that get their names one behind the other, once all of them are whole; where one can not be named, none is."""

    def __init__(self, force=False, inputs=()):
        self.force, self.inputs, self.files, self.places = force, inputs, [], set()

    def add(self, name):
        place = os.path.realpath(name)
        if place in self.places:
            raise Fail(f"{name} is named twice")
        self.places.add(place)
        self.files.append(Whole(name, self.force, self.inputs))
        return self.files[-1]

    def __enter__(self):
        return self

    def __exit__(self, kind, *_):
        try:
            for file in self.files if kind is None else []:
                file.keep()
        except BaseException:
            for file in self.files:
                file.undo()
            raise
        finally:
            for file in self.files:
                file.close()


def put_whole(name, data, force=False, inputs=()):
    """A file with these bytes, or none."""
    with Whole(name, force, inputs) as file:
        file.write(data.encode() if isinstance(data, str) else data)


# ---- The exports.

@functools.lru_cache(maxsize=None)
def export(name):
    return library.export("hibernaxo_" + name)


def given(data, start=0, end=None):
    """A part of bytes, or of a bytearray that is written, as an export takes it: a pointer, and how many bytes. The bytes have to live
    as long as the call. A part of no bytes has a pointer too."""
    end = len(data) if end is None else end
    if isinstance(data, bytearray):
        lent = (ctypes.c_char * len(data)).from_buffer(data) if data else ctypes.create_string_buffer(1)
        address = ctypes.addressof(lent)
    else:
        address = ctypes.cast(ctypes.c_char_p(data), ctypes.c_void_p).value
    return ctypes.c_void_p(address + start), ctypes.c_size_t(end - start)


def asked(name, count, *arguments):
    """Calls an export that stores `count` values: its refusal number and its values. Arguments are bytes, a bytearray, a part by `given`,
    or a number or an array of ctypes."""
    flat = []
    for argument in arguments:
        if isinstance(argument, (bytes, bytearray)):
            flat += given(argument)
        elif isinstance(argument, tuple):
            flat += argument
        else:
            flat.append(argument)
    values = (ctypes.c_uint64 * count)()
    function = export(name)
    function.restype = ctypes.c_uint32
    return function(*flat, values), values


def answered(name, count, *arguments):
    """The values of an export that refuses nothing here, or Refused."""
    number, values = asked(name, count, *arguments)
    if number:
        raise Refused(number, values[0])
    return values


def written_by(name, count, *arguments):
    """What an export writes into a buffer of as many bytes as it asks for, and its values; or Refused."""
    number, values = asked(name, count, *arguments, bytearray())
    buffer = bytearray(values[0] if number == ROOM else 0)
    if number == ROOM:
        number, values = asked(name, count, *arguments, buffer)
    if number:
        raise Refused(number, values[0])
    return bytes(buffer), values


def put_answer(name, data, options, inputs, pairs, why):
    """What an export wrote, as a file, and what it told. Where it wrote nothing there is no file, unless an empty one is allowed."""
    is_wanted = bool(data) or "--allow-empty" in options
    if is_wanted:
        put_whole(name, data, "--force" in options, inputs)
    else:
        say(f"{why}, so {name} is not written")
    tell(pairs)
    return DONE if is_wanted else NOTHING


# ---- A recording of any length.

def handed_over(window, goes_on):
    """How many bytes of a window of a recording are whole messages that pass, behind which the next window begins. Where the recording
    goes on behind the window, its last message may be cut by the window's end. Refused: the place is counted in the window."""
    number, values = asked("check", 3, window)
    if number == 0:
        return len(window)
    if goes_on and number in (SHORT, CUT):
        if values[0] > 0:
            return values[0]
        number = LARGE if len(window) == WINDOW else number
    raise Refused(number, values[0])


class Recording:
    """A recording that is read. A regular file has any length and can be gone over more than once; what is none is one input, as for
    ./run, and held in memory."""

    def __init__(self, name):
        self.name, self.file, self.held = name, opened(name), None
        if not stat.S_ISREG(os.fstat(self.file.fileno()).st_mode):
            self.held = filled(self.file, WINDOW + 1)
            if len(self.held) > WINDOW:
                raise Refused(LARGE, WINDOW, name)

    def part(self, place, size):
        """The bytes from a place on, fewer than asked for only at the end."""
        if self.held is not None:
            return self.held[place:place + size]
        self.file.seek(place)
        return filled(self.file, size)

    def windows(self, place=0):
        """From a place on at which a message begins: places in the recording, and the whole messages from there on that were handed over, at
        most 65,536 bytes at a time; at the first bad message Refused, its place counted in the recording, with the window that has it. Where
        it ends is found once, so that what is appended meanwhile is not seen; `is_one` tells with each window whether that is all of it."""
        goes_on = False
        while True:
            window = self.part(place, WINDOW + 1)
            if goes_on and not window:
                raise Fail(f"{self.name} was cut while it was read")
            goes_on, window = len(window) > WINDOW, window[:WINDOW]
            self.is_one = place == 0 and not goes_on
            try:
                used = handed_over(window, goes_on)
            except Refused as refused:
                raise Refused(refused.number, place + refused.place, self.name, (place, window))
            if window:
                yield place, window[:used]
            if not goes_on:
                return
            place += used
