"""The journal of a purge on the disk: its heads and blocks, its names, and how it is made, found and removed. What it holds and why stands in
the head of tools/bench/purge.py.
"""
import hashlib
import json
import os
import stat

from bench.common import JOURNAL, WINDOW, Fail

BLOCK = 4096
# The blocks that 65,536 bytes from any place on can touch stand behind the two heads.
DATA_PLACE, DATA = 2 * BLOCK, WINDOW + BLOCK
SIZE = DATA_PLACE + DATA
FORM = b"hibernaxo purge 1\n"


def digest(data):
    return hashlib.sha256(data).hexdigest()


class Disk:
    """All that a purge does to a disk, call by call, in the file's folder. The tests put another in its place, which cuts the power."""

    def __init__(self, folder):
        self.folder = folder

    def create(self, name):
        return os.open(name, os.O_RDWR | os.O_CREAT | os.O_EXCL | os.O_NOFOLLOW, 0o600, dir_fd=self.folder)

    def write(self, file, data, place):
        left = memoryview(data)
        while left:
            count = os.pwrite(file, left, place)
            left, place = left[count:], place + count

    def sync(self, file):
        os.fsync(file)

    def shorten(self, file, size):
        os.ftruncate(file, size)

    def rename(self, old, new):
        os.rename(old, new, src_dir_fd=self.folder, dst_dir_fd=self.folder)

    def remove(self, name):
        os.unlink(name, dir_fd=self.folder)

    def sync_folder(self):
        os.fsync(self.folder)


def packed(head):
    """A head's block: the form, the SHA-256 of the text behind it, and the text, which is JSON."""
    text = json.dumps(head, sort_keys=True).encode()
    return (FORM + digest(text).encode() + b"\n" + text + b"\n").ljust(BLOCK, b"\0")


def unpacked(block):
    """The head of a block that is whole, or None."""
    said, _, text = block[len(FORM):].rstrip(b"\0").partition(b"\n")
    text = text[:-1]
    return json.loads(text) if block.startswith(FORM) and said == digest(text).encode() else None


class Journal:
    """The journal of the file with a name, in a disk's folder."""

    def __init__(self, disk, base):
        self.disk, self.number = disk, None
        self.name = base + JOURNAL
        self.made, self.over = self.name + "-new", self.name + "-over"

    # ---- Turns.

    def put(self, head, blocks):
        """The first step of a turn."""
        if blocks:
            self.disk.write(self.number, blocks, DATA_PLACE)
        self.disk.write(self.number, packed(head), head["turn"] % 2 * BLOCK)
        self.disk.sync(self.number)

    def heads(self):
        """The heads that are whole, the newest first."""
        found = [head for k in range(2) if (head := unpacked(os.pread(self.number, BLOCK, k * BLOCK)))]
        return sorted(found, key=lambda head: -head["turn"])

    def blocks(self, head):
        return os.pread(self.number, head["length"], DATA_PLACE)

    # ---- Names.

    def create(self, head, blocks):
        """Makes the journal with its first head, at its full size; it gets its name once it is on the disk."""
        self.number = self.disk.create(self.made)
        try:
            self.disk.write(self.number, packed(head).ljust(DATA_PLACE, b"\0") + blocks.ljust(DATA, b"\0"), 0)
            self.disk.sync(self.number)
        except OSError:
            self.disk.remove(self.made)
            raise
        self.disk.rename(self.made, self.name)
        self.disk.sync_folder()

    def retire(self):
        """The purge is over, so that the journal has another name, and goes."""
        self.disk.rename(self.name, self.over)
        self.disk.sync_folder()
        self.wipe(self.over)

    def find(self):
        """Whether there is a journal; it is opened then."""
        self.number = self.opened(self.name)
        if self.number is not None and os.fstat(self.number).st_size != SIZE:
            raise Fail(f"{self.name} is no journal of a purge, and is in the way of one")
        return self.number is not None

    def tidy(self):
        """Removes what a purge that was cut off left of its journal, before it began or when it was over; says whether one was over."""
        return [self.wipe(name) for name in (self.made, self.over)][1]

    def wipe(self, name):
        """Removes a journal, if it is there, and first overwrites what it held."""
        number = self.opened(name)
        if number is None:
            return False
        size = os.fstat(number).st_size
        if size > SIZE:
            raise Fail(f"{name} is no journal of a purge, and is in the way of one")
        if size:
            self.disk.write(number, bytes(size), 0)
            self.disk.sync(number)
        os.close(number)
        self.disk.remove(name)
        self.disk.sync_folder()
        return True

    def opened(self, name):
        try:
            number = os.open(name, os.O_RDWR | os.O_NOFOLLOW | os.O_NONBLOCK, dir_fd=self.disk.folder)
        except FileNotFoundError:
            return None
        except OSError as error:
            raise Fail(f"{name} can not be opened: {error.strerror}")
        if not stat.S_ISREG(os.fstat(number).st_mode):
            raise Fail(f"{name} is no regular file, and is in the way of a purge's journal")
        return number
