"""tests/long_changing.py ROOM RECORDING SHEET: ./run over a long recording that changes while it is copied. Called by tests/long.

The program that copies is stopped where it shall be, which is seen by its place in the recording and by what it has written; then the recording is
changed, and the program goes on. Where it has gone too far before it stands still, it is let go, and the next run is tried.
"""
import glob
import os
import shutil
import signal
import subprocess
import sys

HERE = os.path.dirname(os.path.dirname(os.path.realpath(__file__)))
CHANGED = "the recording changed while it was copied; the copy is not whole\nrun: there is no answer, or it could not be written whole\n"
EXAMPLE = os.path.getsize(HERE + "/examples/recording")
TRIES = 50


class Program:
    """A process that has the recording open and writes into a file of a folder."""

    def __init__(self, process, place, out):
        self.process, self.place, self.out = process, place, out

    def stands(self):
        """Its place in the recording, and how many bytes it has written."""
        with open(self.place) as file:
            return int(file.readline().split()[1]), os.path.getsize(self.out)

    def stop(self):
        os.kill(self.process, signal.SIGSTOP)
        state = ""
        while state != "T":
            with open(f"/proc/{self.process}/stat") as file:
                state = file.read().rsplit(") ", 1)[1][0]

    def go_on(self):
        os.kill(self.process, signal.SIGCONT)


def find(folder, recording):
    for files in glob.glob("/proc/[0-9]*/fd"):
        try:
            if not os.readlink(files + "/1").startswith(folder + "/"):
                continue
            for name in os.listdir(files):
                if os.readlink(f"{files}/{name}") == recording:
                    return Program(int(files.split("/")[2]), f"{files}info/{name}", os.readlink(files + "/1"))
        except OSError:
            # The process has ended, or is not ours to see.
            continue
    return None


def stopped(run, folder, recording, where):
    """The program of a run, stopped where it shall be, or None."""
    size = os.path.getsize(recording)
    program = None
    while not program and run.poll() is None:
        program = find(folder, recording)
    try:
        while program and not where(size, *program.stands()):
            pass
        if program:
            program.stop()
            if where(size, *program.stands()):
                return program
            program.go_on()
    except OSError:
        # It has ended.
        pass
    return None


def first_pass(size, place, written):
    return size // 4 < place < size * 3 // 4 and written == 0


def second_pass(size, place, written):
    return place < size * 3 // 4 and written > 0


def lose_the_end(file, size):
    file.truncate(size - EXAMPLE)


def lose_what_is_read(file, size):
    file.truncate(size // 8 // EXAMPLE * EXAMPLE)


def spoil_the_end(file, size):
    """A message gets another version, for which its step is refused."""
    file.seek(size - EXAMPLE)
    file.write(b"\x20")


def spoil_the_start(file, _):
    file.write(b"\x20")


def changed(room, recording, words, where, change):
    """A run whose recording changes: its status, what it wrote and said, and what stands in the folder of COPY and of temporary files."""
    folder, changing = room + "/beside", room + "/changing"
    for _ in range(TRIES):
        shutil.rmtree(folder, ignore_errors=True)
        os.mkdir(folder)
        shutil.copy(recording, changing)
        if "--force" in words:
            with open(folder + "/copy", "w") as file:
                file.write("kept")
        command = [HERE + "/run"] + [{"RECORDING": changing, "COPY": folder + "/copy"}.get(word, word) for word in words]
        with subprocess.Popen(command, stdin=subprocess.DEVNULL, stdout=subprocess.PIPE, stderr=subprocess.PIPE, errors="replace",
                              env=os.environ | {"TMPDIR": folder}) as run:
            program = stopped(run, folder, changing, where)
            if program:
                try:
                    with open(changing, "r+b") as file:
                        change(file, os.path.getsize(changing))
                finally:
                    program.go_on()
            out, said = run.communicate()
        if program:
            left = {}
            for name in os.listdir(folder):
                with open(f"{folder}/{name}", errors="replace") as file:
                    left[name] = file.read(100)
            return run.returncode, out, said, left
    sys.exit(f"in {TRIES} runs the program could not be stopped where it shall be")


def main():
    room, recording, sheet = (os.path.realpath(name) for name in sys.argv[1:])
    for where, change in [(second_pass, lose_the_end), (second_pass, spoil_the_end), (first_pass, lose_what_is_read), (first_pass, spoil_the_start)]:
        for words, left in [(["RECORDING", sheet, "COPY"], {}), (["--force", "RECORDING", sheet, "COPY"], {"copy": "kept"}), (["RECORDING", sheet], {})]:
            got = changed(room, recording, words, where, change)
            if got != (2, "", CHANGED, left):
                sys.exit(f"{where.__name__}, {change.__name__}, {len(words)} words: {repr(got)[:600]}")


main()
