"""What the tests of ./bench share: files, calls of a verb, what they count, and the second program's answers."""
import functools
import importlib.machinery
import importlib.util
import os
import subprocess
import sys
import tempfile

HERE = os.path.dirname(os.path.dirname(os.path.realpath(__file__)))
RECORDING, SHEET = HERE + "/examples/recording", HERE + "/examples/sheet"
# The message M and the row R of document 01's numbers to check by.
M = bytes.fromhex("10000080 00000007 00000005 00000038 00000064 00000000 00000001 000D0000 00000000 AA112233 00000002 00105500 0000000A DEADBEEF")
R = bytes.fromhex("00000007 00000007 00000001 00000001 00000064 00000000 00000194 00000000")
failed = []
count = 0


def same(what, got, expected):
    global count
    count += 1
    if got != expected:
        failed.append(f"{what}: got {repr(got)[:600]}, expected {repr(expected)[:300]}")


def holds(what, truth, told=""):
    same(what + (f" ({str(told)[:500]})" if told and not truth else ""), bool(truth), True)


def read(path):
    with open(path, "rb") as file:
        return file.read()


def put(path, data):
    os.makedirs(os.path.dirname(path), exist_ok=True)
    with open(path, "wb") as file:
        file.write(data if isinstance(data, bytes) else data.encode())
    return path


def bench(*words, **more):
    """./bench as a user calls it: status, standard output, standard error."""
    more = {"stdin": subprocess.DEVNULL, "timeout": 300, "close_fds": False} | more
    run = subprocess.run([sys.executable, HERE + "/bench", *map(str, words)], stdout=subprocess.PIPE, stderr=subprocess.PIPE, **more)
    return run.returncode, run.stdout.decode(errors="replace"), run.stderr.decode(errors="replace")


@functools.lru_cache(maxsize=None)
def dispatcher():
    """./bench as a module."""
    loader = importlib.machinery.SourceFileLoader("dispatcher", HERE + "/bench")
    module = importlib.util.module_from_spec(importlib.util.spec_from_loader("dispatcher", loader))
    loader.exec_module(module)
    return module


def forked(*words):
    """The same as `bench` in a copy of this process, which need not be started: for many calls in a row."""
    module = dispatcher()
    with tempfile.TemporaryFile() as told, tempfile.TemporaryFile() as said:
        child = os.fork()
        if child == 0:
            os.dup2(os.open(os.devnull, os.O_RDONLY), 0)
            os.dup2(told.fileno(), 1)
            os.dup2(said.fileno(), 2)
            os._exit(module.common.guarded(module.main, list(map(str, words))))
        status = os.waitstatus_to_exitcode(os.waitpid(child, 0)[1])
        return status, *(os.pread(file.fileno(), 1 << 24, 0).decode(errors="replace") for file in (told, said))


def names_in(folder):
    """The names in a folder, those that begin with a point too."""
    return sorted(os.listdir(folder))


def pairs_of(text):
    """The `key value` lines of what a verb prints, in their order."""
    return [tuple(line.split(" ", 1)) for line in text.splitlines()]


def second(room, name):
    """Builds tests/NAME.rs over the second program; gives the path of what was built."""
    folder = HERE + "/target/second-alone"
    made, environment = f"{room}/{name}", os.environ | {"CARGO_TARGET_DIR": folder}
    cargo = ["cargo", "build", "--offline", "--quiet", "--release", "--no-default-features", "--lib", "--manifest-path", HERE + "/second/Cargo.toml"]
    subprocess.run(cargo, env=environment, check=True)
    subprocess.run(["rustc", "--edition", "2021", "-o", made, "--extern", f"second={folder}/release/libsecond.rlib",
                    "-L", f"dependency={folder}/release/deps", f"{HERE}/tests/{name}.rs"], check=True)
    return made
