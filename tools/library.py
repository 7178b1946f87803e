"""The exports of target/native for the tools that call them."""
import ctypes
import os
import subprocess

ROOT = os.path.dirname(os.path.dirname(os.path.realpath(__file__)))
LIBRARY = ROOT + "/target/native/libhibernaxo.so"


class Unmade(Exception):
    """The library is missing, or has no such export, and could not be made."""


def export(name):
    """An export; ./native makes the library where it is missing, or is older than the export."""
    for made in (False, True):
        try:
            return getattr(ctypes.CDLL(LIBRARY), name)
        except (OSError, AttributeError):
            if made or subprocess.run([ROOT + "/native"], stdin=subprocess.DEVNULL, stdout=2).returncode != 0:
                raise Unmade
