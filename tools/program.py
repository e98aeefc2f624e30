"""The program, as the scripts of this folder call it: what TARDIS names, or else the one that ./tardis built, or else
the second program (reference/oracle.py), which answers the same in Python, if slower. Each failure is one line on
standard error.
"""
import argparse
import os
import re
import subprocess
import sys
from functools import lru_cache
from pathlib import Path

TOP = Path(__file__).resolve().parent.parent
sys.path.insert(0, str(TOP))
from reference.given import KEPT, Bad, contents  # noqa: E402

BUILT = TOP / "crates/tardis/out/tardis"
UNPROVED = "checked by reference/oracle.py (not proved: ./tardis isn't built)"


def program():
    return os.environ.get("TARDIS") or str(BUILT if os.access(BUILT, os.X_OK) else TOP / "reference/oracle.py")


def checked_by():
    """Who answers `check`, in words: only what the program says is proved."""
    return UNPROVED if Path(program()).name == "oracle.py" else "proved by tardis check"


def fail(said):
    """Ends the script with this line, and status 2."""
    print(f"{Path(sys.argv[0]).name}: {said}", file=sys.stderr)
    sys.exit(2)


def number(least, greatest):
    """What reads a decimal number of this range from a command line."""
    def read(text):
        if not re.fullmatch("[0-9]{1,20}", text) or not least <= int(text) <= greatest:
            raise argparse.ArgumentTypeError(f"{text} isn't a number from {least} to {greatest}")
        return int(text)
    return read


def run(*words):
    """What the program prints with these words. If that is nothing, or not all, `Refused` has the reason."""
    try:
        ran = subprocess.run([program(), *(opened(str(word)) for word in words)], capture_output=True,
                             encoding="utf-8", errors="replace", stdin=subprocess.DEVNULL)
    except OSError as error:
        fail(f"{program()}: {error.strerror}")
    if ran.returncode not in (0, 1) or ran.returncode and not ran.stdout:
        said = ran.stderr.strip().split("\n")[0].removeprefix("tardis: ").removeprefix("oracle.py: ")
        raise Refused(said or f"{program()} ended with status {ran.returncode}")
    return ran.stdout


def opened(word):
    """A word as the program gets it: in place of a pipe that was read, a file that has what came."""
    return copied(word) if word in KEPT else word


@lru_cache(maxsize=None)
def copied(path):
    file = os.memfd_create("kept")
    with open(file, "wb", closefd=False) as copy:
        copy.write(KEPT[path])
    return f"/proc/{os.getpid()}/fd/{file}"


class Refused(Exception):
    """The program printed nothing, or was ended; the text is what standard error says."""


def text_of(path):
    """The bytes of a file."""
    try:
        return contents(path)
    except Bad as cause:
        fail(cause)
