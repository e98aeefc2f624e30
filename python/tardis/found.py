"""Where the proved library and player of events are, and where the second program is."""
import ctypes
import os
import shutil
import sys
import warnings
from pathlib import Path

from tardis import version

TOP = Path(__file__).resolve().parents[2]  # of a checkout


def outside() -> int:
    """How many calls up the caller of the package is, as warnings count."""
    frame, level = sys._getframe(1), 1
    while frame.f_back and Path(frame.f_code.co_filename).parent == Path(__file__).parent:
        frame, level = frame.f_back, level + 1
    return level


def named_by(variable: str) -> str | None:
    """The file that a variable of the environment names, which must be there; None if it is set and empty."""
    name = os.environ[variable]
    if name and not Path(name).exists():
        raise FileNotFoundError(f"{variable} names {name}, which isn't there")
    return os.path.abspath(name) if name else None  # a name without a slash would be looked for elsewhere


def first(*paths: str | Path | None) -> str | None:
    """The first of the files that is there."""
    return next((str(path) for path in paths if path and Path(path).exists()), None)


def library() -> str | None:
    """The shared library: TARDIS_LIBRARY, or the one that the loader finds by the name of its minor version."""
    if "TARDIS_LIBRARY" in os.environ:
        return named_by("TARDIS_LIBRARY")
    name = f"libtardis.so.{version.VERSION.rpartition('.')[0]}"
    try:
        ctypes.CDLL(name)  # ctypes.util.find_library would ask ld and objdump, which needn't be there
    except OSError:
        return None
    return name


def player() -> str | None:
    """The proved player of events: TARDIS_PLAYER, the checkout's, or the one on the path."""
    if "TARDIS_PLAYER" in os.environ:
        return named_by("TARDIS_PLAYER")
    return first(TOP / "crates/play_events/out/play_events") or shutil.which("tardis-play-events")


def second(script: str, lacks: str) -> list[str]:
    """The command of a script of the second program, which answers in place of what the machine lacks."""
    path = first(TOP / "reference" / script)
    if path is None:
        raise FileNotFoundError(f"{lacks} isn't built, and there is no checkout with the second program")
    warnings.warn(f"{lacks} isn't built: the second program answers, which isn't proved", stacklevel=outside())
    return [sys.executable, path]
