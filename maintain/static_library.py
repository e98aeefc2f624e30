#!/usr/bin/env python3
"""Builds the static library of crates/tardis_c over what rt ci kept of the crates below it: maintain/static_library.py

rt ci proves a static library and builds nothing of it. A later kit keeps what it built of the crates below on the
machine, by the checksums of all that went into it; an earlier one leaves it in the crates' folders. This script takes
that, in a copy of the crates. So it proves no crate below again, and proves this one once more as it builds it. The
library goes to crates/tardis_c/out.

The status is 0 if it is built, 1 if it isn't proved, and 3 if nothing was tried: then standard error says in one line
what is missing, of the kit or of what it kept.
"""
import os
import shutil
import subprocess
import sys
import tempfile
from pathlib import Path

sys.path.insert(0, str(Path(__file__).resolve().parent.parent))
from maintain.build import crates as crates_below, needed  # noqa: E402
from maintain.kit import PROVES, link, loaded  # noqa: E402
from tools.program import TOP  # noqa: E402


NAME = "tardis_c"
LOOKS = (("def words(self, flags", "cuts_libraries", "def guarded():"),  # what is taken of the kit, beside kit.py
         ("def copy_crates(root, to)", "def crates_of(root)", "def handles_of(root)", "def prove(self, *commands)",
          "class Kept", "def give(self, crate, tests, key)", "def key(self, crate)", "def is_built(self, crate)"))


def skip(why):
    print(f"static_library.py: {why}", file=sys.stderr)
    return 3


def built(kit, crates):
    """Builds the library in a copy of the crates, over what is kept of those below."""
    crate = next(each for each in crates if each.name == NAME)
    kept = kit["Kept"](crates)
    for low in crate.below():
        if not kept.give(low, False, kept.key(low)):
            return skip(f"rt ci has kept nothing of crates/{low.name} as it is")
        kept.is_built(low)
    os.makedirs(f"{crate.folder}/out")
    words = [*crate.words(["--jobs", "2"], keeps=False), "--toolchain", f"{kit['KIT']}/toolchain", "--backend", "llvm"]
    return crate.prove(["build", *words, "-o", f"out/lib{NAME}.a"])


def taken(built_archive):
    """Puts the library into the crate's folder."""
    out = TOP / "crates" / NAME / "out"
    out.mkdir(exist_ok=True)
    shutil.move(built_archive, out / f"lib{NAME}.a")
    return 0


def built_over_kept(kit, folder):
    """Builds the library over what a later kit keeps."""
    kit["rtlib"].guarded()  # its first call wants the main thread
    top = f"{folder}/crates"
    kit["copy_crates"](str(TOP), top)
    os.mkdir(f"{top}/.git")  # by that the kit knows the top of a repository
    os.chdir(top)
    kit["Crate"].allowed, kit["Crate"].cuts_libraries = kit["handles_of"](top), True
    status = built(kit, kit["crates_of"](top))
    os.chdir(TOP)
    return status or taken(f"{top}/crates/{NAME}/out/lib{NAME}.a")


def is_newer(library, crate):
    """Whether a library was built after the last edit of its crate."""
    return library.exists() and all(library.stat().st_mtime >= path.stat().st_mtime
                                    for part in ("src", "specs", "proofs") for path in (crate / part).rglob("*"))


def built_over_left(kit, folder):
    """Builds the library over what rt ci of an earlier kit left in the crates' folders."""
    old = [crate.name for crate in (TOP / "crates").iterdir() if (crate / "out/rlib").is_dir()
           and not is_newer(crate / "out/rlib" / f"{crate.name}.rlib", crate)]
    if old:
        return skip(f"crates/{old[0]} was edited after rt ci had built it")
    for name in ("crates.txt", "HANDLES"):
        shutil.copy2(TOP / name, folder)
    shutil.copytree(TOP / "crates", f"{folder}/crates", ignore=shutil.ignore_patterns("out"))
    os.chdir(f"{folder}/crates/{NAME}")
    link(kit, str(TOP))
    for low in needed(crates_below(), NAME)[:-1]:
        if not Path(folder, "crates", low, "out/rlib/stamp").exists():
            return skip(f"rt ci has left nothing of crates/{low} as it is")
    status = subprocess.run([sys.executable, TOP / "maintain/kit.py", "prove", "--jobs", "2"], check=False).returncode
    os.chdir(TOP)
    return 1 if status else taken(f"{folder}/crates/{NAME}/out/lib{NAME}.a")


def main():
    for looks, build in ((LOOKS, built_over_kept), (PROVES, built_over_left)):
        kit = loaded(looks)
        if kit is not None:
            with tempfile.TemporaryDirectory(prefix="static-") as folder:
                return build(kit, folder)
    return skip("the kit isn't the one that this was written for")


if __name__ == "__main__":
    sys.exit(print(__doc__) if sys.argv[1:] else main())
