#!/usr/bin/env python3
"""The kit's command, in a fraction of the time: maintain/kit.py WORDS.., as rt WORDS..

The kit's command sums up a crate's files once for each path that leads to the crate in the graph of crates, some 69,000
below tardis: minutes for an upper crate, before anything is proved. This script does so once for each crate. It runs a
kit that doesn't have the calls meant as it is.

    maintain/kit.py prove [--jobs N]    proves and builds the crate of the current folder over those below it

does so from nothing, as `rt ci` does, if the crates below are built. Of a library it keeps what the crates above can
cite, and its code. These prove faster over that than over what `rt lib` keeps. Nothing is kept for the next check of
the same crate. A kit that doesn't have the calls meant can't do this.

    maintain/kit.py link TREE           takes the libraries that another clone has built, by `rt ci`, of the same files

so that a check here begins with the first crate that differs. Run it in the folder of any crate.
"""
import functools
import os
import runpy
import shutil
import sys
from pathlib import Path

LOOKS = ("def stamp(self):", "def below(self):"), ("rtlib = ", "def main(words):")  # what is taken of the kit
PROVES = (("cuts_libraries = False", "def lock(crates):", "def is_built(self):", "def words(self, flags"),
          ("KIT = ", "def handles_of(root):", "def ci(self, flags, tests):", "def compile_by(self, backend, words"))


def command():
    found = shutil.which("rt") or sys.exit("kit.py: the command 'rt' of the Rattle kit isn't on the path")
    return Path(found).resolve()


def loaded(*more):
    """What the kit's command defines, as it is run here; None of a kit whose library and command lack the words that
    are looked for: those meant here, and more."""
    library = command().parent / "rtlib.py"
    texts = [library.read_text(), command().read_text()] if library.exists() else ["", ""]
    if not all(word in text for looks in (LOOKS, *more) for text, wanted in zip(texts, looks) for word in wanted):
        return None
    kit = runpy.run_path(str(command()), run_name="kit")
    crate = kit["rtlib"].Crate
    stamp, below = map(functools.cache, (crate.stamp, crate.below))
    crate.stamp, crate.below = stamp, lambda each: list(below(each))
    return kit


def prove(kit, jobs):
    """Proves and builds the crate of the current folder over those below it; the status."""
    rtlib, folder = kit["rtlib"], os.getcwd()
    rtlib.Crate = kit["Crate"]
    root = rtlib.root_above(folder)
    rtlib.Crate.cuts_libraries, rtlib.Crate.allowed = True, kit["handles_of"](root)
    rtlib.guarded()
    crate = rtlib.Crate(folder, root, {})
    crate.held = rtlib.lock([crate])
    lacking = [each.name for each in crate.below() if not each.is_built()]
    if lacking:
        sys.exit(f"kit.py: {crate.name} stands on {lacking[0]}, which isn't built")
    flags, stamp, is_library = ["--jobs", jobs], crate.stamp(), not (crate.is_program or crate.is_static)
    if is_library and crate.is_built():
        return 0
    os.makedirs("out", exist_ok=True)
    if crate.is_static:
        made, archive = f"out/made.{os.getpid()}.a", f"out/lib{crate.name}.a"
        flags += ["--toolchain", f"{kit['KIT']}/toolchain", "--backend", "llvm", "-o", made]
        status = crate.prove(["build", *crate.words(flags, keeps=False)])
        return status or os.replace(made, archive) or 0
    by = crate.compile_by
    crate.compile_by = lambda backend, *words: by(backend, *words) if backend == "llvm" else 0  # the gate tries both
    status = crate.ci(flags, False)
    if is_library and status == 0 and stamp == rtlib.Crate(folder, root, {}).stamp():  # nothing was edited meanwhile
        Path("out/rlib/stamp").write_text(stamp)
    return status


def link_or_copy(source, target):
    """A second name of the file, or a copy where it lies on another device."""
    try:
        os.link(source, target)
    except OSError:
        shutil.copy2(source, target)


def link(kit, tree):
    """Takes the libraries of another clone whose crates have the same files here, as all crates below them have."""
    crate, here = kit["rtlib"].Crate, kit["rtlib"].root_above(os.getcwd())
    for name in sorted(os.listdir(f"{here}/crates")):
        theirs, mine = f"{tree}/crates/{name}", f"{here}/crates/{name}"
        if not os.path.isdir(f"{theirs}/out/rlib/{name}.rlib"):
            continue
        stamp = crate(mine, here, {}).stamp()
        if stamp == crate(theirs, tree, {}).stamp():
            shutil.rmtree(f"{mine}/out/rlib", ignore_errors=True)
            shutil.copytree(f"{theirs}/out/rlib", f"{mine}/out/rlib", copy_function=link_or_copy)
            Path(mine, "out/rlib/stamp").unlink(missing_ok=True)
            Path(mine, "out/rlib/stamp").write_text(stamp)


def main(words):
    if words[:1] == ["prove"]:
        if words[1:] and (len(words) != 3 or words[1] != "--jobs" or not words[2].isdigit()):
            sys.exit("kit.py: prove takes --jobs N alone")
        kit = loaded(PROVES) or sys.exit("kit.py: this kit lacks calls that prove takes: use 'rt lib' and 'rt run'")
        sys.exit(prove(kit, words[2] if words[1:] else "1"))
    kit = loaded()
    if words[:1] == ["link"]:
        if len(words) != 2 or kit is None:
            sys.exit("kit.py: link takes a folder, and a kit with the calls meant")
        return link(kit, os.path.abspath(words[1]))
    if kit is None:
        os.execv(command(), ["rt", *words])
    sys.argv = [str(command()), *words]
    sys.exit(kit["main"](words))


if __name__ == "__main__":
    main(sys.argv[1:])
