#!/usr/bin/env python3
"""Tries edits that the prover must refuse: tests/refused.py [--wait] [--anew] [CRATE..]

An edit is a file crates/NAME/refused/*.edit with the lines `file:`, `old:` and `new:`, and `fn:`, the function whose
proof must fail. Each old text stands once in the file. The edits of a crate that lie in different functions are tried
in one check of these functions and of those that they call: a proof takes nothing but contracts from other functions.
Each edit must fail for itself. Where the check says only that a function calls one that isn't proved, which another
edit may have caused, that edit is tried once more, without those that it may rest on.
The check begins with the libraries that maintain/build.py has built. With --wait, a crate waits until an `rt ci` that
began at the same time has built those below it, or has ended, which SIGUSR1 says. What was refused is kept in
~/.cache/tardis-refused by the checksums of all that it depends on, and isn't tried again but with --anew.
"""
import contextlib
import hashlib
import os
import re
import signal
import sys
import tempfile
import threading
import time
from concurrent.futures import ThreadPoolExecutor
from pathlib import Path

TOP = Path(__file__).resolve().parent.parent
sys.path.insert(0, str(TOP))
from maintain import kit as own_kit  # noqa: E402


KEPT = Path(os.path.expanduser("~/.cache/tardis-refused"))
CALLS = (("cuts_libraries = False", "def stamp(self):", "def words(self, flags"),
         ("KIT = ", "def handles_of(root):", "def checked(crate, texts, flags, kept):"))
RESTS = re.compile(r"it (?:calls|passes) .*not proved")


class Said:
    """What a check says of each function: that it is proved, or why it isn't."""

    def __init__(self, text):
        self.text, self.functions = text, dict(re.findall(r"^fn (\S+): (.*)$", text, re.M))

    def reasons(self, function):
        """Why a function isn't proved: what it lacks itself, and the unproved ones that it calls."""
        why = re.sub(r"^(?:not proved|no proof)[:;]? ?", "", self.functions[function])
        parts = [part for part in why.split("; ") if part]
        rests = [name for part in parts if RESTS.match(part) for name in re.findall("`([^`]*)`", part)]
        return [part for part in parts if not RESTS.match(part)], rests

    def roots(self, function, seen):
        """The functions that lack something themselves among those that a function's proof rests on."""
        if function in seen or self.functions.get(function, "proved").startswith("proved"):
            return set()
        seen.add(function)
        own, rests = self.reasons(function)
        return {function} if own or not rests else set().union(*(self.roots(name, seen) for name in rests))

    def is_refused(self, function, others):
        """Whether it isn't proved for a reason of its own, not for that of one of the others or of a closure there."""
        def is_of(root, other):
            within = root.split("::fn::")[1:]
            return root == other or bool(within) and other.rpartition("::")[2] in within[0].split("::")

        if not re.match("not proved|no proof", self.functions.get(function, "")):
            return False
        roots = self.roots(function, set())
        rest = {root for root in roots for other in others if other != function and is_of(root, other)}
        return function in roots or bool(roots - rest)

    def is_proved(self, function):
        return self.functions.get(function, "").startswith("proved")


class Edit:
    """An edit as its file has it."""

    def __init__(self, path):
        self.text, self.name = path.read_text(), path.relative_to(TOP / "crates")
        self.file, self.function = (re.search(rf"^{word}: (.*)$", self.text, re.M)[1] for word in ("file", "fn"))
        self.pairs = re.findall(r"^old: (.*)\nnew: (.*)$", self.text, re.M)

    def applied(self, text):
        """The text with this edit, None if an old text doesn't stand there once."""
        for old, new in self.pairs:
            if text.count(old) != 1:
                return None
            text = text.replace(old, new)
        return text


def groups(folder, edits):
    """The edits by checks: those of a check lie in different functions. Each with the texts that they make."""
    left = edits
    while left:
        texts, taken = {}, {}
        for edit in left:
            text = texts.get(edit.file) or (folder / edit.file).read_text()
            made = None if edit.function in taken else edit.applied(text)
            if made is not None:
                texts[edit.file], taken[edit.function] = made, edit
        if not taken:
            raise ValueError(f"{left[0].name}: its old text doesn't stand once in {left[0].file}")
        yield taken, texts
        left = [edit for edit in left if edit not in taken.values()]


def faults(kit, crate, taken, texts, room):
    """What is wrong with a check of edits, which leaves in the room what it proved: nothing if all are refused. And
    those that aren't proved, but only for what they call."""
    flags = ["--jobs", "1", *(word for function in taken for word in ("--only", function))]
    ran = kit["checked"](crate, texts, flags, room)
    if ran.returncode not in (0, 1) or not re.search(r"^only=\d+ proved=\d+$", ran.stdout, re.M):
        return [f"{crate.name}: not tried, the check of edits ended with status {ran.returncode}:\n"
                f"{ran.stdout[-2000:]}"], []
    said, wrong, unsure = Said(ran.stdout), [], []
    names = {function: f"{crate.name}::{function}" for function in taken}
    for function, edit in taken.items():
        if said.is_refused(names[function], names.values()):
            continue
        if said.is_proved(names[function]) or len(taken) == 1:
            wrong.append(f"{edit.name}: not refused: {function} is proved with it")
        else:
            unsure.append(edit)
    return wrong, unsure


def tried(kit, crate, is_anew):
    """Tries a crate's edits, and gives what is wrong with them."""
    folder = Path(crate.folder)
    left = [Edit(path) for path in sorted(folder.glob("refused/*.edit"))]
    kept = KEPT / hashlib.sha256(repr([crate.stamp(), *(edit.text for edit in left)]).encode()).hexdigest()
    if os.path.exists(kept) and not is_anew:
        return []
    found = []
    try:
        with tempfile.TemporaryDirectory() as room:
            while left:
                unsure = []
                for taken, texts in groups(folder, left):
                    wrong, more = faults(kit, crate, taken, texts, room)
                    found, unsure = found + wrong, unsure + more
                left = unsure if len(unsure) < len(left) else left[:1]
    except ValueError as error:
        return [str(error)]
    if not found:
        with contextlib.suppress(OSError):
            KEPT.mkdir(parents=True, exist_ok=True)
            kept.touch()
    return found


class Builder:
    """An `rt ci` that runs at the same time. It leaves no stamp on a library that it builds, and keeps those that an
    earlier one built of the same files."""

    def __init__(self):
        self.begun, self.has_ended = time.time(), False
        signal.signal(signal.SIGUSR1, self.end)

    def end(self, *_):
        self.has_ended = True

    def has_built(self, low):
        return self.has_ended or self.begun < os.stat(low.rlib).st_ctime < time.time() - 5


def is_there(low, builder):
    """Whether a library is built: by maintain/build.py, or by the `rt ci` that runs at the same time."""
    if builder is None or not os.path.isfile(f"{low.rlib}/format"):
        return low.is_built()
    return builder.has_built(low)


def all_tried(kit, crates, is_anew, builder):
    """Tries the edits of crates, each once those below it are built, half as many at a time as there are processors."""
    left, found, lock = list(crates), [], threading.Lock()

    def work():
        while True:
            with lock:
                has_ended = builder is None or builder.has_ended
                ready = next((crate for crate in left if all(is_there(low, builder) for low in crate.below())), None)
                if ready:
                    left.remove(ready)
                elif not left:
                    return
            if ready:
                found.extend(tried(kit, ready, is_anew))
            elif not has_ended:
                time.sleep(5)
            else:
                sys.exit(f"refused.py: a crate below {left[0].name} isn't built")

    count = max(1, len(os.sched_getaffinity(0)) // 2)
    with ThreadPoolExecutor(count) as pool:
        for each in [pool.submit(work) for _ in range(count)]:
            each.result()
    return found


def main(words):
    if words[:1] in (["-h"], ["--help"]):
        sys.exit(print(__doc__))
    kit = own_kit.loaded(CALLS) or sys.exit("refused.py: this kit lacks calls that the script takes")
    kit["rtlib"].Crate = kit["Crate"]
    kit["Crate"].cuts_libraries, kit["Crate"].allowed = True, kit["handles_of"](str(TOP))
    kit["rtlib"].guarded()
    names = [word for word in words if not word.startswith("--")]
    names = names or sorted({path.parent.parent.name for path in TOP.glob("crates/*/refused/*.edit")})
    seen = {}
    crates = [kit["Crate"](f"{TOP}/crates/{name}", str(TOP), seen) for name in names]
    found = all_tried(kit, crates, "--anew" in words, Builder() if "--wait" in words else None)
    for fault in found:
        print(fault)
    sys.exit(len(found) > 0)


if __name__ == "__main__":
    main(sys.argv[1:])
