"""Calls of programs that the gate's commands make, noted (tests/mutants.c) to be made again without the commands.

A call is its program's words, the texts of the files that these name, and what is on standard input. One by threads
isn't taken: what it answers may depend on more.
"""
import os
import resource
import shutil
import subprocess
from hashlib import sha256
from pathlib import Path

LIMITED = resource.RLIMIT_AS, resource.RLIMIT_FSIZE, resource.RLIMIT_DATA, resource.RLIMIT_NOFILE
THREADS = b"thread", b"workers"
PATIENCE = 300  # seconds by the clock, after which an answer counts as another one


def limits():
    """What limits a process, as tests/mutants.c says it."""
    return "".join(f"{resource.getrlimit(one)[0]} " for one in LIMITED)


def kept_text(texts, path):
    """Keeps a file's text in the folder, by its sum; the file is gone."""
    name = sha256(path.read_bytes()).hexdigest()[:24]
    shutil.move(path, texts / name)
    return name


def taken(notes, texts):
    """The calls that were noted, each once, and whether these are all. The notes are gone. A call is its program's
    name, its words, of which those that name a file are a pair of how they begin and a text's sum, and the sum of what
    is on standard input, or nothing."""
    found, is_all = {}, True
    for path in sorted(notes.glob("*.words")):
        program, *words = path.read_bytes().split(b"\0")[:-1]
        if any(odd in word for word in words for odd in THREADS):
            is_all = False
            continue
        row = []
        for number, word in enumerate(words, 1):
            file, start = path.with_suffix(f".{number}"), word.rpartition(b"=")[0] if word[:2] == b"--" else b""
            row.append([os.fsdecode(start + b"=" * (word[:2] == b"--")), kept_text(texts, file)] if file.exists()
                       else os.fsdecode(word))
        on_input = path.with_suffix(".input")
        call = os.path.basename(os.fsdecode(program)), row, kept_text(texts, on_input) if on_input.exists() else ""
        found[repr(call)] = call
    shutil.rmtree(notes)
    notes.mkdir()
    return list(found.values()), is_all


def answer(call, program, texts, folder, surroundings):
    """A sum of the call's status, output and standard error."""
    _, words, on_input = call
    words = [word if isinstance(word, str) else f"{word[0]}{texts / word[1]}" for word in words]
    with (open(texts / on_input if on_input else "/dev/null", "rb") as source, open(folder / "out", "w+b") as out,
          open(folder / "error", "w+b") as error):
        running = subprocess.Popen([program, *words], stdin=source, stdout=out, stderr=error, env=surroundings,
                                   cwd=folder)
        try:
            running.wait(PATIENCE)
        except subprocess.TimeoutExpired:
            running.kill()
            running.wait()
            return "none"
        said = sha256(f"{running.returncode} {os.fstat(out.fileno()).st_size} ".encode())
        for file in (out, error):
            file.seek(0)
            while piece := file.read(1 << 20):
                said.update(piece)
        return said.hexdigest()[:16]
