"""What the host itself refuses, without any shim: files that can't be read, outputs that can't be written, descriptors
that are closed, memory that is limited; for tests/refusals.py.
"""
import os
import re
import resource
import shutil
import signal
import subprocess
from pathlib import Path

from reference import oracle
from tests import refused_threads
from tests.ended_runs import told_of


TOP = Path(__file__).resolve().parent.parent
READ_FAILED = (4, b"", b"tardis: read failed\n")
WRITE_FAILED = b"tardis: write failed\n"
NO_MEMORY = (1, b"", b"tardis: no memory\n")
STEP = 65536
LONGEST_PATH = 4095  # bytes
ENDLESS = 2 ** 27  # the memory that a text without an end may take


def refused_hosts(tester, folder, commands):
    """Each command comes with what it prints."""
    os.chmod(folder, 0o755)
    before = tester.tried
    unreadable(tester, folder)
    odd_devices(tester, folder)
    print(f"host: {tester.tried - before} times a file without rights, a folder, a device, no file")
    before = tester.tried
    for words, usual in commands:
        at_long_paths(tester, folder, words, usual.encode())
    print(f"host: {tester.tried - before} times files with the longest paths")
    before = tester.tried
    for words, usual in commands:
        unwritable(tester, words)
        may_not_grow(tester, folder / "out", words, usual.encode())
        without_descriptors(tester, words, usual.encode())
    print(f"host: {tester.tried - before} times a full device, a closed pipe, a file that may not grow, no descriptor")
    before = tester.tried
    for words, usual in commands:
        with_little_memory(tester, words, usual.encode())
    print(f"host: {tester.tried - before} times with limited memory")
    before = tester.tried
    without_threads(tester, folder)
    print(f"host: {tester.tried - before} times without threads")
    runs_leave_no_machine(tester)


def ran(program, words, **how):
    got = subprocess.run([program, *map(str, words)], **{"stdout": subprocess.PIPE, "stderr": subprocess.PIPE} | how)
    return got.returncode, got.stdout, got.stderr


def as_nobody():
    if os.getuid() == 0:
        os.setgid(65534)
        os.setuid(65534)


def limit_data(size):
    resource.setrlimit(resource.RLIMIT_DATA, (size, size))


def with_bad_file(bad, some):
    """A command of each kind that reads the bad file, and for a check the other one, too."""
    return (["litmus", bad], ["trace", bad], ["trace", "--records", bad], ["trace", "--stream", "--records", bad],
            ["check", bad, some], ["check", some, bad])


def unreadable(tester, folder):
    program, closed, some, locked = (folder / name for name in ("tardis", "closed", "some", "locked"))
    shutil.copy(tester.program, program)
    some.touch()
    closed.touch()
    closed.chmod(0)
    locked.mkdir()
    (locked / "inside").touch()
    locked.chmod(0)
    (folder / "dangling").symlink_to("nowhere")
    (folder / "circle").symlink_to("circle")
    names = ("closed", ".", "none", "locked/inside", "dangling", "circle", "some/inside", "a" * 256, "a/" * 5000)
    for name in names:
        for words in with_bad_file(f"{folder}/{name}", some):
            got = ran(program, words, preexec_fn=as_nobody)
            tester.expect(got == READ_FAILED, f"{[str(word)[-40:] for word in words]}: {got}")
    locked.chmod(0o700)


def odd_devices(tester, folder):
    """A device whose reads fail (a process's own memory, at 0), one without an end, and one without a byte."""
    some = folder / "some"
    for words in with_bad_file("/proc/self/mem", some):
        got = ran(tester.program, words)
        tester.expect(got == READ_FAILED, f"{words}: {got}")
    for words in with_bad_file("/dev/zero", some):
        got = ran(tester.program, words, preexec_fn=lambda: limit_data(ENDLESS))
        fault = b"2 TooLarge" if words[0] == "litmus" else b"3 TooLong"
        tester.expect(got == (2, b"", b"tardis: line 1: " + fault + b"\n"), f"{words}: {got}")
    wanted = {"litmus": (2, b"", b"tardis: line 1: 14 CutShort\n"), "check": (0, b"legal\n", b"")}
    for words in with_bad_file("/dev/null", some):
        got = ran(tester.program, words)
        good = got == wanted[words[0]] if words[0] in wanted else (got[0], got[2]) == (0, b"")
        tester.expect(good, f"{words}: {got}")


def at_long_paths(tester, folder, words, usual):
    """Each file lies at the end of a path of 4,095 bytes, the longest that Linux takes."""
    deep = folder / "/".join(["d" * 255] * 15)
    deep.mkdir(parents=True, exist_ok=True)
    words = list(words)
    for at, word in enumerate(words):
        if os.path.exists(word):
            name = str(at).ljust(LONGEST_PATH - len(f"{deep}/"), "f")
            words[at] = shutil.copy(word, deep / name)
    got = ran(tester.program, words)
    tester.expect(got == (0, usual, b""), f"{words[0]} with long paths: {got[0]}, {got[2]}")


def unwritable(tester, words):
    reader, closed = os.pipe()
    os.close(reader)
    with open("/dev/full", "wb") as full, open(closed, "wb") as pipe:
        for out in (full, pipe):
            got = ran(tester.program, words, stdout=out)
            tester.expect((got[0], got[2]) == (4, WRITE_FAILED), f"{words} to {out.name}: {got}")
            # Standard error can't be written, either: the status alone tells.
            tester.expect(ran(tester.program, words, stdout=out, stderr=out)[0] == 4, f"{words}, all to {out.name}")


def may_not_grow(tester, file, words, usual):
    """Standard output is a file that may not grow past a number of bytes: just these are written."""
    sizes = [0, 1, 7, len(usual) // 2, len(usual) - 1]
    for size in [size for size in sizes if size < len(usual)]:
        def limited(size=size):
            signal.signal(signal.SIGXFSZ, signal.SIG_IGN)
            resource.setrlimit(resource.RLIMIT_FSIZE, (size, size))

        with open(file, "wb") as out:
            got = ran(tester.program, words, stdout=out, preexec_fn=limited, restore_signals=False)
        tester.expect((got[0], got[2], file.read_bytes()) == (4, WRITE_FAILED, usual[:size]),
                      f"{words} to a file of at most {size} bytes: {got}")


def without_descriptors(tester, words, usual):
    """A descriptor is closed: the next file that is opened gets its number. It is open for reads alone, so what would
    be written there isn't."""
    texts = [Path(word).read_bytes() for word in words if os.path.exists(word)]
    wanted = {0: (0, usual, b""), 1: (4, b"", WRITE_FAILED), 2: (0, usual, b"")}
    for number, answer in wanted.items():
        got = ran(tester.program, words, preexec_fn=lambda number=number: os.close(number))
        tester.expect(got == answer, f"{words} without descriptor {number}: {got}")
    got = ran(tester.program, ["trace", "/proc/self/mem"], preexec_fn=lambda: os.close(2))
    tester.expect(got == (4, b"", b""), f"a read that fails, without descriptor 2: {got}")
    tester.expect(texts == [Path(word).read_bytes() for word in words if os.path.exists(word)], f"{words}: as it was")


def cut_short(words, usual):
    """Whether a run that ended with a failed allocation may have this report. For many loads of one word, which one
    number counts, that is any beginning; for a short run, what the second program says."""
    if words[0] in ("check", "ends"):
        return lambda text: False
    many = re.search(r"^cores 1\nissued (\d+)$", usual, re.M)
    if not many:
        texts = set(told_of(words))
        return lambda text: text in texts

    def is_beginning(text):
        found = re.search(r"^completed (\d+)\nend memory$", text, re.M)
        told = usual.replace("all-done", "memory").replace(many.group(1), found.group(1)) if found else None
        return text == told and int(found.group(1)) < int(many.group(1))

    return is_beginning


def with_little_memory(tester, words, usual):
    """The host limits a process's memory. From what the program needs to begin, up to what it needs for all: the
    answer is the usual one, or there is no memory, or the run ended with a failed allocation."""
    whole, size, is_begun, may_be_told = (0, usual, b""), 0, False, cut_short(words, usual.decode())
    while True:
        size += STEP
        got = ran(tester.program, words, preexec_fn=lambda: limit_data(size))
        is_begun = is_begun or got in (whole, NO_MEMORY)
        is_cut = (got[0], got[2]) == (1, b"") and may_be_told(got[1].decode())
        if is_begun:
            tester.expect(got in (whole, NO_MEMORY) or is_cut, f"{words} with {size} bytes: {got}")
        if got == whole:
            return


def runs_leave_no_machine(tester):
    """A run gives its machine up before the next one opens: 2,000 runs take the memory of a few."""
    text = TOP / "examples" / "litmus" / "SB.litmus"
    for schedule in ("round", "seed", "threads"):
        words = ["litmus", "--schedule", schedule, "--runs", 2000, text]
        got = ran(tester.program, words, preexec_fn=lambda: limit_data(ENDLESS))
        good = got[0] == 0 and b"\nall-done 2000\n" in got[1] and got[2] == b""
        tester.expect(good, f"2,000 runs by {schedule} in {ENDLESS} bytes: {got[0]}, {got[2]}")


def without_threads(tester, folder):
    """The host starts no thread. The calling thread makes the runs of a batch. It also makes the turns of a run by
    threads: one worker's seats after the other's, so that the run ends at its limit."""
    text = folder / "SB.litmus"
    shutil.copy(TOP / "examples" / "litmus" / "SB.litmus", text)

    def limited():
        as_nobody()
        resource.setrlimit(resource.RLIMIT_NPROC, (0, 0))

    for workers in (2, 3, 16):
        words = ["litmus", "--schedule", "seed", "--runs", 20, text]
        usual = oracle.run(oracle.words().parse_args([*map(str, words)]))[0].encode()
        got = ran(folder / "tardis", [*words[:1], "--workers", workers, *words[1:]], preexec_fn=limited)
        tester.expect(got == (0, usual, b""), f"a batch by {workers} workers without threads: {got}")
    words = ["litmus", "--schedule", "threads", "--limit", 1000, text]
    texts = {text.encode() for text in refused_threads.texts_by_one_thread(words)}
    got = ran(folder / "tardis", [*words[:1], "--workers", 2, *words[1:]], preexec_fn=limited)
    tester.expect(got[0] == 1 and got[1] in texts and got[2] == b"", f"a run by two workers without threads: {got}")
