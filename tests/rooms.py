"""Copies of what is committed, in which the gate's commands try changes, and a file of what was tried."""
import contextlib
import json
import os
import re
import shutil
import signal
import subprocess
import tempfile
import threading
import time
from collections import Counter
from pathlib import Path

TOP = Path(__file__).resolve().parent.parent
CRATES = {"tardis": "tardis", "events": "play_events", "seats": "play_seats"}  # by what .ci/run calls the programs
# What the gate's scripts print of a difference as soon as there is one: each fails at its end, then.
DIFFERS = re.compile(rb"^(?:wrong: .*|.*: another (?:report|error text)|.*: status \d+, wanted \d+)$", re.M)
LOOKS = 10  # how often, 0.3 seconds apart, a command whose time is over is seen at rest before it counts as hanging


def committed(*words):
    return subprocess.run(["git", *words], cwd=TOP, stdout=subprocess.PIPE, check=True).stdout


def kept_file(kind, seed):
    """Where by default is kept what was tried: a file for this commit and seed."""
    folder = Path(tempfile.gettempdir(), "tardis_mutants")
    folder.mkdir(exist_ok=True)
    return folder / f"{kind}-{committed('rev-parse', '--short', 'HEAD').decode().strip()}-{seed}.kept"


def of_session(session):
    """The processes of a session, with the letter of their state."""
    for entry in filter(str.isdigit, os.listdir("/proc")):
        try:
            fields = Path("/proc", entry, "stat").read_bytes().rpartition(b")")[2].split()
        except OSError:
            continue
        if int(fields[3]) == session:
            yield int(entry), fields[0].decode()


def calm(process, own=Path("/proc/self/autogroup")):
    """Gives a new session, which has the usual priority next to others, that of this one. Linux takes few such changes
    at once, other systems none; and the session in which Linux itself began has no priority."""
    words = []
    with contextlib.suppress(OSError):
        words = own.read_text(encoding="ascii").split()
    for _ in range(20 if words else 0):
        with contextlib.suppress(OSError):
            Path(f"/proc/{process}/autogroup").write_text(words[-1], encoding="ascii")
            return
        time.sleep(0.05)


def stopped(session):
    """Ends what still runs of a session."""
    while left := [process for process, state in of_session(session) if state != "Z"]:
        for process in left:
            with contextlib.suppress(ProcessLookupError):
                os.kill(process, signal.SIGKILL)
        time.sleep(0.01)


class Room:
    """A copy of what is committed, with built programs, in which commands are run."""

    def __init__(self, folder, programs):
        self.folder, self.scratch = Path(folder), Path(f"{folder}.scratch")
        self.folder.mkdir(parents=True, exist_ok=True)
        self.took = 0  # what the last command took of the processors, in seconds
        subprocess.run(["tar", "-x", "-C", folder], input=committed("archive", "HEAD"), check=True)
        self.environment = os.environ | {"TMPDIR": str(self.scratch), "PYTHONUNBUFFERED": "1"}
        for name, crate in CRATES.items():
            built = self.folder / f"crates/{crate}/out/{crate}"
            built.parent.mkdir(parents=True)
            shutil.copy(programs[name], built)
            self.environment[name] = str(built)

    def scripts(self, left_out):
        """The gate's commands, but for some."""
        text = (self.folder / ".ci/run").read_text(encoding="utf-8")
        return [line for line in re.search(r"<<'END'.*?\n(.*?)\nEND\n", text, re.S)[1].splitlines()
                if not left_out.search(line)]

    def fails(self, script, seconds, is_over=lambda: False, **surroundings):
        """Why the command doesn't pass; None if it does. It is stopped at the first difference that it prints, where it
        is over, and after some seconds if it is at rest; one that still works, as it may next to others, after ten
        times as many."""
        shutil.rmtree(self.scratch, ignore_errors=True)
        self.scratch.mkdir()
        with tempfile.TemporaryFile() as said:
            running = subprocess.Popen(["sh", "-c", script], cwd=self.folder, env=self.environment | surroundings,
                                       start_new_session=True, stdin=subprocess.DEVNULL, stdout=said,
                                       stderr=subprocess.STDOUT)
            calm(running.pid)
            try:
                return self.why(running, said, seconds, is_over)
            finally:
                stopped(running.pid)
                if running.returncode is None:
                    self.ended(running, 0)

    def ended(self, running, how):
        """Whether the command has ended; then also what it took."""
        process, status, usage = os.wait4(running.pid, how)
        if process:
            running.returncode, self.took = os.waitstatus_to_exitcode(status), usage.ru_utime + usage.ru_stime
        return bool(process)

    def why(self, running, said, seconds, is_over):
        began, rest, pause = time.monotonic(), 0, 0.01
        while not self.ended(running, os.WNOHANG):
            time.sleep(pause)
            pause = min(0.3, 1.5 * pause)
            took = time.monotonic() - began
            if different := DIFFERS.search(os.pread(said.fileno(), 1 << 20, 0)):
                return f"{different[0][:200].decode(errors='replace')}"
            rest = rest + 1 if took > seconds and not any(state in "RD" for _, state in of_session(running.pid)) else 0
            if is_over() or rest > LOOKS or took > 10 * seconds:
                return f"{seconds:.0f} seconds"
        return f"status {running.returncode}" if running.returncode else None


class Kept:
    """What was tried, in a file of a line each: how long the scripts take, and what became of each mutant. A line has
    the commit's tree, what was tried, and None where a script failed without a change or a mutant survived."""

    def __init__(self, path):
        self.path, self.lock = path, threading.Lock()
        self.tree = committed("rev-parse", "HEAD^{tree}").decode().strip()
        lines = map(json.loads, path.read_text(encoding="utf-8").splitlines() if path.exists() else ())
        self.told = {tuple(key): said for tree, key, said in lines if tree == self.tree or said is not None}

    def tell(self, key, said):
        with self.lock, self.path.open("a", encoding="utf-8") as file:
            self.told[key] = said
            file.write(json.dumps([self.tree, key, said]) + "\n")


class Asking:
    """Asks commands for mutants: first those that take little for each that they notice. What passed is kept."""

    def __init__(self, kept):
        self.kept, self.asked, self.noticed = kept, Counter(), Counter()

    def first(self, mutant, seconds, fails):
        """The first of some commands that notices a mutant, with how it does; None if all pass."""
        left = dict(seconds)
        while left:
            command = min(left, key=lambda it: (left[it] + 0.1) * (self.asked[it] + 2) / (self.noticed[it] + 1))
            del left[command]
            key = "passes", *mutant[1:], self.kept.tree, command
            if key not in self.kept.told:
                why = fails(command)
                self.asked[command] += 1
                self.noticed[command] += bool(why)
                if why:
                    return [command, why]
                self.kept.tell(key, True)
        return None
