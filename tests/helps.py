#!/usr/bin/env python3
"""Asks the tools of reference/, tools/ and maintain/ for help, and gives them bad files: tests/helps.py

Help comes on standard output, with status 0, and no tool writes a file of the repository. A reader that goes away ends
a tool without a word. For a missing file and one of another kind, each tool writes one line and ends with status 2;
reference/oracle.py ends with status 4 for a missing one. The script also tries tools/page.py in copies of the
repository: who plays, if the proved player isn't built, is built, or is older than a source; and what ./tardis and
./tardis --unproved hand on; what tools take for options that aren't given, and what is said where standard output
can't be written. The last line is `N tried, M wrong`.
"""
import os
import re
import shutil
import subprocess
import sys
import tempfile
from pathlib import Path

sys.path.insert(0, str(Path(__file__).resolve().parent.parent))
from reference.calls import OPTIONS  # noqa: E402
from reference.given import NUMBERS  # noqa: E402
from tests.texts import TOP, ran as ended  # noqa: E402

FOLDERS = ("reference", "tools", "maintain")
# What the kit runs, and what is read by others: no tools.
OTHERS = {"kit.py", "program.sh"}
READERS = ["tools/advance.py 1 {}", "env TARDIS=reference/oracle.py tools/seeds.py 0 9 {}",
           "tools/chart.py {}", "tools/merge.py {}", "reference/oracle.py litmus {}",
           "reference/oracle.py trace {}", "tools/page.py {}", "reference/sequential.py {}",
           "tools/steps.py 0x0 {}", "tools/timeline.py {}", "tools/counts.py {}",
           "tools/compare.py {}", "tools/clock.py {}", "tools/from_lackey.py --csv {}",
           "tools/cycles.py --why {}", "tools/explore.py {}", "tools/order.py {}",
           "tools/number.py {}", "tools/ends.py {}", "reference/tso.py {0} {0}"]


PIPED = ["tools/explore.py examples/litmus/SB.litmus", "tools/mesi.py",
         "tools/order.py examples/histories/lost.history", "tools/cycles.py --all 8", "tools/cycles.py SB", "reference/sequential.py examples/litmus/Z6.0.litmus",
         "env TARDIS=reference/oracle.py tools/witness.py --seeds 20 examples/litmus/SB.litmus",
         "env TARDIS=reference/oracle.py tools/ends.py --seeds 20 examples/litmus/SB.litmus",
         "tools/from_herd.py tests/herd/Z6.0.litmus",
         "tools/page.py --player reference/play.py examples/litmus/SB.litmus",
         "env TARDIS=reference/oracle.py tools/explain.py examples/exercises/history.trace "
         "examples/exercises/history.records"]


LOG = "yes '1 core 0 load 0x0 got 0' | head -n 100000 | examples/embed/from_log.py -"


def files():
    """What there is, with the time of its last change, but for what builds and imports write."""
    return {path: path.stat().st_mtime_ns for folder in (*FOLDERS, "examples", "docs", "crates/play_events/data")
            for path in (TOP / folder).rglob("*") if path.is_file() and "__pycache__" not in path.parts}


def ran(words):
    return ended(words, cwd=TOP, text=True, stdin=subprocess.DEVNULL)


def pipes():
    """What tools say to a reader that goes away: nothing."""
    for words in [*PIPED, LOG]:
        told = ran(["sh", "-c", f"{words} | head -n 1"])
        if told.stderr or told.stdout.count("\n") != 1:
            yield f"{words} | head -n 1: {told.stdout!r}, {told.stderr[-160:]!r}"


# What can't be written to, and what a tool says of it in its own name.
UNWRITTEN = {">/dev/full": "No space left on device", ">&-": "Bad file descriptor"}


def unwritten():
    """Faults in what the second program says, as the program does (docs/TEXTS.md, The program), and in what a tool
    says, where standard output can't be written. A reader that is gone before a report is written is one such case."""
    oracle, tool = "reference/oracle.py litmus examples/litmus/SB.litmus", "tools/cycles.py SB"
    cases = [(f"{oracle} {where}", (4, "", "tardis: write failed\n")) for where in UNWRITTEN]
    cases += [(f"{tool} {where}", (2, "", f"cycles.py: standard output: {cause}\n"))
              for where, cause in UNWRITTEN.items()]
    for words, wanted in cases:
        got = ran(["sh", "-c", words])
        if (got.returncode, got.stdout, got.stderr) != wanted:
            yield f"{words}: {got}"
    reader, writer = os.pipe()
    os.close(reader)
    got = subprocess.run(oracle.split(), cwd=TOP, check=False, stdout=writer, stderr=subprocess.PIPE)
    os.close(writer)
    if (got.returncode, got.stderr) != (4, b"tardis: write failed\n"):
        yield f"a reader that is gone: {got}"
    for words in [*PIPED, "env TARDIS=reference/oracle.py tools/seeds.py --jobs 1 0 9 examples/litmus/SB.litmus"]:
        got = ran(["sh", "-c", f"{words} >/dev/full"])
        if got.returncode != 2 or not got.stderr.endswith(": standard output: No space left on device\n") or \
                got.stderr.count("\n") != 1:
            yield f"{words} >/dev/full: status {got.returncode}, {got.stderr[-160:]!r}"


def defaults():
    """Faults in what the tools take where an option isn't given: docs/TEXTS.md says it, and so do the options of texts
    of events."""
    text = (TOP / "docs/TEXTS.md").read_text(encoding="utf-8")
    for name, (usual, _) in NUMBERS.items():
        if not re.search(rf"^--{name} {usual} +\S", text, re.M) or OPTIONS.get(name, (usual,))[0] != usual:
            yield f"--{name} is {usual} where it isn't given: docs/TEXTS.md or the texts of events say otherwise"


def page_players():
    """Faults in who plays a page's run, and in what standard error says. The proved player here is a script that has
    the second program play; a build would fail, as there is nothing to build."""
    with tempfile.TemporaryDirectory() as folder:
        top, program = Path(folder), Path(folder, "crates/play_events/out/play_events")
        for each in (*FOLDERS, "examples"):
            shutil.copytree(TOP / each, top / each, ignore=shutil.ignore_patterns("__pycache__"))
        shutil.copy(TOP / "play", top / "play")
        (top / "crates.txt").write_text("low:\nhigh: play_events\nplay_events: low core # high\n")
        sources = [top / f"crates/{name}/src/lib.rt" for name in ("low", "high", "play_events")]
        for path in (*sources, program):
            path.parent.mkdir(parents=True)
        for path in sources:
            path.write_text("")
            os.utime(path, (1, 1))
        yield from page_player("not built", top, "the second program's machine", 1)
        program.write_text(f"#!/bin/sh\nexec '{TOP / 'reference/play.py'}' \"$@\"\n")
        program.chmod(0o755)
        yield from page_player("built", top, "the proved machine", 0)
        os.utime(sources[1])
        os.utime(top / "crates.txt")
        yield from page_player("older than a crate above, and than crates.txt", top, "the proved machine", 0)
        os.utime(sources[0])
        yield from page_player("older than a source", top, "the second program's machine", 1)
        os.utime(program)
        sources[0].unlink()
        yield from page_player("newer again, and a source is gone", top, "the proved machine", 0)
        (top / "crates/low/src/new.rt").write_text("")
        os.utime(program, (1, 1))
        (program.parent / "play_events.sources").unlink()
        yield from page_player("older than a source, and no list of them", top, "the second program's machine", 1)
        (top / "crates/low/src/new.rt").rename(top / "crates/low/src/New.antt")
        yield from page_player("older than a specification", top, "the second program's machine", 1)


def page_player(what, top, wanted, lines):
    got = ran([top / "tools/page.py", "examples/traces/PAST.trace"])
    told = "./play crates/play_events/data/pages.events" in got.stderr
    if got.returncode or f'"made":"{wanted}"' not in got.stdout or (got.stderr.count("\n"), told) != (lines, lines > 0):
        yield f"page.py, {what}: status {got.returncode}, {got.stderr[-160:]!r}, wanted {wanted}"


# What stands for the program, and for the kit's command that runs it without a proof: each says its words.
PROGRAM = "#!/bin/sh\nprintf '[%s]' \"$@\"\necho 'tardis: read failed' >&2\nexit 3\n"
KIT = (PROGRAM.replace("exit 3", "printf '%s\\n' 'checked: ended 1' 'run=ended status=1 proved=no' "
                       "'races: not looked for, here' 'ended by hand' >&2\nexit 4"))


def launched():
    """Faults in what ./tardis hands on: each word whole, a file's name from the root where the program runs elsewhere,
    both outputs, but for what the kit says of a run, and the status."""
    with tempfile.TemporaryDirectory() as folder:
        top = Path(folder).resolve()
        texts = {"crates/tardis/out/tardis": PROGRAM, "maintain/kit.py": KIT, "bin/rt": "#!/bin/sh\nexit 9\n"}
        for name, text in texts.items():
            (top / name).parent.mkdir(parents=True, exist_ok=True)
            (top / name).write_text(text)
            (top / name).chmod(0o755)
        shutil.copy(TOP / "maintain/program.sh", top / "maintain")
        shutil.copy(TOP / "tardis", top)
        (top / "crates.txt").write_text("tardis:\n")
        (top / "a  b.litmus").write_text("")
        words = ["litmus", "--lease", "3", "a  b.litmus", "", "none of  it"]
        path = f"PATH={top / 'bin'}:{os.environ['PATH']}"
        for more, names, status, said in (
                ([], words, 3, "tardis: read failed\n"),
                (["--unproved"], ["try", "--", *words[:3], str(top / "a  b.litmus"), *words[4:]], 4,
                 "tardis: read failed\nended by hand\n")):
            got = ended(["env", path, top / "tardis", *more, *words], cwd=top, text=True, stdin=subprocess.DEVNULL)
            own = "".join(line for line in got.stderr.splitlines(True) if "nothing is proved" not in line
                          and "or two, longer" not in line)
            wanted = "".join(f"[{name}]" for name in names)
            if (got.returncode, got.stdout, own) != (status, wanted, said) or (own == got.stderr) == bool(more):
                yield f"./tardis {more}: status {got.returncode}, {got.stdout!r} {got.stderr!r}"


def main():
    tools = sorted(path for folder in (*FOLDERS, "tools/record", "examples/traces/record")
                   for path in (TOP / folder).iterdir()
                   if path.suffix in (".py", ".sh") and path.name not in OTHERS and os.access(path, os.X_OK))
    before, wrong = files(), []
    for tool in tools:
        got = ran([tool, "--help"])
        if got.returncode or got.stderr or len(got.stdout.splitlines()) < 2:
            wrong.append(f"{tool.name} --help: status {got.returncode}, {got.stdout[:80]!r}, {got.stderr[-80:]!r}")
    if files() != before:
        wrong.append("a file is written for --help")
    for words, path in ((words, path) for words in READERS for path in ("no-such-file", "README.md")):
        got = ran([word.format(path) for word in words.split(" ")])
        wanted = 4 if words.startswith("reference/oracle.py") and path == "no-such-file" else 2
        if got.returncode != wanted or got.stdout or got.stderr.count("\n") != 1:
            wrong.append(f"{words.format(path)}: status {got.returncode}, {got.stderr[-160:]!r}")
    wrong += pipes()
    wrong += unwritten()
    wrong += defaults()
    wrong += page_players()
    wrong += launched()
    tried = len(tools) + 2 * len(READERS) + 2 * len(PIPED) + len(NUMBERS) + 15
    print("\n".join([*wrong, f"{tried} tried, {len(wrong)} wrong"]))
    return int(bool(wrong))


if __name__ == "__main__":
    sys.exit(print(__doc__) if sys.argv[1:] else main())
