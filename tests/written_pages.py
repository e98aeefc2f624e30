"""What pages of tools/page.py hold, without a browser: questions, counts, great numbers; for tests/page.py."""
import json
import re
import shlex
import subprocess
import sys
from pathlib import Path

TOP = Path(__file__).resolve().parent.parent


def written(player, words, path):
    """Runs tools/page.py; its status, and what it says on standard error."""
    with path.open("wb") as out:
        ran = subprocess.run([TOP / "tools/page.py", "--player", shlex.quote(player), *words], cwd=TOP, check=False,
                             stdout=out, stderr=subprocess.PIPE)
    return ran.returncode, ran.stderr.decode()


def made_trace(cores, words, count):
    """A trace of `count` operations of cores on words."""
    steps = [f"{n * n % cores} {'R' if n * 7 % 5 < 3 else 'W'} {8 * (n * n * 3 % 7 % words):#x}" for n in range(count)]
    return "".join(step + (f" {n}\n" if " W " in step else "\n") for n, step in enumerate(steps))


def ring(cores):
    """A test whose threads each store to a word of their own and then load the next one's."""
    words, of = "abcdefgh"[:cores], range(cores)
    row = lambda cell: " | ".join(cell for _ in of) + " ;\n"  # noqa: E731
    named = " ".join(f"{core}:x5=1; {core}:x6={words[core]}; {core}:x8={words[core - cores + 1]};" for core in of)
    return "RISCV RING\n\"a ring\"\n{ %s }\n%s%s%sexists (%s)\n" % (
        named, " | ".join(f"P{core}" for core in of) + " ;\n", row("sw x5,0(x6)"), row("lw x7,0(x8)"),
        " /\\ ".join(f"{core}:x7=0" for core in of))


# A test with the longest names: by rounds P1 loads the flag before it is stored, and swaps behind that.
NAMES = """RISCV NAMES
"names of thirty-two letters"
{ 0:x5=1; 0:x6=message_buffer_of_the_first_core; 0:x8=ready_flag_of_the_first_core_abc;
  1:x6=ready_flag_of_the_first_core_abc; 1:x8=message_buffer_of_the_first_core; }
 P0          | P1                      ;
 sw x5,0(x6) | lw x7,0(x6)             ;
 sw x5,0(x8) | lw x9,0(x8)             ;
             | amoswap.w x10,x7,(x8)   ;
exists (1:x7=1 /\\ 1:x9=0)
"""
# By test its registers, by hand, and what is said behind the end of its run, which its report has.
QUESTIONS = {"SB": ([[None, "x7"], [None, "x7"]], "not the end asked for; verdict no"),
             "MP+yes": ([[None, None], ["x7", "x9"]], "the end asked for; verdict yes"),
             "LOCK": ([["x7"], ["x7"], ["x7"]], "the expression does not hold; verdict yes"),
             "SB+forall": ([[None, "x7"], [None, "x7"]], "the expression holds; verdict yes"),
             "S": ([[None, None], ["x7", None]], "not the end asked for; verdict no")}
# A store that takes its lease's last time, so that a load there misses it (docs/CHANGING-A-RULE.md).
RULE, CHANGED = "copy.rts if private else fit(copy.rts + 1)", "copy.rts"
WRONG_LOAD = "Core 1 loads 0x0 and receives 0, at time 1 (here: wrong value)"
WRONG = ["--schedule", "seed", "--seed", "23", "--limit", "500", "--lease", "1", "--sets", "1", "--ways", "2",
         "--bank-sets", "1", "--bank-ways", "1"]


def data_of(path):
    return json.loads(re.search(r'(?s)<script id="data"[^>]*>(.*?)</script>', path.read_text())[1])


# A test whose header has braces, and whose block has a line that begins as a condition does. It ends as asked.
BRACES = """RISCV BRACES
Orig={a}
"what of {x}?"
{ 0:x5=1; 0:x6=x;
exists=2;
0:x8=exists; }
 P0          ;
 sw x5,0(x6) ;
 lw x7,0(x8) ;
\r exists (0:x7=2 /\\
exists=2)
"""
ASKED = {"asked": "what of {x}?", "condition": "exists (0:x7=2 /\\ exists=2)", "registers": [[None, "x7"]],
         "answer": "0:x7=2 exists=2: the end asked for; verdict yes"}


def braces(player, folder):
    """The question of such a test, from a file and through a pipe."""
    path = folder / "braces.litmus"
    path.write_text(BRACES, newline="")
    for words, text in (([path], b""), (["/dev/stdin"], path.read_bytes())):
        with (folder / "braces.html").open("wb") as out:
            subprocess.run([TOP / "tools/page.py", "--player", shlex.quote(player), *words], cwd=TOP, check=False,
                           stdout=out, input=text)
        found = data_of(folder / "braces.html")["question"]
        if found != ASKED:
            yield f"{words}: {found}, wanted {ASKED}"


def questions(player, folder):
    """The question of litmus tests, and a history that a changed rule made wrong."""
    for name, (registers, said) in QUESTIONS.items():
        path = folder / f"{name}.html"
        written(player, [f"examples/litmus/{name}.litmus"], path)
        text = (TOP / f"examples/litmus/{name}.litmus").read_text()
        report = (TOP / f"examples/litmus/{name}.report").read_text()
        end = re.search(r"(?m)^states 1\n1 (.*)$", report)[1]
        wanted = {"asked": text.split('"')[1], "registers": registers, "answer": f"{end}: {said}",
                  "condition": " ".join(re.search(r"(?ms)^(~?exists|forall)\b.*", text)[0].split())}
        found = data_of(path)["question"]
        if found != wanted or f"verdict {said.split()[-1]}\n" not in report:
            yield f"{name}: {found}, wanted {wanted}"
    written(player, ["examples/litmus/IRIW.litmus"], folder / "IRIW.html")
    (folder / "names.litmus").write_text(NAMES)
    (folder / "ring.litmus").write_text(ring(8))
    (folder / "eight.trace").write_text("".join(f"{core} W {8 * core:#x} 1\n" for core in range(8)) +
                                        made_trace(8, 4, 48))
    for name, words in (("names", ["names.litmus"]), ("ring", ["--banks", "2", "ring.litmus"]),
                        ("eight", ["eight.trace"])):
        written(player, [*words[:-1], str(folder / words[-1])], folder / f"{name}.html")
    source = (TOP / "reference/machine.py").read_text()
    changed = folder / "changed.py"
    changed.write_text(f"#!{sys.executable}\nimport sys\nsys.path.insert(0, {str(TOP)!r})\n"
                       "from reference import machine\n"
                       f"exec(compile({source.replace(RULE, CHANGED)!r}, 'changed', 'exec'), machine.__dict__)\n"
                       "from reference import play\nsys.exit(play.main(sys.argv[1:]))\n")
    changed.chmod(0o755)
    (folder / "two.trace").write_text("0 W 0x0 1\n1 R 0x0\n")
    text = re.search(r"(?s)\nexample (.*?)```", (TOP / "docs/CHANGING-A-RULE.md").read_text())
    (folder / "wrong.events").write_text(text[0].strip("`\n") + "\n")
    status, said = written(str(changed), [str(folder / "wrong.events")], folder / "events.html")
    shown = data_of(folder / "events.html")
    if status != 1 or "wrong: wrong value 1" not in said or shown["end"] != "The text ends here." or \
            [step[2] for step in shown["steps"] if "w" in step[6]] != [WRONG_LOAD]:
        yield f"a text of a wrong history: status {status}, {said!r}, {shown['end']}"
    status, said = written(str(changed), [*WRONG, str(folder / "two.trace")], folder / "wrong.html")
    found = data_of(folder / "wrong.html")
    marked = [step[1] for step in found["steps"] if "w" in step[6]]
    if source.count(RULE) != 1 or status != 1 or "wrong: wrong value 1" not in said or found["wrong"] != 1 or \
            marked != ["completed 1 0 R 0x0 0 1 1"]:
        yield f"a changed rule: status {status}, {said!r}, {found['wrong']}, {marked}"


# Two advances and a load; and a text without a line that says something, which is a trace, too.
ADVANCED, NOTHING = "trace 2\n0 A\n0 A\n0 R 0x0\n", "# nothing\n\n"


def steps_done(player, folder):
    """How far a core is in its program: by rounds after each advance; by a seed, once a load behind it is issued."""
    for schedule, text, wanted in (("round", ADVANCED, [1, 2, 3]), ("seed", ADVANCED, [2, 3]), ("round", NOTHING, [])):
        (folder / "done.trace").write_text(text)
        status, said = written(player, ["--schedule", schedule, str(folder / "done.trace")], folder / "done.html")
        data = data_of(folder / "done.html")
        found = [step[5]["at 0"] for step in data["steps"] if step[5].get("at 0")]
        if (status, said, found, data["end"]) != (0, "", wanted, "All operations are done."):
            yield f"{text!r} by {schedule}: status {status}, {said!r}, steps done {found}, {data['end']}"


def counted(player, folder):
    """Jumps find as many events of each kind as a test's report counts; and how many steps a core has done."""
    yield from steps_done(player, folder)
    for name in ("SB", "LOCK", "RENEW", "STALE"):
        path = folder / f"{name}.html"
        written(player, [f"examples/litmus/{name}.litmus"], path)
        report = (TOP / f"examples/litmus/{name}.report").read_text()
        told = {words[0]: int(words[1]) for words in map(str.split, report.splitlines()) if words[-1].isdigit()
                and len(words) == 2}
        wanted = {"c": told["completed"], "s": told["stale-hits"], "r": told["renewals"],
                  "l": told["flushes"] + told["write-backs"]}
        found = {key: sum(key in step[6] for step in data_of(path)["steps"]) for key in wanted}
        if found != wanted:
            yield f"{name}: jumps to {found}, wanted {wanted}"


# A machine that begins 16 below 2^64 = 18446744073709551616, so at ..1600; the first store takes ..1601. By hand: what
# the page says after some events, of a number of ten digits or more its last four, of a shorter one all. The swap
# takes a later time than the store before it, which is of the same line.
GREAT = "0 W 0x0 18446744073709551557\n0 R 0x0\n0 W 0x8 123456789\n0 S 0x8 1234567890\n"


def great_times(player, folder):
    """Numbers past 2^53, which JavaScript has none for, are texts."""
    path = folder / "great.html"
    (folder / "great.trace").write_text(GREAT)
    written(player, ["--time", "18446744073709551600", str(folder / "great.trace")], path)
    data = data_of(path)
    if data["records"][0] != [0, "store", "0x0", "18446744073709551557", None, "18446744073709551601"]:
        yield f"great times: {data['records'][0]}"
    if great := re.findall(r"(?<![\w\"])\d{16,}(?!\w)", re.sub(r'"(?:[^"\\]|\\.)*"', '""', json.dumps(data))):
        yield f"great times: numbers {great}"


# Two messages are in flight at most. 0x0 comes to the bank. Core 0 owns it, and its store isn't completed yet. Then
# two loads ask for other words; there is no room for a line to go back, for DRAM's load or for a third request.
FULL = """example full
machine cores 3 messages 2
issue 0 W 0x0 1
attempt 0
deliver m0
evict bank 0 0x0
deliver m1
deliver m2
deliver m0
deliver m3
evict core 0 0x0
attempt 0
issue 0 R 0x8
attempt 0
issue 1 R 0x10
attempt 1
evict core 0 0x0
deliver m4
issue 2 R 0x0
attempt 2
"""
NO_PLACE = "As many messages are in flight as the capacity allows, so nothing changes."
# A core with an open operation at the last time that fits 64 bits.
LAST = """example last
machine cores 1 time 18446744073709551615
issue 0 R 0x0
issue 0 R 0x8
advance 0
"""
# Lines are named by their numbers, and by other words that they have.
NAMED = """example named
machine cores 1 line-words 8
evict core 0 0x78
issue 0 R 0x48
attempt 0
deliver m0
deliver m1
deliver m2
deliver m0
deliver m3
attempt 0
evict core 0 1
evict bank 0 0x50
"""
# What the page says of those that are refused, in turn.
SAID = [*([f"refused {cause}", f"0x0 can't leave: {cause}", "A pinned copy, or a line that is under way, stays."]
          for cause in ("Busy", "Pinned")),
        *(["refused NetworkFull", f"{what} is refused: NetworkFull", NO_PLACE] for what in (
            "The eviction of 0x0 from core 0", "The delivery of ShReq for 0x8", "The attempt of core 2"))]
SAID_LAST = [
    ["refused Busy", "The next operation of core 0 is refused: Busy",
     "The core's operation isn't completed yet, so it is issued no other."],
    ["refused Exhausted", "The advance of core 0 is refused: Exhausted",
     "A sum of times doesn't fit 64 bits. The machine stops here."]]
SAID_NAMED = [["refused NoSuch", "The line of 0x48 can't leave: NoSuch", "It isn't there."]]
LEAVES = ["The line of 0x48 leaves core 0's cache", "The line of 0x48 leaves the bank"]


def refused_events(player, folder):
    """What a page says of events that are refused, and of lines that leave."""
    for text, wanted in ((FULL, SAID), (LAST, SAID_LAST), (NAMED, SAID_NAMED)):
        (folder / "full.events").write_text(text)
        status, said = written(player, [str(folder / "full.events")], folder / "full.html")
        data = data_of(folder / "full.html")
        steps = [step[1:5] for step in data["steps"] if step[1].startswith("refused")]
        if (status, said) != (0, "") or steps != [[*step, "The machine's events"] for step in wanted]:
            yield f"events that are refused: status {status}, {said!r}, {steps}"
        if text == LAST and (data["programs"] != [["load 0x0"]] or any(step[5].get("at 0") for step in data["steps"])):
            yield f"what is refused belongs to a program, or is done: {data['programs']}"
    if [step[2] for step in data["steps"][-2:]] != LEAVES:
        yield f"lines that leave: {data['steps'][-2:]}"


# Texts that no page shows, and why. What follows a colon is said of a line.
BAD_TEXTS = [("# few\n\nexample x\nmachine cores 2 : opened\n", " has 0 events, and a page shows 1 to 5,000\n"),
             ("example x\nmachine\nrepeat 5001 advance 0\n", " has 5001 events, and a page shows 1 to 5,000\n"),
             ("example x\nmachine\nissue 0 Q 0x0\n", ":3: "),
             ("example x\nmachine\nadvance 0\nmachine cores 1\n", ":4: `machine cores 1`: a page shows one machine"),
             *((f"example x\nmachine\nadvance 0\n{call}\n", f":4: `{call}`: a page shows one machine, and each event")
               for call in ("reopen", "run advance 0; advance 0", "rounds 9", "fair-rounds 9", "seed 1 9")),
             (f"example x\nmachine time {2 ** 64 - 1}\nadvance 0\nattempt 0\n",
              ":4: `attempt 0` is answered `refused Stopped`"),
             *((f"example x\nmachine cores 1\n{call}\n", f":3: `{call}` is answered `{said}`, and a page shows no such")
               for call, said in (("attempt 0", "idle"), *((call, "refused NoSuch") for call in (
                   "advance 1", "deliver m0", "issue 1 R 0x0", "attempt 1", "evict bank 0 0x0", "evict core 0 0",
                   "evict core 1 0", "evict bank 1 0"))))]


def bad_texts(player, folder):
    """Texts of events that no page shows are refused in one line."""
    path = folder / "none.events"
    for text, says in BAD_TEXTS:
        path.write_text(text)
        status, said = written(player, [str(path)], folder / "none.html")
        if status != 2 or not said.startswith(f"page.py: {path}{says}") or said.count("\n") != 1:
            yield f"{text!r}: status {status}, {said!r}"


def bad_players():
    """Commands that are no player: each is refused in one line."""
    for command, says in (("/bin/cat", "/bin/cat doesn't play texts of events"), ("", "--player: a command is wanted"),
                          ("false", "the player failed, with status 1 (--player reference/play.py needs no kit)"),
                          ("true", "the player failed, with status 0 (--player reference/play.py needs no kit)"),
                          ("sh -c 'echo some; echo words; exit 3'", "the player failed, with status 3: some (--player"),
                          ("'", "--player ': No closing quotation"), ("none", "none: No such file or directory")):
        ran = subprocess.run([TOP / "tools/page.py", "--player", command, "examples/litmus/SB.litmus"], cwd=TOP,
                             check=False, capture_output=True, text=True)
        if (ran.returncode, ran.stdout, ran.stderr.count("\n")) != (2, "", 1) or says not in ran.stderr:
            yield f"--player {command}: {ran}"


def refusals(player, folder):
    """What is answered in one line, and what the page says of a run that isn't all done."""
    yield from bad_players()
    yield from refused_events(player, folder)
    yield from bad_texts(player, folder)
    (folder / "full.events").write_text(NAMED)
    (folder / "bad.events").write_text("example x\nmachine cores 99 : opened\nissue 0 R 0x0 : issued\n")
    (folder / "huge.trace").write_text("".join(f"{n % 8} W 0x0 {n}\n" for n in range(900)))
    for words, status, says in (([folder / "huge.trace"], 2, "a page shows 5,000 at most"),
                                (["README.md"], 2, "README.md: line 3: 4 BadCore"),
                                (["no.trace"], 2, "no.trace: No such file or directory"),
                                ([folder / "bad.events"], 2, "`machine cores 99` is refused BadConfig"),
                                (["--cores", "0,1", folder / "full.events"], 2, "full.events has the cores 0 to 0\n"),
                                (["--lease", "0", "examples/traces/PAST.trace"], 2, "configuration: --lease 0: 1 to"),
                                (["--time", "-1", "examples/traces/PAST.trace"], 2, "configuration: --time -1: 0 to"),
                                (["--limit", "0", "examples/traces/PAST.trace"], 2, "configuration: --limit 0: 1 to"),
                                (["--limit", "4", "examples/traces/PAST.trace"], 1, "The run was cut")):
        came, said = written(player, list(map(str, words)), folder / "refused.html")
        if came != status or says not in said or said.count("\n") != 1:
            yield f"{words[-1]}: status {came}, {said!r}"
    if "The run was cut" not in (folder / "refused.html").read_text():
        yield "a page doesn't say that its run was cut"
