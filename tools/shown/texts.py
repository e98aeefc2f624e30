"""A run that is a text of events (docs/EVENTS.md), as tools/explore.py writes it: its first example, event by event.

The programs are what the cores are issued there. A comment behind an event stands in the page's headline. A text that
drives, opens a machine again, has an event of what isn't there or goes on when the machine has stopped has no page.
"""
from pathlib import Path
from types import SimpleNamespace

from reference import order
from reference.calls import EVENTS, OPTIONS, event_of
from reference.given import Bad, contents
from reference.machine_texts import MachinePlayer
from reference.schedules import ADVANCE
from reference.texts import examples_of
from reference.traces import read_records
from tools.shown.played import MOST_EVENTS, Played


# Calls that make other events, or another machine.
OTHERS = ("run", "reopen", "rounds", "fair-rounds", "seed")


def is_text(path):
    """Whether a file has a text of events: its first line with words begins an example."""
    lines = contents(path).split(b"\n")
    first = next((line.split() for line in lines if line.split() and not line.lstrip().startswith(b"#")), [])
    return first[:1] == [b"example"]


class Text:
    """What a page is of, as `Subject` (reference/given.py): the machine's options, memory and cores; and its events,
    each with the comment behind it."""

    test = None

    def __init__(self, path):
        text = contents(path).decode("utf-8", "replace").replace("\r\n", "\n")
        example = examples_of(text, {"machine": MachinePlayer})[0]
        if example.fault:
            raise Bad("{}:{}: {}".format(path, *example.fault))
        self.path, self.kind, self.events, self.notes = path, example.title or Path(path).name, [], {}
        self.machine, self.numbers = None, []
        lines = text.split("\n")
        for line, _, call, _ in example.lines():
            name, of = MachinePlayer.read(call)
            if name in OTHERS or name == "machine" and self.machine:
                raise Bad(f"{path}:{line.number}: `{call}`: a page shows one machine, and each event by its line")
            if name == "machine":
                self.machine, self.memory = call, of[1]
                self.open_with(of[0])
            elif name in EVENTS:
                self.notes[len(self.events)] = lines[line.number - 1].partition("#")[2].strip()
                self.events.append((call, event_of(name, of)))
                self.numbers.append(line.number)
        if not self.events or len(self.events) > MOST_EVENTS:
            raise Bad(f"{path} has {len(self.events)} events, and a page shows 1 to {MOST_EVENTS:,}")
        words = {of[2][1] for _, of in self.events if of[0] == "Issue"} | set(self.memory)
        self.names = {word: f"{8 * word:#x}" for word in words}

    def open_with(self, named):
        options = {name: named.get(name, usual) for name, (usual, _, _) in OPTIONS.items()}
        self.options = {name.replace("-", "_"): value for name, value in options.items()}
        self.cores = self.options["cores"]

    def name(self, word):
        return self.names.get(word, f"{8 * word:#x}")

    def chosen(self, options):
        if options.cores is not None and not options.cores <= set(range(self.cores)):
            raise Bad(f"{self.path} has the cores 0 to {self.cores - 1}")
        return range(self.cores) if options.cores is None else sorted(options.cores)

    def run_options(self, options):
        """The options of the page, with the machine's."""
        return SimpleNamespace(**{**vars(options), **self.options, "cores": options.cores, "schedule": "events"})


class PlayedText(Played):
    """The run of a text."""

    def __init__(self, player, text, options):
        self.text = text
        super().__init__(player, text, text.run_options(options))

    def drive(self):
        """The events are given. The programs are what is issued and advanced."""
        self.machine, self.events, self.end = self.text.machine, [call for call, _ in self.text.events], "events"
        total = sum(event[0] == "Issue" for _, event in self.text.events)
        asked = ["arranged", "stale", "check", *(f"record {number}" for number in range(total))]
        answers = self.player.ask([self.machine, *self.events, *asked])
        if answers[0] != "opened":
            raise Bad(f"{self.text.path}: `{self.machine}` is {answers[0]}")
        programs = self.programs_of(answers[1:])
        arranged, stale, self.verdict, *records = answers[1 + len(self.events):]
        self.records = read_records("".join(f"{one}\n" for one in records if one != "none").encode())
        self.arranged = [] if arranged == "none" else list(map(int, arranged.split(" ")))
        self.stale = order.stale_loads(self.records)
        assert len(self.stale) == int(stale), "another count of stale hits"
        return programs

    def programs_of(self, answers):
        """What is issued and advanced, by these answers to the events."""
        programs = [[] for _ in range(self.text.cores)]
        for (call, (name, part, *of)), number, said in zip(self.text.events, self.text.numbers, answers):
            if said in ("idle", "refused Stopped") or said == "refused NoSuch" and not self.shows(name, part, call):
                raise Bad(f"{self.text.path}:{number}: `{call}` is answered `{said}`, and a page shows no such event")
            if said in ("issued", "advanced"):
                programs[part].append(of[0] if name == "Issue" else ADVANCE)
        return programs

    def shows(self, name, part, call):
        """Whether the page has the part and the line of an eviction."""
        parts = {"EvictCache": self.text.cores, "EvictBank": self.options.banks}.get(name, 0)
        return part < parts and self.line_named(call.split(" ")[3]) in self.lines()
