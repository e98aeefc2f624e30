"""What tools/explore.py prints of a search."""
from reference.schedules import Pcg32
from reference.sequential import ends_of
from tools.explored.texts import fault_name, machine_words, of_fault, of_lost, of_path, of_stuck

EACH = 1000  # for one state of this many, paths are replayed on a player


class Report:
    """A search that was made, in words. `lines` are the report, and `texts` the texts of what is wrong."""

    def __init__(self, search, is_whole, name):
        self.search, self.system, self.is_all, self.name = search, search.system, is_whole, name
        self.lost = search.lost()
        self.exhausted = [fault for fault in search.faults if self.kind(fault) == "exhausted"]
        self.wrong = [fault for fault in search.faults if self.kind(fault) != "exhausted"]

    def kind(self, fault):
        return self.system.faults.values[fault - 1][0]

    @property
    def is_good(self):
        return not (self.wrong or self.search.stuck or self.lost)

    def lines(self):
        search = self.search
        yield f"subject {self.system.subject.kind}"
        yield machine_words(self.system.options, self.system.subject.memory)
        yield f"states {len(search.states)}"
        yield "explored all" if self.is_all else f"explored {search.next}"
        yield f"events {search.made}"
        yield f"depth {search.depth}"
        yield f"in-flight {search.most}"
        yield f"done {len(search.done)}"
        yield from self.ends()
        yield f"stuck {len(search.stuck)}" + self.after(search.stuck)
        yield f"lost {len(self.lost)}" + self.after(self.lost)
        yield f"faults {len(self.wrong)}"
        for fault in self.wrong:
            at, _ = search.faults[fault]
            yield f"fault {self.words(fault)}, after {len(search.path(at)) + 1} events"
        if self.exhausted:
            yield "exhausted: a time doesn't fit 64 bits"
        yield from self.coverage()

    def after(self, found):
        return f", after {len(self.search.path(found[0]))} events" if found else ""

    def words(self, fault):
        kind, said = self.system.faults.values[fault - 1]
        return fault_name(kind, said)

    def ends(self):
        ends = set(self.search.ends)
        test = self.system.subject.test
        wanted = ends_of(test) if test else None
        yield f"ends {len(ends)}" + (f" of {len(wanted)} in a sequential order" if test else "")
        yield from (" ".join(["end", *(f"{name}={value}" for name, value in end)]) for end in sorted(ends))
        for end in sorted((wanted or ends) - ends):
            yield " ".join(["not met", *(f"{name}={value}" for name, value in end)])

    def coverage(self):
        rows = self.system.rows
        never = rows.never()
        yield f"rows {rows.count()} of {rows.count() + len(never)}"
        yield from (f"never {section}: {words}" for section, words in never)
        lines = self.system.maker.lines.never(self.system.module)
        yield f"lines-never-run {' '.join(ranges(lines)) or 'none'}"

    def texts(self):
        """The texts of what is wrong, the shortest of each kind."""
        search, system, texts = self.search, self.system, []
        for fault in self.wrong:
            at, event = search.faults[fault]
            title = f"{self.words(fault)}, in {self.name}"
            texts.append(of_fault(system, [*search.path(at), event], system.faults.values[fault - 1], title))
        if search.stuck:
            texts.append(of_stuck(system, search.path(search.stuck[0]), f"stuck, in {self.name}"))
        if self.lost:
            texts.append(of_lost(system, search.path(self.lost[0]), f"lost, in {self.name}"))
        return texts

    def samples(self):
        """For one state of each 1,000 the path to it, and a random walk from the start, as texts."""
        for at in range(len(self.search.states) - 1, -1, -EACH):
            path = self.search.path(at)
            yield self.sample(path, f"state {at}, after {len(path)} events")
            walk = list(self.walk(Pcg32.of_seed(at)))
            yield self.sample(walk, f"walk {at}, of {len(walk)} events")

    def sample(self, path, title):
        subject, size = self.system.subject, self.system.options.line_words
        return of_path(self.system, path, title, (max(subject.names, default=0) // size + 1) * size)

    def walk(self, generator):
        """Random events from the start, up to twice the depth, or until none changes anything or there is a fault."""
        state = self.search.states[0]
        for _ in range(2 * self.search.depth):
            found = [step for step in self.system.successors(state) if step[1] is not None]
            if not found:
                return
            event, state, _ = found[generator.draw() % len(found)]
            yield event


def ranges(numbers):
    """Numbers as 3 5-7."""
    found = []
    for number in numbers:
        if found and found[-1][1] == number - 1:
            found[-1][1] = number
        else:
            found.append([number, number])
    return [str(first) if first == last else f"{first}-{last}" for first, last in found]
