#!/usr/bin/env python3
"""Joins reports of one litmus test on neighbouring ranges of seeds into the report of one run of the whole range.

    tools/merge.py REPORT REPORT ..    in the order of the seeds; the joined report goes to standard output
    tools/merge.py --self-test         compares joined reports with those of whole ranges, by reference/oracle.py

A report lists end states in the order in which they first occurred, so the order of the reports counts.

Next to K.report there may be K.json, which says how it was made (tools/seeds.py writes both). The script joins
reports with such files only if one program made them, of one text, with the same options. Their seeds must follow each
other without gap or overlap, and be all of the range whose parts they are. Nothing of that is known of reports without
such files: the script refuses only those of another test.

The status is 0 if the reports are joined, and 2 if not; then standard error says why in one line.
"""
import hashlib
import json
import sys
from pathlib import Path

sys.path.insert(0, str(Path(__file__).resolve().parent.parent))
from reference.given import Bad, contents, tool  # noqa: E402


ENDS = ("all-done", "stalled", "limit", "exhausted", "memory")
SUMS = ("completed", "renewals", "upgrades", "flushes", "write-backs", "stale-hits")
HEAD, TAIL = ("test", "threads", "runs", *ENDS, "states"), ("condition", "held", "verdict", *SUMS)
MOST = 2 ** 128 - 1
SEEDS = 2 ** 64  # behind the last seed comes 0
LOCK = "litmus/LOCK.litmus"


class Report:
    """A report's lines by name, and its end states with how often each occurred."""

    def __init__(self, text):
        lines, self.states, self.said = iter(text.splitlines()), {}, {}
        self.take(lines, HEAD)
        for _ in range(self.number("states")):
            count, _, values = next(lines, "").partition(" ")
            self.states[values] = int(count)
        self.take(lines, TAIL)
        if next(lines, None) is not None or self.verdict() != self.said["verdict"]:
            raise ValueError("a line too many, or another verdict")

    def take(self, lines, names):
        for name in names:
            line = next(lines, "no line")
            found, _, self.said[name] = line.partition(" ")
            if found != name:
                raise ValueError(f"{line}, where '{name}' is wanted")

    def number(self, name):
        return int(self.said[name])

    def add(self, other):
        for name in ("test", "threads", "condition"):
            if self.said[name] != other.said[name]:
                raise ValueError(f"another {name}: {self.said[name]}, {other.said[name]}")
        for name in ("runs", *ENDS, "held"):
            self.said[name] = self.number(name) + other.number(name)
        for name in SUMS:
            self.said[name] = min(self.number(name) + other.number(name), MOST)
        for values, count in other.states.items():
            self.states[values] = self.states.get(values, 0) + count

    def verdict(self):
        held = self.number("held")
        holds = {"exists": held > 0, "~exists": held == 0, "forall": held == self.number("all-done")}
        if self.said["condition"] not in holds:
            raise ValueError(f"a condition {self.said['condition']}")
        return "yes" if holds[self.said["condition"]] else "no"

    def text(self):
        self.said["states"], self.said["verdict"] = len(self.states), self.verdict()
        lines = [f"{name} {self.said[name]}" for name in HEAD]
        lines += [f"{count} {values}" for values, count in self.states.items()]
        lines += [f"{name} {self.said[name]}" for name in TAIL]
        return "".join(line + "\n" for line in lines)


class Made:
    """How a report was made, as the file next to it says."""

    def __init__(self, path, report):
        self.path, file = path, made_file(path)
        try:
            said = json.loads(contents(file))
            self.seeds, self.range = numbers(said["seeds"]), numbers(said["range"])
            # What must be the same for all, and how it is told.
            self.alike = {"another text of the test": told_file(said["test"]), "another program":
                          told_file(said["program"]), "other options": (said["options"], " ".join(said["options"]))}
            sum_of_report = said["report"]["sha256"]
        except (KeyError, TypeError, ValueError):
            raise Bad(f"{file} doesn't say how a report was made") from None
        if sum_of_report != hashlib.sha256(report).hexdigest():
            raise Bad(f"{file} is of another text than {path} has")

    def refuse_other(self, other):
        for what, (value, told) in self.alike.items():
            if other.alike[what][0] != value:
                raise Bad(f"{other.path}: {what}: {other.alike[what][1] or 'none'}; {self.path}: {told or 'none'}")


def made_file(path):
    return Path(path).with_suffix(".json")


def numbers(said):
    """The first seed of a range, and how many it has."""
    first, runs = said["first"], said["runs"]
    if not (type(first) is type(runs) is int and 0 <= first < SEEDS and 0 < runs <= SEEDS):
        raise ValueError(said)
    return first, runs


def told_file(said):
    """The checksum of a file, and how messages name the file."""
    return said["sha256"], " ".join(str(said[name]) for name in ("path", "version", "sha256") if said.get(name))


def seeds(first, runs):
    first, last = first % SEEDS, (first + runs - 1) % SEEDS
    return f"seeds {first} to {last}"


def refuse_gaps(all_made):
    """Seeds are counted from the first one of the first report; those of the second half lie before it."""
    base, end, before = all_made[0].seeds[0], 0, all_made[0].path
    for made in all_made:
        start, runs = (made.seeds[0] - base) % SEEDS, made.seeds[1]
        if start >= SEEDS // 2:
            raise Bad(f"{made.path}: {seeds(*made.seeds)} come before those of {all_made[0].path}")
        if start > end:
            raise Bad(f"{seeds(base + end, start - end)} are missing between {before} and {made.path}")
        if start < end:
            raise Bad(f"{made.path}: {seeds(made.seeds[0], min(end - start, runs))} are in a report before it, too")
        end, before = start + runs, made.path
    for made in all_made:
        start, runs = (made.range[0] - base) % SEEDS, made.range[1]
        if start >= SEEDS // 2:
            raise Bad(f"{seeds(made.range[0], SEEDS - start)} are missing before {all_made[0].path}")
        if start + runs > end:
            raise Bad(f"{seeds(base + end, start + runs - end)} are missing behind {before}")


def joined(texts, names=None):
    """The joined report. What can't be joined ends in `Bad`, with its name."""
    reports = []
    for name, text in zip(names or map(str, range(len(texts))), texts):
        try:
            reports.append(Report(text))
            if reports[1:]:
                reports[0].add(reports[-1])
        except ValueError as error:
            raise Bad(f"{name} isn't a report to be joined: {error}") from None
    return reports[0].text()


def joined_files(paths):
    texts = [contents(path) for path in paths]
    all_made = [Made(path, text) for path, text in zip(paths, texts) if made_file(path).exists()]
    if all_made:
        for path in paths:
            if not made_file(path).exists():
                raise Bad(f"{path} has no {made_file(path).name} beside it, as {all_made[0].path} has")
        for made in all_made:
            all_made[0].refuse_other(made)
        refuse_gaps(all_made)
    return joined([text.decode("ascii", "replace") for text in texts], paths)


def report(path, seed, runs, options):
    """The oracle's report of this many seeds. Nothing else here needs it."""
    from reference import oracle
    given = ["litmus", "--schedule", "seed", "--seed", str(seed), "--runs", str(runs), *options, str(path)]
    return oracle.run(oracle.words().parse_args(given))[0]


def self_test():
    folder = Path(__file__).resolve().parent.parent / "examples"
    cases = [("litmus/SB.litmus", 0, (1, 19, 30), []), ("litmus/IRIW.litmus", 2 ** 64 - 7, (3, 4, 13, 20), []),
             (LOCK, 5, (10, 10), []), ("litmus/SB+forall.litmus", 3, (5, 25), ["--limit", "60"]),
             ("litmus/2+2W.litmus", 8, (15, 15), ["--time", str(2 ** 64 - 14)]), (LOCK, 9, (2, 3), ["--limit", "1"])]
    for name, seed, parts, options in cases:
        whole = report(folder / name, seed, sum(parts), options)
        starts = [(seed + sum(parts[:place])) % 2 ** 64 for place in range(len(parts))]
        texts = [report(folder / name, start, runs, options) for start, runs in zip(starts, parts)]
        assert joined(texts) == whole, name
    print(f"{len(cases)} joined reports are those of the whole ranges")


def main(given):
    if given == ["--self-test"]:
        return self_test()
    if not given or given[0] in ("-h", "--help"):
        return print(__doc__)
    sys.stdout.write(joined_files(given))
    return 0


if __name__ == "__main__":
    tool(main)
