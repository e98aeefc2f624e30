"""What tools/compare.py and tools/clock.py share: counted runs of the second program's machine and of directories."""
from argparse import Namespace
from functools import partial

from reference.counted import Counts
from reference.directory import Directory
from reference.given import NUMBERS, Bad, bad_configuration, has_machine
from reference.machine import Machine
from reference.traces import Fault, Trace
from tools import sweep
from tools.advance import new_trace
from tools.program import text_of


MACHINES = {"tardis": Machine, "msi": Directory, "mesi": partial(Directory, mesi=True)}
# Messages between a bank and its DRAM; all others are between cores and banks.
OF_DRAM = ("DramLd", "DramLdRep", "DramSt", "DramStRep")


def runs(options):
    """Each trace, with each combination of the options, and its programs."""
    for path in sweep.traces_of(options):
        traces = {}
        for chosen in sweep.combinations(options):
            advance = int(chosen["advance"])
            if advance not in traces:
                traces[advance] = trace_of(path, advance)
            yield path, chosen, traces[advance]


def trace_of(path, advance):
    try:
        return Trace(new_trace(path, advance) if advance else text_of(path))
    except Fault as fault:
        raise Bad(f"{path}: {fault}: 'tools/explain.py {path}' says why") from None


def options_of(chosen, cores):
    """The options of a machine, by the program's names."""
    named = {name.replace("-", "_"): int(chosen[name]) for name in NUMBERS}
    options = Namespace(cores=cores, **named, **{name.replace("-", "_"): chosen[name] == "yes" for name in sweep.FLAGS},
                        schedule=chosen["schedule"])
    if not has_machine(options, cores):
        raise Bad(bad_configuration(options))
    return options


def machine_of(name, options, cores):
    return Counts(MACHINES[name](options, cores, {}))


def row_of(counts):
    """The numbers of a run by name, with each kind of messages."""
    cores = [part for (what, _), part in counts.parts.items() if what == "core"]
    banks = [part for (what, _), part in counts.parts.items() if what == "bank"]
    sent = {kind: sum(part.sent[kind] for part in banks) for part in banks for kind in part.sent}
    row = {what: sum(part.number[what] for part in cores) for what in ("hits", "misses")} | sent
    network = sum(count for kind, count in sent.items() if kind not in OF_DRAM)
    return row | {"completed": len(counts.records), "messages": network}


def varied(combinations):
    """The options that have several values."""
    return [name for name in sweep.OPTIONS if len({chosen[name] for chosen in combinations}) > 1]
