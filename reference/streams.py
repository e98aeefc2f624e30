"""A trace that is run as it is read, as docs/STREAMS.md has it: the longest run that such a text lets be made."""
from reference.reports import drive, text_of, trace_text
from reference.schedules import Run
from reference.traces import BAD_CORE, Fault, Steps, Trace, record_line, steps_in

CORES = 64  # of the machine, if --cores doesn't say


class Unread(Exception):
    """The next step of a core stands behind a fault, if anywhere."""


class StepsBeforeFault(Steps):
    """The steps of a core up to a fault of the text. Whether it has more isn't known."""

    def next(self):
        step = super().next()
        if step is None:
            raise Unread
        return step


class Begun(Trace):
    """The steps of a text up to its fault, and that fault, or None. A core that the machine hasn't is one."""

    def __init__(self, text, cores, has_words):
        self.fault, self.has_words, listed = None, has_words, []
        try:
            for line, core, step in steps_in(text, most=None):
                if core >= cores:
                    raise Fault(line, BAD_CORE)
                listed.append((line, core, step))
        except Fault as fault:
            self.fault = fault
        self.take(listed)
        self.steps += [[] for _ in range(cores - self.cores)]

    def words(self):
        return super().words() if self.has_words else []

    def programs(self):
        return [(StepsBeforeFault if self.fault else Steps)(steps) for steps in self.steps]


class StreamedRun(Run):
    """A run that ends before the first turn in which a core may take a step that isn't known."""

    def is_done(self):
        # Each core without an open operation is asked, not only the first ones.
        return not any([self.is_open(core) or program.next() for core, program in enumerate(self.programs)])

    def drive(self, *of):
        try:
            return super().drive(*of)
        except Unread:
            return "fault"


def stream_report(text, options, tell=None, after=None):
    """The report, or the records' text, and whether the run was all done. A Fault has what was written before it."""
    begun = Begun(text, options.cores or CORES, not options.no_words)
    run, end = drive(options, begun.programs(), {}, options.seed, tell, StreamedRun)
    if after:
        after(run, end, options.seed)
    if begun.fault:
        begun.fault.written = text_of(map(record_line, run.machine.records)) if options.records else ""
        raise begun.fault
    return trace_text(begun, options, run, end), end == "all-done"
