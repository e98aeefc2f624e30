"""The programs of a test or a trace as values: how far a core is, and what that depends on."""
from reference.litmus import Thread
from reference.schedules import ADVANCE


class OfTest:
    """A thread of a test. A value is its place and its registers."""

    def __init__(self, test, number):
        self.test, self.number = test, number
        self.start = self.value(Thread(test, number))

    def thread(self, value):
        thread = Thread(self.test, self.number)
        thread.at, thread.registers = value[0], dict(value[1])
        return thread

    def value(self, thread):
        thread.next()  # goes over what is no operation
        return thread.at, tuple(sorted(thread.registers.items()))

    def next(self, value):
        return self.thread(value).next()

    def after(self, value, received):
        thread = self.thread(value)
        thread.done(received)
        return self.value(thread)


class OfTrace:
    """The steps of a core in a trace. A value is the place and what the operations so far received."""

    start = 0, ()

    def __init__(self, steps):
        self.steps = steps

    def next(self, value):
        return self.steps[value[0]] if value[0] < len(self.steps) else None

    def after(self, value, received):
        at, all_received = value
        is_operation = self.steps[at] != ADVANCE
        return at + 1, all_received + (received,) * is_operation


def programs_of(subject):
    """One a core, of a subject that is given (reference/given.py)."""
    if subject.test:
        return [OfTest(subject.test, number) for number in range(subject.cores)]
    return [OfTrace(steps) for steps in subject.trace.steps]


def end_of(subject, programs, values, memory):
    """What an end shows: of a test the values of its condition's names, else what each core's operations received."""
    if subject.test:
        threads = [program.thread(value) for program, value in zip(programs, values)]
        return subject.test.end_values(threads, memory)
    return tuple((f"core {core}", told(value[1])) for core, value in enumerate(values))


def told(received):
    return ",".join("-" if one is None else str(one) for one in received) or "none"
