"""What a litmus test asks, which registers its operations fill, and what the end of a run answers."""
import re


def question(run):
    """None of a trace. `registers` has by core those that its loads and swaps fill, in turn; None for a store."""
    test = run.subject.test
    if test is None:
        return None
    asked = re.search(r'(?m)^[ \t\r]*"([^"]*)"', test.header)
    registers = [[None if kind == "store" else target for kind, target, *_ in column if kind not in ("set", "fence")]
                 for column in test.threads]
    return {"asked": asked and asked[1], "condition": test.question, "registers": registers,
            "answer": answer(run, test) if run.end == "all-done" else None}


def answer(run, test):
    """How the run ended, whether that is what the condition asks about, and the verdict on this one run."""
    threads, memory = test.programs(), dict(test.memory)
    for core, thread in enumerate(threads):
        for record in sorted((one for one in run.records if one.core == core), key=lambda one: one.number):
            thread.next()
            thread.done(record.received)
        thread.next()
    for number in run.arranged:
        record = next(one for one in run.records if one.number == number)
        if record.kind != "load":
            memory[record.word] = record.value
    values = test.end_values(threads, memory)
    holds = test.holds(values)
    end = " ".join(f"{name}={value}" for name, value in values)
    said = f"{'' if holds else 'not '}the end asked for" if test.kind == "exists" else \
        f"the expression {'holds' if holds else 'does not hold'}"
    return f"{end}: {said}; verdict {'yes' if holds != (test.kind == '~exists') else 'no'}"
