#!/usr/bin/env python3
"""Lists all ends of a litmus test under sequential consistency, by plain enumeration of its interleavings.

    reference/sequential.py [--states N] [--orders] [--model sc|tso] TEST ..

It prints for each test what `tardis ends` prints, as docs/TEXTS.md has it. With --orders each end has an order of the
threads' memory instructions behind it that leads there: P0:2 is the second of thread 0. Of several orders it is the
first by its threads' numbers.

The search goes depth first, by rising threads, and keeps each state that it has seen: what each thread has received,
and the memory. The program keeps a layer and the next, a layer being the states after one number of steps, and gives up
if these are more than N (--states N, by default 4194304). So this search counts the states of each layer as it finds
them, and gives up for the same tests. It keeps all layers, so it needs more memory than the program.

--model tso lists the ends under total store order instead: each thread's stores go through a buffer of its own. Nothing
of that is proved, and this machine has no such ends. M0:2 is the step by which P0:2, a store, reaches the memory.

Exit status: 0 done, 1 a test has more states than N, 2 bad words or a bad text.
"""
import sys
from pathlib import Path

sys.path.insert(0, str(Path(__file__).resolve().parent.parent))
from reference.given import Bad, Words, contents, litmus_test, tool  # noqa: E402
from reference.litmus import Thread  # noqa: E402

MOST_STATES = 4194304
GREATEST = 2 ** 32 - 1  # of --states


def with_item(items, at, item):
    return (*items[:at], item, *items[at + 1:])


class Flat:
    """One flat memory, no caches and no times: a step is some thread's next memory instruction."""

    name, steps_at_once = None, 1  # so many steps of a thread can follow

    def __init__(self, test):
        self.test, self.known = test, {}

    def opening(self):
        """The first state: what each thread has received (a store counts as 0), and the words of the memory."""
        memory = tuple(self.test.memory.get(word, 0) for word in range(len(self.test.words)))
        return ((),) * len(self.test.threads), memory

    def thread(self, number, received):
        """A thread whose first memory instructions received these values."""
        if (number, received) not in self.known:
            thread = self.known[number, received] = Thread(self.test, number)
            for value in received:
                thread.next()
                thread.done(value)
        return self.known[number, received]

    def steps(self, state):
        """The steps that can follow, each with the state that it leads to."""
        received, memory = state
        for number, mine in enumerate(received):
            following = self.thread(number, mine).next()
            if following:
                kind, word, value = following
                got = 0 if kind == "store" else memory[word]
                words = memory if kind == "load" else with_item(memory, word, value)
                yield f"P{number}:{len(mine) + 1}", (with_item(received, number, (*mine, got)), words)

    def end_values(self, state):
        threads = [self.thread(number, mine) for number, mine in enumerate(state[0])]
        return self.test.end_values(threads, dict(enumerate(state[1])))


class Buffered(Flat):
    """Total store order. A store goes to the end of its thread's buffer, and the first of a buffer may reach the memory
    at any step. A load takes its thread's last store of the word from the buffer, if one is there. A swap waits until
    its thread's buffer is empty; so does what is behind a fence of stores before loads. (TSO keeps the orders that
    other fences ask for.)"""

    name, steps_at_once = "total store order, not proved", 2

    def __init__(self, test):
        super().__init__(test)
        self.waits = [list(waits_of(code)) for code in test.threads]

    def opening(self):
        return (*super().opening(), ((),) * len(self.test.threads))

    def steps(self, state):
        received, memory, buffers = state
        for number, mine in enumerate(received):
            buffer = buffers[number]
            if buffer:
                place, word, value = buffer[0]
                yield f"M{number}:{place}", (received, with_item(memory, word, value),
                                             with_item(buffers, number, buffer[1:]))
            following = self.thread(number, mine).next()
            if following and not (buffer and self.waits[number][len(mine)]):
                yield f"P{number}:{len(mine) + 1}", self.behind(state, number, following)

    @staticmethod
    def behind(state, number, operation):
        (received, memory, buffers), (kind, word, value) = state, operation
        mine, got = received[number], 0
        if kind != "store":
            got = next((stored for _, of, stored in reversed(buffers[number]) if of == word), memory[word])
        if kind == "swap":
            memory = with_item(memory, word, value)
        if kind == "store":
            buffers = with_item(buffers, number, (*buffers[number], (len(mine) + 1, word, value)))
        return with_item(received, number, (*mine, got)), memory, buffers


MODELS = {"sc": Flat, "tso": Buffered}


def waits_of(code):
    """Of each memory instruction of a thread, whether it waits until the thread's stores have reached the memory."""
    is_fenced = False
    for kind, before, behind, _ in code:
        if kind == "fence":
            is_fenced |= "w" in before and "r" in behind
        elif kind != "set":
            yield is_fenced or kind == "swap"
            is_fenced = False


class TooManyStates(Exception):
    """A layer and the next have more states than may be kept. It says how many are enough to go on."""


def enough(model, most):
    """How many states are enough for the first layer that has more than `most` with the next, and for that: each state
    of the layer, and one more for each step that can follow."""
    layer = {model.opening()}
    while True:
        following = {after for state in layer for _, after in model.steps(state)}
        if len(layer) + len(following) > most:
            return len(layer) * (1 + model.steps_at_once * len(model.test.threads))
        layer = following


def count(model, sizes, layer, most):
    """Counts a state of a layer."""
    sizes += [0] * (layer + 2 - len(sizes))
    sizes[layer] += 1
    if sizes[layer] + max(sizes[layer - 1] if layer else 0, sizes[layer + 1]) > most:
        raise TooManyStates(f"more than {most} states; {enough(model, most)} are enough to go on")


def explored(model, most=MOST_STATES):
    """For each end, as the values of the condition's names, the first order of steps that leads there; and how many
    states each layer has."""
    ends, seen, sizes, left = {}, set(), [], [(model.opening(), ())]
    while left:
        state, order = left.pop()
        if state in seen:
            continue
        count(model, sizes, len(order), most)
        seen.add(state)
        following = list(model.steps(state))
        if not following:
            ends.setdefault(model.end_values(state), order)
        left += [(after, (*order, step)) for step, after in reversed(following)]
    return ends, sizes


def ends_of(test):
    """The set of all ends, each as the values of the condition's names."""
    return set(explored(Flat(test))[0])


def answer(test, ends):
    """What sequential consistency says of the condition: allowed or forbidden; always or not always."""
    held = sum(test.holds(end) for end in ends)
    if test.kind == "exists":
        return "allowed" if held else "forbidden"
    return "always" if held == {"~exists": 0, "forall": len(ends)}[test.kind] else "not always"


def text_of(end):
    return " ".join(f"{name}={value}" for name, value in end)


def order_text(order):
    """An order as it stands behind its end."""
    return "   " + " ".join(order) if order else ""


class Listing:
    """The list of all ends of a test: by rising values each end, with the first order that leads there."""

    def __init__(self, test, most=MOST_STATES, kind=Flat):
        ends, sizes = explored(kind(test), most)
        self.test, self.states, self.ends = test, sum(sizes), sorted(ends.items())
        self.held = sum(test.holds(end) for end, _ in self.ends)

    def head(self):
        return {"test": self.test.name, "threads": len(self.test.threads), "states": self.states}

    def foot(self):
        return {"condition": self.test.kind, "held": self.held}

    def observation(self):
        """In herd7's words, whether an end with a star was met."""
        return "Never" if self.held == 0 else "Always" if self.held == len(self.ends) else "Sometimes"

    def lines(self, has_orders):
        yield from (f"{name} {value}" for name, value in self.head().items())
        yield f"ends {len(self.ends)}"
        yield from (f"{'*' if self.test.holds(end) else ' '} {text_of(end)}" + order_text(order) * has_orders
                    for end, order in self.ends)
        yield from (f"{name} {value}" for name, value in self.foot().items())
        yield f"observation {self.test.name} {self.observation()} {self.held} {len(self.ends) - self.held}"


def report(test, most=MOST_STATES, has_orders=False, kind=Flat):
    """The text of all ends of a test."""
    lines = [f"model {kind.name}"] * (kind.name is not None)
    return "\n".join([*lines, *Listing(test, most, kind).lines(has_orders)]) + "\n"


def words_of(words):
    parser = Words(__doc__)
    parser.add_argument("--states", metavar="N", default=str(MOST_STATES), help="the most states that are kept at once")
    parser.add_argument("--orders", action="store_true", help="with an order that leads to each end")
    parser.add_argument("--model", choices=MODELS, default="sc", help="tso isn't this machine's (sc)")
    parser.add_argument("tests", metavar="TEST", nargs="+", help="a litmus test")
    asked = parser.parse_args(words)
    if not asked.states.isdecimal() or not 1 <= int(asked.states) <= GREATEST:
        raise Bad(f"--states: 1 to {GREATEST}")
    return asked


def main(words):
    asked = words_of(words)
    for path in asked.tests:
        test = litmus_test(path, contents(path))
        try:
            sys.stdout.write(report(test, int(asked.states), asked.orders, MODELS[asked.model]))
        except TooManyStates as many:
            sys.exit(f"sequential.py: {path}: {many}")
    return 0


if __name__ == "__main__":
    tool(main)
