"""The answer on a history: an order; why there is none; or how far the search came."""
import time

from tools.orders import reasons
from tools.orders.find import find
from tools.orders.forced import Forced, NoOrder, TimeUp
from tools.orders.layers import fits
from tools.orders.least import Least, Stuck
from tools.orders.problem import Problem

LEAST_SECONDS = 5  # of processor time, for leaving out operations by layers, and again by the search


class Answer:
    """`order`: the places in `operations`, in order, or None; `lines`: what to say where there is none; `is_known`."""

    def __init__(self, order=None, lines=(), is_known=True):
        self.order, self.lines, self.is_known = order, list(lines), is_known


def answer(operations, seconds, model="sc", real_time=False, opening=None):
    """The answer that is found within these seconds."""
    settings = {"model": model, "real_time": real_time, "opening": opening}
    problem = Problem(operations, **settings)
    try:
        order = decide(problem, seconds)
    except NoOrder as none:
        return Answer(lines=lines_of(problem, none))
    except TimeUp as up:
        return Answer(lines=[f"not decided after {seconds:g} s: {up.reached}"], is_known=False)
    if order is None:
        return Answer(lines=least(operations, settings))
    return Answer(order=order)


def decide(problem, seconds):
    """An order; None if there is none, and only the search knows it; `NoOrder` if facts say so; or `TimeUp`."""
    deadline = time.monotonic() + seconds
    return find(problem, Forced(problem, deadline), deadline)


def lines_of(problem, none):
    if none.read is not None:
        return reasons.lines_of_read(problem, none.forced, none.read)
    return reasons.lines_of_ring(problem, none.forced, none.ring)


def least(operations, settings):
    """What to say of a history of which only a search knows that it has no order. Facts of a part come first."""
    stuck = Stuck(operations, settings, time.process_time() + LEAST_SECONDS) if fits(Problem(operations, **settings)) \
        else None
    found = stuck if stuck and stuck.cores else Least(operations, settings, time.process_time() + LEAST_SECONDS)
    part = Problem([operations[node] for node in (found.sources() if found is stuck else found.nodes)], **settings)
    try:
        Forced(part)
    except NoOrder as none:
        return lines_of(part, none)
    kept = Problem([operations[node] for node in found.nodes], **settings)
    return reasons.lines_of_set(kept, found.is_least, stuck.cores if found is stuck else ())
