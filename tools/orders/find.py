"""An order of a problem: by the search; by layers if that takes many branches, or by z3 if it is installed."""
import time

from tools.orders import layers, solver
from tools.orders.forced import TimeUp
from tools.orders.search import Search

FIRST_SHARE = 4    # the search has a quarter of the time before z3 is asked, and at most
LAYERS_SHARE = 2   # layers have half of the time before
FIRST_SECONDS = 5  # of processor time: on a busy machine it takes longer
MEMORIES = 50      # layers of so many take as long as the search takes for a branch or two of each operation
MOST_MEMORIES = 300


def find(problem, forced, deadline):
    """An order or None. The search comes first, then layers if the problem has few memories; then z3, then the search
    again."""
    now, looks = time.monotonic(), []
    search = Search(problem, forced, now + (deadline - now) / FIRST_SHARE, time.process_time() + FIRST_SECONDS)
    if layers.fits(problem) and layers.memories(problem) <= MOST_MEMORIES:
        search.most_states = len(problem.nodes) * (1 + layers.memories(problem) / MEMORIES)
        looks.append(layers.Layers(problem, now + (deadline - now) / LAYERS_SHARE).run)
    for look in [search.run, *looks]:
        try:
            return look()
        except TimeUp:
            pass
    if solver.is_installed():
        found = solver.ask(problem, forced, (deadline - time.monotonic()) * 2 / 3)
        if found is not None:
            return found or None
    search.deadline, search.until, search.most_states = deadline, float("inf"), float("inf")
    return search.run()
