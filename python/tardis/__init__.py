"""The proved simulator of the Tardis coherence protocol, and its checker of histories, from Python (python/README.md).

`litmus`, `ends`, `trace`, `check` and `History` call the proved library. `Machine` is its machine, which you drive event
by event; `Player` takes the lines of docs/EVENTS.md. Where the library or the player isn't built, the second program
answers, with a warning: it isn't proved.
"""
from tardis.errors import BadConfiguration, BadText, NoMemory, TardisError, TooManyStates
from tardis.events import Answer, Message, Totals, answers_of
from tardis.history import History, Verdict
from tardis.machine import Machine
from tardis.player import Player
from tardis.reports import CountedReport, Counts, End, EndsReport, LitmusReport, Record, Records, State, TraceReport
from tardis.runs import check, ends, litmus, trace
from tardis.version import VERSION as __version__

__all__ = ["Answer", "BadConfiguration", "BadText", "CountedReport", "Counts", "End", "EndsReport", "History",
           "LitmusReport", "Machine", "Message", "NoMemory", "Player", "Record", "Records", "State", "TardisError",
           "TooManyStates", "Totals", "TraceReport", "Verdict", "__version__", "answers_of", "check", "ends", "litmus", "trace"]
