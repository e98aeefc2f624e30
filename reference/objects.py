"""The objects of `--json`, as docs/TEXTS.md has them, of the values that the lines of a report have, too."""
import json


def text_of(command, members):
    """The one line that a command writes. Each number stands there in full, and no blank."""
    return json.dumps({"version": 1, "command": command, **members}, separators=(",", ":")) + "\n"


def litmus(batch):
    states = [{"count": count, "values": dict(values)} for values, count in batch.states.items()]
    return text_of("litmus", {**batch.head(), "states": states, **batch.foot()})


def ends(listing, has_orders):
    found = [{"holds": listing.test.holds(end), "values": dict(end)} | ({"order": list(order)} if has_orders else {})
             for end, order in listing.ends]
    return text_of("ends", {**listing.head(), "ends": found, **listing.foot(), "observation": listing.observation()})


def trace(fields, words, counts=None):
    """`counts` is the machine that counted, if one did."""
    members = {**fields, "words": words}
    if counts and counts.every:
        members["rows"] = [{"completed": completed, **found} for completed, found in counts.rows]
    if counts:
        members["counts"] = counts.found()
    return text_of("trace", members)


def check(verdict, lack=None):
    """A verdict with the number of its record, or the place and the core of the first record that is missing."""
    if lack:
        return text_of("check", {"verdict": "no record", **dict(zip(("place", "core"), lack))})
    return text_of("check", dict(zip(("verdict", "number"), verdict)))
