"""Litmus tests, traces, and checks of histories."""
import os
import subprocess
import tempfile
from collections.abc import Mapping
from json import loads
from typing import Any, Literal, overload

from tardis import found, library
from tardis.errors import BadConfiguration, BadText, NoMemory, TardisError, TooManyStates
from tardis.options import OF_RUNS, OF_TRACE, Asked, Options, flags, given_options, whole, within
from tardis.reports import CountedReport, EndsReport, LitmusReport, Records, TraceReport
from tardis.reports import ends_report, litmus_report, records_of, trace_report


def in_bytes(text: str | bytes) -> bytes:
    return text.encode() if isinstance(text, str) else text


def by_second(words: list[str], *texts: bytes) -> tuple[bool, str]:
    """Whether all is done, and what the second program, which stands for the shared library, prints of a command on
    these texts, whose files are named behind the words."""
    program = found.second("oracle.py", "the shared library")
    with tempfile.TemporaryDirectory(prefix="tardis-") as folder:
        paths = [os.path.join(folder, str(number)) for number in range(len(texts))]
        for path, text in zip(paths, texts):
            with open(path, "wb") as file:
                file.write(text)
        came = subprocess.run(program + words + paths, capture_output=True, text=True)
    if came.returncode in (0, 1) and (came.stdout or not came.stderr):  # of records there may be none
        return came.returncode == 0, came.stdout
    told = came.stderr.strip()
    if told.startswith("tardis: more than "):
        raise TooManyStates(told)
    raise {1: NoMemory, 2: BadText, 3: BadConfiguration}.get(came.returncode, TardisError)(told)


def object_of(text: str) -> dict[str, Any]:
    """The object that a JSON text is."""
    read: dict[str, Any] = loads(text)
    return read


def run(kind: str, text: bytes, options: Options, asked: Asked) -> tuple[str, bool]:
    """The text of a report, and whether the proved library made it."""
    if library.loaded():
        return library.run(kind, text, options, asked)[1], True
    return by_second([kind, *options.words(kind), *asked.words()], text)[1], False


def recorded(text: bytes, options: Options) -> Records:
    """The records of a trace. If its run was cut, a second one says how: they are alike."""
    asked = Asked(records=True)
    if library.loaded():
        is_done, records = library.run("trace", text, options, asked)
    else:
        is_done, records = by_second(["trace", *options.words("trace"), *asked.words()], text)
    end = "all-done" if is_done else trace_report(*run("trace", text, options, Asked())).end
    return records_of(records, end)


@overload
def litmus(text: str | bytes, *, json: Literal[False] = False, **options: Any) -> LitmusReport: ...


@overload
def litmus(text: str | bytes, *, json: Literal[True], **options: Any) -> dict[str, Any]: ...


def litmus(text: str | bytes, *, json: bool = False, **options: Any) -> LitmusReport | dict[str, Any]:
    """Runs a litmus test (docs/TEXTS.md), with the fields of `Options`: `litmus(text, runs=1000, schedule="seed")`.
    With `json`, the report is the object that `--json` writes.

    Raises BadText, BadConfiguration or NoMemory."""
    built = given_options("litmus", OF_RUNS, options, "json")
    came = run("litmus", in_bytes(text), built, Asked(json=json))
    return object_of(came[0]) if json else litmus_report(*came)


@overload
def ends(text: str | bytes, *, states: int = 4_194_304, orders: bool = False,
         json: Literal[False] = False) -> EndsReport: ...


@overload
def ends(text: str | bytes, *, states: int = 4_194_304, orders: bool = False,
         json: Literal[True]) -> dict[str, Any]: ...


def ends(text: str | bytes, *, states: int = 4_194_304, orders: bool = False,
         json: bool = False) -> EndsReport | dict[str, Any]:
    """Lists every end that a litmus test has, in any run. `states` may be kept at once, from 1 to 4294967295. With
    `orders`, each end has an order of the memory operations that leads there. With `json`, the list is the object that
    `--json` writes.

    Raises BadText, BadConfiguration, TooManyStates or NoMemory."""
    within("states", states, 1, 2 ** 32 - 1)
    flags(orders=orders, json=json)
    is_proved = library.loaded() is not None
    if is_proved:
        listed = library.ends(in_bytes(text), states, orders, json)
    else:
        words = ["ends", "--states", str(states), *["--orders"] * orders, *["--json"] * json]
        listed = by_second(words, in_bytes(text))[1]
    return object_of(listed) if json else ends_report(listed, is_proved)


@overload
def trace(text: str | bytes, *, records: Literal[False] = False, counts: Literal[True], every: int | None = None,
          json: Literal[False] = False, **options: Any) -> CountedReport: ...


@overload
def trace(text: str | bytes, *, records: Literal[False] = False, counts: bool = False, every: int | None = None,
          json: Literal[False] = False, **options: Any) -> TraceReport: ...


@overload
def trace(text: str | bytes, *, records: Literal[False] = False, counts: bool = False, every: int | None = None,
          json: Literal[True], **options: Any) -> dict[str, Any]: ...


@overload
def trace(text: str | bytes, *, records: Literal[True], **options: Any) -> Records: ...


def trace(text: str | bytes, *, records: bool = False, counts: bool = False, every: int | None = None,
          json: bool = False, **options: Any) -> TraceReport | Records | dict[str, Any]:
    """Runs a trace over a memory of zeros: its report, or its records by columns, whose `end` says how the run ended.
    With `counts`, the report has what the run did, in numbers; with `every`, also each time that so many more
    operations were completed. With `json`, the report is the object that `--json` writes.

    Raises BadText, BadConfiguration or NoMemory."""
    built = given_options("trace", OF_TRACE, options, "records", "counts", "every", "json")
    asked = Asked(records=records, counts=counts, every=every, json=json)
    if records:
        return recorded(in_bytes(text), built)
    came = run("trace", in_bytes(text), built, asked)
    return object_of(came[0]) if json else trace_report(*came)


@overload
def check(trace: str | bytes, records: str | bytes, *, opening: Mapping[int, int] | str | bytes = "",
          complete: bool = False, json: Literal[False] = False) -> str: ...


@overload
def check(trace: str | bytes, records: str | bytes, *, opening: Mapping[int, int] | str | bytes = "",
          complete: bool = False, json: Literal[True]) -> dict[str, Any]: ...


def check(trace: str | bytes, records: str | bytes, *, opening: Mapping[int, int] | str | bytes = "",
          complete: bool = False, json: bool = False) -> str | dict[str, Any]:
    """The checker's verdict on records of a trace's operations: `legal`, or what is wrong and the number of the record.

    `opening` has the values that words open with, by byte address or as a text; all others open with 0. With
    `complete`, legal records that lack an operation's are told by its core and place. With `json`, the verdict is the
    object that `--json` writes. Raises BadText or NoMemory."""
    flags(complete=complete, json=json)
    if isinstance(opening, Mapping):
        opening = "".join(f"{whole('address', address):#x} {whole('value', value)}\n"
                          for address, value in opening.items())
    texts = in_bytes(opening), in_bytes(trace), in_bytes(records)
    if library.loaded():
        told = library.check(*texts, complete, json)
    else:
        told = by_second(["check", *["--complete"] * complete, *["--json"] * json, "--opening"], *texts)[1]
    return object_of(told) if json else told.strip()
