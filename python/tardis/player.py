"""Players of events, to whose `--live` each call is one line of docs/EVENTS.md that is answered at once."""
import contextlib
import subprocess
from collections.abc import Callable, Mapping
from functools import partial
from typing import Any

from tardis import found
from tardis.errors import NoMemory, TardisError
from tardis.events import Answer, Message, Totals, answer_of, list_of, message_of
from tardis.options import OF_MACHINE, Options
from tardis.reports import Record, record_of


def end(process: subprocess.Popen[str]) -> None:
    """Ends a player."""
    for pipe in (process.stdin, process.stdout):
        with contextlib.suppress(BrokenPipeError):
            if pipe:
                pipe.close()
    process.wait()


class Player:
    """The player of events, or the second program's where that isn't built. It tells what a `Machine` doesn't: times,
    what copies and entries hold, whole states, and drives by a schedule. `call("machine cores 2 lease 10")` opens its
    machine.

    `is_proved` says whether the proved player answers. Close it, or use it in a `with`. A call that is interrupted ends
    the player, since its answer would be taken for the next call's. So one thread at a time may call it."""

    def __init__(self) -> None:
        path = found.player()
        self.is_proved = path is not None
        self._begin([path] if path else found.second("play.py", "the player of events"))

    def _begin(self, command: list[str]) -> None:
        # In a process group of its own, so that Ctrl-C doesn't end it.
        self._process = subprocess.Popen([*command, "--live"], stdin=subprocess.PIPE, stdout=subprocess.PIPE, text=True,
                                         bufsize=1, process_group=0)

    def call(self, line: str) -> str:
        """The answer to a line of docs/EVENTS.md. A line that can't be read is a ValueError with the cause."""
        if "\n" in line or not line.isascii() or not line.strip():
            raise ValueError("one call, in one line of ASCII")
        sent, answers = self._process.stdin, self._process.stdout
        assert sent and answers
        if sent.closed:
            raise TardisError("the machine is closed")
        try:
            sent.write(line + "\n")
            answer = answers.readline()
        except BrokenPipeError:
            answer = ""
        except BaseException:
            self._process.kill()
            self.close()
            raise
        if not answer:
            raise TardisError("the player ended")
        if answer.startswith("unread: "):
            raise ValueError(f"{line}: {answer.removeprefix('unread: ').strip()}")
        return answer.rstrip("\n")

    def close(self) -> None:
        """Ends the player; a call is then a TardisError."""
        end(self._process)

    def __del__(self) -> None:
        if hasattr(self, "_process"):
            self.close()

    def __enter__(self) -> "Player":
        return self

    def __exit__(self, *error: object) -> None:
        self.close()


class Second(Player):
    """The second program's machine, which answers where there is no library."""

    def __init__(self, cores: int, options: Options, memory: Mapping[int, int]) -> None:
        self.is_proved = False
        self._begin(found.second("play.py", "the shared library"))
        words = " ".join(f"{name.replace('_', '-')} {getattr(options, name)}" for name in OF_MACHINE
                         if name != "private_write")
        opening = " ".join(f"{address:#x} {value}" for address, value in memory.items())
        opened = self.call(f"machine cores {cores} {words} private-write {'yes' if options.private_write else 'no'}"
                           + (f" with {opening}" if opening else ""))
        if opened != "opened":
            self.close()
            raise NoMemory(opened) if "NoMemory" in opened else TardisError(opened)

    def issue(self, core: int, kind: str, address: int, value: int | None) -> Answer:
        return answer_of(self.call(f"issue {core} {kind} {address:#x}" + ("" if value is None else f" {value}")))

    def event(self, name: str, number: int) -> Answer:
        return answer_of(self.call(f"{name} {'m' * (name == 'deliver')}{number}"))

    def evict(self, part: str, seat: int, address: int) -> Answer:
        return answer_of(self.call(f"evict {part} {seat} {address:#x}"))

    def _told(self, call: str, made: Callable[[str], Any]) -> Any:
        """What is made of the answer, unless that is `none`."""
        told = self.call(call)
        return None if told == "none" else made(told)

    def in_flight(self) -> list[int]:
        return [int(word[1:]) for word in list_of(self.call("flight"))]

    def message(self, number: int) -> Message | None:
        message: Message | None = self._told(f"message m{number}", partial(message_of, number))
        return message

    def record(self, number: int) -> Record | None:
        record: Record | None = self._told(f"record {number}", record_of)
        return record

    def victim(self, core: int, address: int) -> int | None:
        line: int | None = self._told(f"victim {core} {address:#x}", lambda told: int(told, 16))
        return line

    def room(self, number: int) -> tuple[int, int] | None:
        words = self.call(f"room m{number}").split()
        return (int(words[1]), int(words[2], 16)) if words[0] == "bank" else None

    def open_operation(self, core: int) -> str | None:
        told: str | None = self._told(f"open {core}", str)
        return told

    def lines(self, name: str, seat: int) -> list[int]:
        return [int(word, 16) for word in list_of(self.call(f"{name} {seat}"))]

    def owners(self, address: int) -> int:
        return int(self.call(f"owners {address:#x}"))

    def value(self, address: int) -> int:
        return int(self.call(f"word {address:#x}"))

    def totals(self) -> Totals:
        renewals, upgrades, flushes, write_backs = map(int, self.call("sent").split()[1::2])
        return Totals(renewals, upgrades, flushes, write_backs, len(self.in_flight()), int(self.call("records")),
                      self.call("stopped") == "yes")
