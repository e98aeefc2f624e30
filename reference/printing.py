"""A text of examples with the answers that came (docs/EVENTS.md)."""
import re

from reference.texts import Turned, examples_of, is_answer


def came_of(text, kinds):
    """By line number the line and what came in each turn that it was played in; and the faults."""
    came, faults = {}, []
    for example in examples_of(text, kinds):
        if example.fault:
            faults.append(example.fault)
            continue
        player = example.kind() if example.kind else None
        for line, _, call, wanted in example.lines():
            came.setdefault(line.number, (line, []))[1].append((wanted, player.play(call)))
    return came, faults


def going_on(one, other):
    """A word for one of the first turn and another of the second, if it is a number, an address or a message."""
    first, second = (re.fullmatch("(0x|m|)([0-9a-f]+)", word) for word in (one, other))
    is_hexadecimal = one.startswith("0x")
    if one == other or not first or not second or not (is_hexadecimal or (first[2] + second[2]).isdigit()):
        return one
    base, unit = (16, 8) if is_hexadecimal else (10, 1)
    by = (int(second[2], base) - int(first[2], base)) // unit
    return f"{one}{'+' if by > 0 else '-'}{abs(by) if abs(by) > 1 else ''}@"


def in_turns(answers):
    """One text for the answers of all turns, if numbers in it go on by the same step each turn; else that of the first.
    """
    words = [re.split(r"([ ;,])", answer) for answer in answers[:2]]
    if len(set(answers)) > 1 and len(words[0]) == len(words[1]):
        text = "".join(going_on(one, other) for one, other in zip(*words))
        turned = Turned(text)
        if all(turned.text(turn) == answer for turn, answer in enumerate(answers)):
            return text
    return answers[0]


def with_answer(text, answer):
    """A line with this answer in place of the one that it has. What stands in front of it and the comment stay."""
    code, sign, comment = text.partition("#")
    call = re.match(r"(.*?)[ \t]+:([ \t]|$)", code)
    front = f"{call[0].rstrip(' ' + chr(9))} " if call else f"{code.rstrip()} : "
    blanks = code[len(code.rstrip()):] or " "
    return front + answer + (blanks + sign + comment if sign else "")


def printed(text, kinds):
    lines, (came, faults) = text.split("\n"), came_of(text, kinds)
    for number, (line, answers) in came.items():
        if not all(wanted is not None and is_answer(wanted, answer) for wanted, answer in answers):
            lines[number - 1] = with_answer(lines[number - 1], in_turns([answer for _, answer in answers]))
    return "\n".join(lines) + "\n" * (lines[-1] != ""), faults
