"""An order as a trace and records (docs/TEXTS.md). Each record has time 0, so its number is its place in the order."""
from pathlib import Path

from tools import program
from tools.orders.history import FENCE, LOAD, STORE, words_of

FORM_1_CORES = 16


def opening_lines(opening, words):
    """The values that words of the history open with, as the program takes them."""
    yield from (f"{words[address]:#x} {value}" for address, value in opening.items() if address in words)


def operation_text(operation, words, received):
    fields = [operation.kind, f"{words[operation.address]:#x}"]
    fields += [] if operation.kind == LOAD else [operation.written]
    fields += [operation.received] if received and operation.kind != STORE else []
    return " ".join(map(str, fields))


def remarks(operations, words):
    """The word of each address, where it isn't the address itself."""
    if any(address % 8 for address in words):
        yield from (f"# {word:#x} stands for {address:#x}" for address, word in words.items())


def trace_lines(operations, words, with_fences):
    """Each core's operations, in the text's order. A fence, as `CORE F`, is of no trace that the program reads."""
    if any(operation.core >= FORM_1_CORES for operation in operations):
        yield "trace 2"
    yield from remarks(operations, words)
    for operation in operations:
        if operation.kind != FENCE:
            yield f"{operation.core} {operation_text(operation, words, False)}"
        elif with_fences:
            yield f"{operation.core} F"


def record_lines(operations, words, order):
    """The records by rising number, each under the line of the history that it is of."""
    places, count = {}, {}
    for node, operation in enumerate(operations):
        if operation.kind != FENCE:
            places[node] = count.get(operation.core, 0)
            count[operation.core] = places[node] + 1
    yield from remarks(operations, words)
    for number, node in enumerate(node for node in order if node in places):
        operation = operations[node]
        said = f"{operation.core} {places[node]} {operation_text(operation, words, True)} 0 {number}"
        yield f"{said} # line {operation.line}"


def keeps_real_time(operations, order):
    """Whether each operation of an order ended no sooner than all before it there started."""
    latest = float("-inf")  # the greatest start so far
    for node in order:
        start, end = operations[node].start, operations[node].end
        if end is not None and end < latest:
            return False
        latest = latest if start is None else max(latest, start)
    return True


def texts(operations, order, opening, with_fences):
    """The lines of an order's trace and records, and of its opening if that isn't zeros, by what they are."""
    words = words_of(operations)
    lines = {"trace": trace_lines(operations, words, with_fences), "records": record_lines(operations, words, order)}
    return lines | ({"opening": opening_lines(opening, words)} if opening else {})


def write(path, lines):
    path.write_text("".join(f"{line}\n" for line in lines), encoding="ascii")


def write_all(folder, name, lines_of, given):
    """The path of each text that is written, by what it is. No file that was given is overwritten."""
    paths = {what: folder / f"{name}.{what}" for what in lines_of}
    for path in paths.values():
        if path.resolve() in [Path(each).resolve() for each in given if each]:
            program.fail(f"{path} would be overwritten; --out names another folder")
    try:
        folder.mkdir(parents=True, exist_ok=True)
        for what, lines in lines_of.items():
            write(paths[what], lines)
    except OSError as error:
        program.fail(f"{error.filename}: {error.strerror}")
    return paths


def words_of_check(paths):
    """The words with which the program checks an order."""
    named = ["--opening", paths["opening"]] if "opening" in paths else []
    return ["check", "--complete", *named, paths["trace"], paths["records"]]
