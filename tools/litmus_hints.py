"""What is meant by a faulty litmus test, for tools/explain.py, where its words give it away; and what of a test that is
read can't be meant.

That tools/from_herd.py converts a test is said only if it does.
"""
import difflib
import re

from reference.litmus import Test
from tools import from_herd

OPERANDS = {"lw": "xD,0(xB)", "ld": "xD,0(xB)", "sw": "xS,0(xB)", "sd": "xS,0(xB)", "li": "xD,N", "ori": "xD,x0,N",
            "amoswap.w": "xD,xS,(xB)", "amoswap.d": "xD,xS,(xB)", "fence": "A,B, each of them r, w or rw"}
# What other machines and languages call them.
ELSEWHERE = {"st": "sw", "str": "sw", "store": "sw", "stw": "sw", "ldr": "lw", "load": "lw", "lwz": "lw",
             "set": "li", "mov": "lw`, `sw` or `li", "movl": "lw`, `sw` or `li",
             "swap": "amoswap.w", "xchg": "amoswap.w", "swp": "amoswap.w",
             "mfence": "fence rw,rw", "dmb": "fence rw,rw", "sync": "fence rw,rw"}
KEYWORDS = ("exists", "~exists", "forall")
ATOMIC = ("amo", "lr", "sc")
ARITHMETIC = "add addi sub xor xori or and andi mv sll slli".split()


def of_herd(path):
    """What tools/from_herd.py makes of a test that has what only herd7's format has."""
    obstacles = from_herd.obstacles_of(path)
    if not obstacles:
        return "It is in herd7's format: `tools/from_herd.py` converts it."
    return f"It is in herd7's format, and `tools/from_herd.py` refuses it: line {obstacles[0][0]}: {obstacles[0][1]}."


def of_instruction(cell):
    """What a cell with an unknown instruction or other operands may mean; None if that isn't known."""
    name, _, rest = cell.partition(" ")
    bare = re.sub(r"\.(aq|rl)$", "", name)
    if bare in OPERANDS:
        offset = bare.startswith("amoswap") and re.search(r",0\(", rest)
        shape = f"The operands of `{name}` are {OPERANDS[bare]}"
        return shape + ": without the 0 that loads and stores have." if offset else shape + "."
    if name in ("amoswap", "amoswap.aq", "amoswap.rl"):
        return "`amoswap.w` or `amoswap.d`: its width belongs to its name."
    if bare.startswith(ATOMIC) or name.endswith(":") or bare in ARITHMETIC:
        return None
    near = ELSEWHERE.get(name.lower()) or next(iter(difflib.get_close_matches(name.lower(), OPERANDS, 1, 0.6)), None)
    asked = f": did you mean `{near}`?" if near and near != name else "."
    return f"`{name}` is no instruction here{asked} There are {', '.join(f'`{known}`' for known in OPERANDS)}."


def head_of(text):
    """The header row of the table, or None."""
    return next((row for row in text.split("\n") if re.match(r"[ \t\r]*P0[ \t\r]*([|;]|$)", row)), None)


def of_row(text, line):
    """What a line of the table may mean, by its keyword or by how many cells it has."""
    word = (line.split() or [""])[0].split("(")[0]
    near = difflib.get_close_matches(word.lower(), KEYWORDS, 1, 0.7)
    if re.match(r"\s*\w*\s*\(*\s*\d+\s*:\s*x\d+\s*=", line) and word not in KEYWORDS and not near:
        return "A condition begins with `exists`, `~exists` or `forall`; any other line counts as a row."
    if near and word not in KEYWORDS:
        return f"`{word}`: did you mean `{near[0]}`? Any line that begins otherwise counts as a row."
    heads = head_of(text)
    bare = line.rstrip(" \t\r")
    if heads is None or bare == heads.rstrip(" \t\r"):
        return None
    if ";" in bare[:-1]:
        return "One `;` ends the row; `|` stands between cells."
    if not bare.endswith(";"):
        return "The row lacks its `;`." if "|" in bare or heads.count("|") == 0 else None
    cells, threads = bare.count("|") + 1, heads.count("|") + 1
    if cells == threads:
        return None
    return f"The row has {cells} cell{'s' * (cells > 1)}, and there are {threads} threads: a blank cell stands, too."


def of_condition(text, line):
    """What a condition may mean that can't go on in this line."""
    heads = head_of(text)
    missing = [thread for thread in re.findall(r"(\d+)\s*:\s*x\d", line) if int(thread) > heads.count("|")]
    if missing:
        threads = heads.count("|") + 1
        return f"There is no thread {missing[0]}: the table has {threads}, from P0 on." if threads > 1 else \
            f"There is no thread {missing[0]}: the table has P0 alone."
    if re.search(r"\bP\d+\s*:", line):
        return "A thread stands as its number alone: `1:x7`, not `P1:x7`."
    if re.search(r"\d\s*:\s*(?!x\d)\w", line):
        return "Registers are x0 to x31."
    if re.search(r"=\s*-", line):
        return "No number is negative."
    if re.search(r"=\s*\d+\s*[,;&|]", line):
        return "Atoms are joined by `/\\` and `\\/` alone."
    if re.search(r"\bx\d+\s*=", re.sub(r"\d\s*:\s*x\d+", "", line)):
        return "A register has its thread in front, as `0:x7`."
    if re.search(r":\s*x0\s*=", line):
        return "x0 is always 0, and no condition names it."
    return "A parenthesis too many, or one that is missing." if line.count("(") != line.count(")") else None


def of_block(line):
    """What a line in which the initial block can't go on may mean."""
    if re.match(r"[ \t]*P0[ \t\r]*([|;]|$)", line) and "}" not in line:
        return "The initial block has no `}` before the table."
    if re.search(r"\{.*\{", line):
        return "Arrays have no counterpart here: each word is a location of its own."
    if re.search(r"(^|[;{])\s*[A-Za-z_]\w*\s*=\s*&?[A-Za-z_]", line):
        return "A location opens with a number: addresses in memory have no counterpart here."
    if re.search(r"=\s*\w+\s*,", line):
        return "Items end in `;`, not in a comma."
    return None


def with_herd(path, meant):
    """What is meant, and that tools/from_herd.py converts the test, if it does."""
    return meant if from_herd.obstacles_of(path) else f"{meant} But `tools/from_herd.py` converts this test."


def hint(text, number, kind, cell):
    """What the fault's place says of what is meant; None if a general hint has to do. `cell` is None outside cells."""
    line = (text.split("\n") + [""])[number - 1]
    found = None
    if not text.strip():
        return "The text is empty."
    if kind == 4 and number == 1 and re.match(r'\s*(\{|"|P0|\w+\s*=)', line):
        return "The first line is missing: `RISCV NAME`."
    if kind == 5:
        found = of_block(line)
    if kind == 7:
        found = of_row(text, line)
    if kind == 13:
        found = of_condition(text, line)
    if kind == 8 and cell:
        found = of_instruction(cell)
    return found


# What of a test that is read can't be meant.
def of_names(test):
    """The condition's names that no instruction changes."""
    for name in test.seen:
        thread, _, register = name.partition(":")
        if register:
            code = test.threads[int(thread)]
            if not any(kind in ("load", "swap", "set") and target == register for kind, target, *_ in code):
                value = test.start.get((int(thread), register), 0)
                yield f"{name} in the condition: no instruction of P{thread} writes {register}, so it is always {value}"
        else:
            codes = [code for column in test.threads for code in column if code[3] == test.words[name]]
            if not any(kind in ("store", "swap") for kind, *_ in codes):
                what = "loads or stores" if not codes else "stores"
                value = test.memory.get(test.words[name], 0)
                yield f"{name} in the condition: no instruction {what} it, so it is always {value}"


def of_registers(test):
    """Address registers that no instruction uses, and registers that are stored and that nothing sets."""
    rows = test.table.split("\n")
    columns = [" ".join(cells[at] for cells in (row.split("|") for row in rows) if at < len(cells))
               for at in range(len(test.threads))]
    for thread, register, value in re.findall(r"(\d+)\s*:\s*(x\d+)\s*=\s*([A-Za-z_]\w*)", test.opening):
        if not re.search(rf"\(\s*{register}\s*\)", columns[int(thread)]):
            yield f"{thread}:{register}={value}: no instruction of P{thread} uses that address"
    for thread, column in enumerate(test.threads):
        known = {register for of, register in test.start if of == thread} | {"x0"}
        for kind, target, source, _ in column:
            if kind in ("store", "swap") and source not in known:
                yield f"P{thread} stores {source}, which nothing has set: it is 0"
            if kind in ("load", "swap", "set"):
                known.add(target)


def warnings(text):
    """What of a test that is read can't be meant, a line for each."""
    test = Test(text)
    return [*of_names(test), *of_registers(test)]
