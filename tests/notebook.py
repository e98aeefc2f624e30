#!/usr/bin/env python3
"""Runs the notebook of examples/notebooks: tests/notebook.py

Its cells are run here, with the library and the player that the environment names, and once more by jupyter-nbconvert
where that is there. Its counts must be those of the second program, its plot must have a point for each, and its page
must be what tools/page.py writes.
"""
import ast
import contextlib
import io
import json
import os
import shutil
import subprocess
import sys
import types
from html import unescape
from pathlib import Path

TOP = Path(__file__).resolve().parent.parent
NOTEBOOK = TOP / "examples/notebooks/lease.ipynb"
LEASES = 1, 2, 5, 10, 20, 50, 100
COUNTS = "renewals", "flushes", "stale-hits"
QUIET = os.environ | {"PYDEVD_DISABLE_FILE_VALIDATION": "1"}


def printed(*words):
    """What a script of the repository prints."""
    return subprocess.run(words, cwd=TOP, env=QUIET, stdout=subprocess.PIPE, check=True, text=True).stdout


def counts():
    """The lines that the second program's reports make."""
    yield f"lease {' '.join(COUNTS)}"
    for lease in LEASES:
        report = printed("reference/oracle.py", "trace", "--lease", str(lease), "--line-words", "8",
                         "examples/traces/RECORDED-QUEUE.trace")
        numbers = dict(line.split()[:2] for line in report.splitlines())
        yield " ".join([str(lease), *(numbers[count] for count in COUNTS)])


def by_jupyter():
    """The outputs of the cells, by Jupyter; None where that isn't there."""
    if shutil.which("jupyter-nbconvert") is None:
        return print("notebook.py: no jupyter-nbconvert, so the notebook is run without it", file=sys.stderr)
    words = ["jupyter-nbconvert", "--to", "notebook", "--execute", "--stdout", "--log-level", "ERROR", NOTEBOOK]
    ran = subprocess.run(words, cwd=TOP, env=QUIET, capture_output=True, text=True)
    if "NoSuchKernel" in ran.stderr:
        return print("notebook.py: no python3-ipykernel, so the notebook is run without Jupyter", file=sys.stderr)
    if ran.returncode:
        sys.exit(f"notebook.py: {ran.stderr}")
    outputs = [output for cell in json.loads(ran.stdout)["cells"] for output in cell.get("outputs", [])
               if output.get("name") != "stderr"]  # there tools/page.py says if the second program played
    return ["".join(output["text"] if output["output_type"] == "stream" else output["data"]["text/html"])
            for output in outputs]


def by_cells():
    """The outputs of the cells, which are run here: what each prints, or the HTML that its last line is."""
    shown = types.ModuleType("IPython.display")
    shown.HTML = str
    sys.modules["IPython"] = sys.modules["IPython.display"] = shown
    os.chdir(NOTEBOOK.parent)
    names, outputs = {}, []
    for cell in json.loads(NOTEBOOK.read_text())["cells"]:
        if cell["cell_type"] == "code":
            *body, last = ast.parse("".join(cell["source"])).body
            is_value = isinstance(last, ast.Expr) and not (isinstance(last.value, ast.Call)
                                                           and getattr(last.value.func, "id", "") == "print")
            with contextlib.redirect_stdout(io.StringIO()) as said:
                exec(compile(ast.Module(body if is_value else [*body, last], []), "cell", "exec"), names)
                value = eval(compile(ast.Expression(last.value), "cell", "eval"), names) if is_value else None
            outputs += [said.getvalue()] * bool(said.getvalue()) + [value] * is_value
    return outputs


def fault(outputs):
    """What is wrong with the outputs."""
    version = {}
    exec((TOP / "python/tardis/version.py").read_text(), version)
    if len(outputs) != 4:
        return f"{len(outputs)} outputs"
    said, swept, drawn, shown = outputs
    if said != f"tardis {version['VERSION']} proved\n":
        return said
    if swept.splitlines() != list(counts()):
        return f"other counts than the second program's: {swept}"
    if drawn.count("<circle") != len(LEASES) * len(COUNTS) or any(count not in drawn for count in COUNTS):
        return "the plot lacks points"
    wanted = printed("tools/page.py", "--lease", "3", "examples/traces/PAST.trace")
    if unescape(shown.partition('srcdoc="')[2].partition('" width=')[0]) != wanted:
        return "the page is another one than that of tools/page.py"
    return None


if __name__ == "__main__":
    if sys.argv[1:]:
        sys.exit(print(__doc__))
    for made in (by_jupyter(), by_cells()):
        if made is not None and (why := fault(made)):
            sys.exit(f"notebook.py: {why}")
