#!/usr/bin/env python3
"""Lists each sentence of the pages (README.md and the others at the top, docs/*.md, crates/*/README.md and
examples/README.md) with over 30 words, and each phrase that pages, doc comments (`///` and `//!` in the sources of
crates/) and docstrings of scripts don't use.

    maintain/sentences.py            lists them, each with its file and line
    maintain/sentences.py --check    does so, and fails if there is one
    maintain/sentences.py FILE ..    lists those of these pages, sources and scripts

A sentence ends at a full stop, a question mark or an exclamation mark, and at the end of its paragraph, list item or
table cell; a colon or semicolon ends none. Code in backquotes is one word, and a link is the words of its text. Fenced
blocks, indented blocks and comments are left out. Phrases aren't looked for in tables that a script writes, either.
"""
import ast
import re
import sys
from os.path import relpath
from pathlib import Path

TOP = Path(__file__).resolve().parent.parent
PAGES = [TOP / name for name in (
    "README.md", "CONTRIBUTING.md", "GLOSSARY.md", "examples/README.md", "examples/exercises/README.md",
    "reference/README.md", "tools/README.md")]
MOST_WORDS = 30
# Sources whose doc comments are still to be written anew.
LATER = [TOP / "crates" / name for name in (
    "guide_uses/src/names.rt", "interleaving_core/src/core_masks.rt", "line_sets/src/entries.rt", "line_sets/src/sets.rt",
    "litmus_parser/src/cells.rt", "ranked_lines/src/blocks.rt", "ranked_lines/src/lib.rt",
    "ranked_lines/src/lines.rt", "ranked_lines/src/rising_list.rt", "ranked_lines/src/selection.rt",
    "report/src/one_run.rt", "report/src/reports.rt", "trace_texts/src/reports.rt")]
ABBREVIATIONS = {"e.g.", "i.e.", "cf.", "vs."}
# What they don't say, each with what they say instead.
UNSAID = {"is told": "is reported", "are told": "are reported", "was told": "was reported", "were told": "were reported",
          "be told": "be reported", "is said by": "X says", "is said in": "X says", "so many": "n, or each",
          "whatever": "any", "comes of": "the result", "come of": "the result", "came of": "the result",
          "beside": "next to, or against", "wants": "needs", "wanted": "expected", "want of": "lack of",
          "stands on": "depends on"}

FENCE = re.compile(r"\s*(`{3,}|~{3,})")
LIST_ITEM = re.compile(r"^\s*([-*+]|\d+[.)])\s+")
HEADING = re.compile(r"^#+\s+")


def prose_lines(text):
    """The lines of a page with their numbers; those of fenced blocks and of comments are blank."""
    text = re.sub(r"<!--.*?-->", lambda m: "\n" * m.group().count("\n"), text, flags=re.S)
    fence = None
    for number, line in enumerate(text.splitlines(), 1):
        found = FENCE.match(line)
        mark = found.group(1) if found else ""
        if fence is None and mark:
            fence = mark
            yield number, ""
        elif fence is not None:
            if mark.startswith(fence) and not line.strip(" `~"):
                fence = None
            yield number, ""
        else:
            yield number, line


def starts_item(line, in_list):
    """If a line after another one begins a list item. A number does so in a list, and otherwise only if it is 1."""
    found = LIST_ITEM.match(line)
    return bool(found) and (in_list or not found.group(1)[0].isdigit() or found.group(1)[:-1] == "1")


def passages(text):
    """The paragraphs, headings, list items and table rows of a page: the number of the first line, and the lines."""
    taken, first, in_list = [], 0, False
    for number, line in prose_lines(text):
        indented = line.startswith("    ") and not taken and not in_list
        alone = line.lstrip().startswith("|") or HEADING.match(line)
        if taken and (not line.strip() or alone or starts_item(line, in_list)):
            yield first, "\n".join(taken)
            taken = []
        if line.strip() and not line.startswith(" "):
            in_list = False
        if alone:
            yield number, HEADING.sub("", line)
        elif line.strip() and not indented:
            in_list = in_list or bool(LIST_ITEM.match(line))
            first = first if taken else number
            taken.append(line if taken else LIST_ITEM.sub("", line))
    if taken:
        yield first, "\n".join(taken)


def plain(passage):
    """A passage with a word for each code, and with the text alone of each link; each word stays on its line."""
    passage = re.sub(r"(`+)(.+?)\1", lambda m: "\n" * m.group().count("\n") + "code", passage, flags=re.S)
    return re.sub(r"!?\[([^]]*)\]\([^)]*\)", r"\1", passage)


def cells(passage):
    """The cells of a table row, or the passage itself if it is none."""
    return re.split(r"(?<!\\)\|", passage) if passage.lstrip().startswith("|") else [passage]


def ends_sentence(word):
    """If a word is the last of its sentence. Two full stops stand for what is left out, and end none."""
    return bool(re.search(r"(^|[^.])[.?!][)\"'*_]*$", word)) and word.lstrip("(\"'*_") not in ABBREVIATIONS


def sentences(cell):
    """The sentences of a cell or a passage: how many lines lie before each, and its words."""
    words, before = [], 0
    for found in re.finditer(r"\S+", cell):
        if not words:
            before = cell.count("\n", 0, found.start())
        words.append(found.group())
        if ends_sentence(found.group()):
            yield before, words
            words = []
    if words:
        yield before, words


def long_sentences(text):
    """The sentences of a page with too many words: the line, how many words, and the first of them."""
    for first, passage in passages(text):
        for cell in cells(plain(passage)):
            for before, words in sentences(cell):
                count = sum(1 for word in words if re.search(r"\w", word))
                if count > MOST_WORDS:
                    yield first + before, count, " ".join(words[:8])


def doc_comments(text):
    """The doc comments of a source; its other lines are blank."""
    found = (re.match(r"\s*//[/!] ?(.*)", line) for line in text.splitlines())
    return "\n".join(line.group(1) if line else "" for line in found)


def docstrings(text):
    """The docstrings of a script; its other lines are blank."""
    kept = set()
    for node in ast.walk(ast.parse(text)):
        if isinstance(node, (ast.Module, ast.ClassDef, ast.FunctionDef)) and ast.get_docstring(node) is not None:
            kept.update(range(node.body[0].lineno, node.body[0].end_lineno + 1))
    return "\n".join(line.strip(' "') if number in kept else "" for number, line in enumerate(text.splitlines(), 1))


def sources():
    """The sources of crates and the scripts whose phrases are tested."""
    scripts = (path for folder in ("reference", "tools", "tests", "maintain") for path in (TOP / folder).rglob("*.py"))
    return sorted({*TOP.glob("crates/*/src/**/*.rt"), *scripts} - set(LATER))


def unsaid(text):
    """The phrases of a page, doc comments or docstrings that these don't use: the line, and the phrase."""
    text = re.sub(r"<!-- table .*?<!-- end -->", lambda m: "\n" * m.group().count("\n"), text, flags=re.S)
    phrases = re.compile(r"\b(%s)\b" % "|".join(UNSAID).replace(" ", r"\s+"), re.I)
    for first, passage in passages(text):
        words = plain(passage)
        for found in phrases.finditer(words):
            yield first + words.count("\n", 0, found.start()), " ".join(found.group().lower().split())


def main():
    named = [Path(word).resolve() for word in sys.argv[1:] if word != "--check"]
    faults, missing = 0, [page for page in named if not page.is_file()]
    if missing:
        print("sentences.py: %s: no such file" % relpath(missing[0]), file=sys.stderr)
        raise SystemExit(2)
    pages = PAGES + sorted((TOP / "docs").glob("*.md")) + sorted(TOP.glob("crates/*/README.md"))
    parts = {".rt": doc_comments, ".py": docstrings}
    for page in named or pages + sources():
        text = page.read_text(encoding="utf-8")
        text = parts.get(page.suffix, str)(text)
        for line, count, begin in long_sentences(text) if page.suffix not in parts else ():
            print("sentences.py: %s:%d: %d words: %s .." % (relpath(page), line, count, begin))
            faults += 1
        for line, phrase in unsaid(text):
            print('sentences.py: %s:%d: "%s": say %s' % (relpath(page), line, phrase, UNSAID[phrase]))
            faults += 1
    raise SystemExit(1 if faults and "--check" in sys.argv[1:] else 0)


if sys.argv[1:2] in (["-h"], ["--help"]):
    raise SystemExit(print(__doc__))
main()
