#!/usr/bin/env python3
"""Writes the tables of docs/architecture.md and docs/TRUST.md anew from the tree, and what pages quote of the sources;
or tests them. The pages are those at the top, docs/*.md, examples/README.md and crates/*/README.md.

    maintain/documents.py            writes the tables and the quotations
    maintain/documents.py --check    says what differs, and fails if something does

A table stands between the lines `<!-- table NAME -->` and `<!-- end -->`. A quotation stands between the lines
`<!-- source FILE ITEM .. -->` and `<!-- end -->`: a file of crates/ and the functions or types of it that are quoted,
each with the comment above it. The script also tests that each path of a file that a document names or links to is
there, that of a crate's proofs only proofs/Lemmas.antt is open to the crates above, and that the cases of what a part
does stand in no more files than they should.
"""
import re
import sys
from pathlib import Path

TOP = Path(__file__).resolve().parent.parent
CRATES = TOP / "crates"

# The public functions of each group, by crate: all (*), or those of a list; and clauses that are left to a later group.
# What these contracts cite, and what that is made of, must be read by those who trust them.
GROUPS = [
    ("The theorem: `records`, `owners` and `coherent` of `System`", [
        ("interleaving_core", "records owners coherent", "")]),
    ("The machine's table: `new` and `step`", [
        ("interleaving_core", "new step", "")]),
    ("Lists of events and what is looked up: `run`, `victim`, `make_room` and the others", [
        ("interleaving_core", "*", "")]),
    ("The checker: `check`, `arrange`, `replay` and `stale_hits`, and their counted steps", [
        ("physiological_order", "*", "")]),
    ("The litmus text: which one is read, as which test, and why one is refused", [
        ("litmus_reader", "*", "told early")]),
    ("The readings: which of a text's faults is reported", [
        ("litmus_reader", "*", "")]),
    ("Runs by threads: what a turn is, and each call of a seat that it makes", [
        ("thread_driver", "*", "")]),
    ("Seats of your own, and numbers: their calls, and what a close leaves", [
        (name, "*", "") for name in ("mailboxes", "closed_machine", "drawn_numbers", "shared_jobs", "stop_flags")]),
    ("Runs and reports: the schedule, the sequential machine, the text, the program", [
        (name, "*", "") for name in ("byte_streams", "programs", "schedules", "worker_driver", "sequential_machine",
                                     "sequential_ends", "report_text", "run_results", "command_line", "tardis")]),
    ("Traces and records: their texts, their runs, and the verdict of a check", [
        (name, "*", "") for name in ("trace_lines", "trace_reader", "trace_texts", "report")]),
    ("Calls from C and C++: their numbers, and what stands in their buffers", [
        ("tardis_c", "*", "")]),
    ("Laws for later layers: of the table's histories, of the moves of a state, of the protocol by lines", [
        ("machine_theorem", "*", ""), ("protocol", "*", "")]),
]

# What a part does, by cases; and the parts, which decide by them. Outside these, two files of definitions name more than
# one case of each, and two of code, so that a new case is added there and the prover leads to the rest.
WALKED = (("network", "part.Reaction"), ("core_pts", "attempt.Attempt"))
PARTS = ("core_pts", "llc_bank", "dram_mts")
WALKS_AT_MOST = 2

# How many definitions of a file the table of docs/TRUST.md names, where it means a part of the file.
NAMED_AT_MOST = 10


def first_words(crate):
    """The first sentence of a crate's root file."""
    root = next(p for p in (crate / "src/lib.rt", crate / "src/main.rt") if p.exists())
    words = []
    for line in root.read_text(encoding="utf-8").splitlines():
        if not line.startswith("//!"):
            break
        words.append(line[3:].strip())
    return re.split(r"(?<=[^.][.])\s", " ".join(words))[0].rstrip(".")


def layers():
    """The layers of crates.txt, each with its heading and the names of its crates."""
    for block in (TOP / "crates.txt").read_text(encoding="utf-8").split("\n\n"):
        lines = block.strip().splitlines()
        names = [line.split("#")[0].split(":")[0].split()[0] for line in lines if line.split("#")[0].strip()]
        if names:
            yield lines[0].removeprefix("# ").rstrip("."), names


def architecture():
    """Each crate with its first sentence, under the heading of its layer."""
    rows = ["| Crate | What it is |", "|---|---|"]
    for heading, names in layers():
        rows.append("| **%s** | |" % heading)
        rows += ["| `%s` | %s |" % (name, first_words(CRATES / name)) for name in names]
    return rows


class Definitions:
    """The definitions of one file of specs/: the lines of each, and the names that it brings in."""

    def __init__(self, path):
        self.blocks, self.names, self.modules = {}, {}, {}
        block, name = [], None
        for line in path.read_text(encoding="utf-8").splitlines() + [""]:
            if line.startswith(("use ", "pub use ")):
                self.read_import(line.removeprefix("pub "))
                continue
            if not line.strip():
                if name:
                    self.blocks.setdefault(name, []).extend(block)
                block, name = [], None
                continue
            block.append(line)
            found = re.match(r"\s*(?:abbrev pub|unfoldable pub|pub record|pub data|pub|record|data|abbrev) ([^ :]+)",
                             line)
            if found and not name:
                name = found.group(1)

    @staticmethod
    def of_source(path):
        """The definitions that a source file brings in for its contracts."""
        found = Definitions.__new__(Definitions)
        found.blocks, found.names, found.modules = {}, {}, {}
        for line in path.read_text(encoding="utf-8").splitlines():
            if line.lstrip().startswith("ghost use "):
                found.read_import(line.strip()[len("ghost "):].rstrip(";"))
        return found

    def read_import(self, line):
        found = re.match(r"use Rattle\.([a-z_]+)\.specs\.([A-Z][A-Za-z]*)(?:\.\{([^}]*)\})?(?: as (\w+))?$", line)
        if not found or not (CRATES / found.group(1) / "specs" / (found.group(2) + ".antt")).exists():
            return
        module = "%s/specs/%s.antt" % found.group(1, 2)
        for item in (found.group(3) or "").split(","):
            words = item.split(" as ")
            if words[0].strip():
                self.names[words[-1].strip()] = (module, words[0].strip())
        if not found.group(3):
            self.modules[found.group(4) or found.group(2)] = module


FILES = {}


def definitions(module):
    if module not in FILES:
        FILES[module] = Definitions(CRATES / module)
    return FILES[module]


def made_of(module, name):
    """The definitions that one names in its lines."""
    file = definitions(module)
    text = "\n".join(line for line in file.blocks[name] if not line.lstrip().startswith("--"))
    for alias, word in re.findall(r"(?<![\w.])(\w+)\.([\w-]+)", text):
        if alias in file.modules:
            yield file.modules[alias], word
    for word in set(re.findall(r"[\w-]+|[◌>=&|]+", text)):
        if word in file.blocks and word != name:
            yield module, word
        elif word in file.names:
            yield file.names[word]


def given_out(crate):
    """The modules and the names that a library's root gives out; or the names that a program's root takes."""
    library, program = crate / "src/lib.rt", crate / "src/main.rt"
    root = (library if library.exists() else program).read_text(encoding="utf-8")
    own = "|".join(re.findall(r"^(?:pub )?mod (\w+);", root, re.M))
    begin = "pub use" if library.exists() else "use"
    names = re.findall(r"^%s (?:%s)(?:::\w+)*::(?:\{([^}]*)\}|(\w+));" % (begin, own if begin == "use" else r"\w+"),
                       root, re.M)
    return (re.findall(r"^pub mod (\w+);", root, re.M),
            {n.strip().split(" as ")[0] for many, one in names for n in (many or one).split(",")})


def contracts(file, is_open, names):
    """The public functions of a source file, each with its contract's words, and what public types and traits say of
    themselves to contracts."""
    lines = file.read_text(encoding="utf-8").splitlines()
    owner, is_trait, function, indent, taken = None, False, None, "", []
    for line in lines:
        found = re.match(r"(?:pub )?(impl|trait)(?:<.*?>)? (?:\w+(?:<.*?>)? for )?(\w+)", line)
        if found:
            owner, is_trait = found.group(2), found.group(1) == "trait" or " for " in line
        elif line == "}":
            owner, is_trait = None, False
        if owner in names and re.match(r"    ghost (?!use |invariant|coded)", line):
            yield "", line
        found = re.match(r"(\s*)(pub )?(extern \"C\" )?fn (\w+)", line)
        if found:
            is_public = (found.group(2) or is_trait) and (is_open or (owner or found.group(4)) in names)
            is_public = is_public or found.group(3)
            function, indent, taken = (found.group(4) if is_public else None), found.group(1), []
        elif function and line in (indent + "{", indent + "{}") or function and taken and line.endswith(";"):
            yield function, "\n".join(taken)
            function = None
        elif function and (taken or re.match(r"\s*(ensures|requires)\b", line)):
            if not line.lstrip().startswith("//"):
                taken.append(line)


def cited(name, functions, left):
    """The definitions that the contracts of a crate's public functions cite, but for the clauses that are left."""
    modules, names = given_out(CRATES / name)
    for file in sorted((CRATES / name / "src").rglob("*.rt")):
        imports = Definitions.of_source(file)
        for function, text in contracts(file, file.stem in modules, names):
            if functions != "*" and function not in functions.split():
                continue
            for clause in left.split():
                text = re.sub(r"ensures %s \{.*?(?=ensures |\Z)" % clause, "", text, flags=re.S)
            for alias, word in re.findall(r"(?<![\w.])(\w+)\.([\w-]+)", text):
                if alias in imports.modules:
                    yield imports.modules[alias], word
            for word in re.findall(r"[\w-]+|[◌>=&|]+", text):
                if word in imports.names:
                    yield imports.names[word]


def reached(roots):
    """All definitions that these are made of, in the order in which they are met."""
    left = [d for root in roots for d in cited(*root)]
    seen, known = [], set()
    while left:
        one = left.pop(0)
        if one not in known and one[1] in definitions(one[0]).blocks:
            seen.append(one)
            known.add(one)
            left += sorted(made_of(*one))
    return seen


def trust():
    """The files of definitions by group, and how many lines of each belong to the group and to none before it."""
    rows, told = ["| Definitions | Lines |", "|---|---|"], set()
    for title, roots in GROUPS:
        mine, lines = [d for d in reached(roots) if d not in told], {}
        told.update(mine)
        for module, name in mine:
            lines[module] = lines.get(module, 0) + len(definitions(module).blocks[name])
        rows.append("| **%s** | **%d** |" % (title, sum(lines.values())))
        rows += ["| `%s`%s | %d |" % (module, part_of(module, {n for m, n in mine if m == module}), count)
                 for module, count in lines.items()]
    return rows


def part_of(module, names):
    """Which definitions of a file are meant, if these aren't all: they or the others by name, if they are few."""
    here = [n for n in definitions(module).blocks if n in names]
    others = [n for n in definitions(module).blocks if n not in names]
    words, short = (": ", here) if len(here) <= len(others) else (", but for ", others)
    if not others or len(short) > NAMED_AT_MOST:
        return ""
    return words + ", ".join("`%s`" % n for n in short)


def with_table(text, name, rows):
    pattern = re.compile(r"(<!-- table %s -->\n).*?(<!-- end -->)" % name, re.S)
    if not pattern.search(text):
        raise SystemExit("documents.py: no table %s" % name)
    return pattern.sub(lambda m: m.group(1) + "\n".join(rows) + "\n" + m.group(2), text)


def item_of(path, name):
    """An item of a source file, from the comment above it to its last line."""
    lines = path.read_text(encoding="utf-8").splitlines()
    for at, line in enumerate(lines):
        if re.match(r"(pub(?:\(crate\))? )?(fn|struct|enum|const|impl) (?:.* for )?%s\b" % name, line):
            first, last = at, at
            while lines[first - 1].startswith(("//", "#[")) and not lines[first - 1].startswith("//!"):
                first -= 1
            while not re.match(r"\S.*;$|}|{}", lines[last]):
                last += 1
            return lines[first:last + 1]
    raise SystemExit("documents.py: %s has no %s" % (path.relative_to(CRATES), name))


def with_quotations(text):
    """The text of a page, with its quotations of the sources as these now are."""
    def quotation(found):
        file, names = found.group(2), found.group(3).split()
        items = ["\n".join(item_of(CRATES / file, name)) for name in names]
        return "%s```rust\n%s\n```\n<!-- end -->" % (found.group(1), "\n\n".join(items))
    return re.sub(r"(<!-- source (\S+)((?: \w+)+) -->\n).*?<!-- end -->", quotation, text, flags=re.S)


def missing_paths(document):
    """The paths of crates' files that a document names and that are not there."""
    text = document.read_text(encoding="utf-8")
    for path in re.findall(r"`([a-z_]+/(?:specs|src|proofs)/[A-Za-z_/]+\.(?:antt|rt))`", text):
        if not (CRATES / path).exists():
            yield "%s names %s, which isn't there" % (document.relative_to(TOP), path)


def missing_links(document):
    """The files of the repository that a document links to and that are not there."""
    text = document.read_text(encoding="utf-8")
    for link in re.findall(r"\]\(([^)#:]+)\)", text):
        if not (document.parent / link).exists():
            yield "%s links to %s, which isn't there" % (document.relative_to(TOP), link)


def open_proofs():
    """The files of proofs, other than Lemmas, that a crate opens to the crates above."""
    for lib in sorted(CRATES.glob("*/proofs/Lib.antt")):
        for name in re.findall(r"^pub mod (\w+)", lib.read_text(encoding="utf-8"), re.M):
            if name != "Lemmas":
                yield "%s opens %s: crates above use proofs/Lemmas.antt alone" % (lib.relative_to(CRATES), name)


def cases_named(file, crate, enum):
    """The cases of an enum that a file names."""
    text = file.read_text(encoding="utf-8")
    module = r"use Rattle\.%s\.specs\.declared\.%s\.TheVariants" % (crate, re.escape(enum))
    names = re.findall(r"\b%s::([A-Z]\w+)" % enum.split(".")[1], text)
    for some in re.findall(module + r"\.\{([^}]*)\}", text):
        names += [name.split(" as ")[0].strip() for name in some.split(",")]
    for alias in re.findall(module + r" as (\w+)", text):
        names += re.findall(r"\b%s\.([A-Z]\w+)" % alias, text)
    return set(names)


def walks():
    """The files outside the parts that name more than one case of what a part does, if they are too many."""
    for crate, enum in WALKED:
        for kind, pattern in (("definitions", "*/specs/*.antt"), ("code", "*/src/**/*.rt")):
            files = [str(file.relative_to(CRATES)) for file in sorted(CRATES.glob(pattern))
                     if file.relative_to(CRATES).parts[0] not in PARTS and len(cases_named(file, crate, enum)) > 1]
            if len(files) > WALKS_AT_MOST:
                yield "%s is walked in too many files of %s: %s" % (enum.split(".")[1], kind, ", ".join(files))


def pages():
    """The documents whose quotations, paths and links the script tests."""
    return [page for place in ("*.md", "docs/*.md", "examples/README.md", "crates/*/README.md")
            for page in sorted(TOP.glob(place))]


def written(page, renewed, check, faults):
    """Writes what is renewed of a page, or says that it differs."""
    old = page.read_text(encoding="utf-8")
    new = renewed(old)
    if old != new and check:
        faults.append("%s isn't as the tree has it (maintain/documents.py writes it)" % page.relative_to(TOP))
    elif old != new:
        page.write_text(new, encoding="utf-8")


def main():
    check = sys.argv[1:] == ["--check"]
    faults = []
    for file, name, rows in (("architecture.md", "crates", architecture()), ("TRUST.md", "definitions", trust())):
        path = TOP / "docs" / file
        written(path, lambda old: with_table(old, name, rows), check, faults)
    for document in pages():
        written(document, with_quotations, check, faults)
        faults += list(missing_paths(document)) + list(missing_links(document))
    faults += list(open_proofs()) + list(walks())
    for fault in faults:
        print("documents.py: " + fault)
    raise SystemExit(1 if faults else 0)


if sys.argv[1:2] in (["-h"], ["--help"]):
    raise SystemExit(print(__doc__))
main()
