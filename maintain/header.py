#!/usr/bin/env python3
"""Compares tardis.h with the static library, examples/embed/history.rs and the Python package, and its version with the
other places that have one: maintain/header.py --check | --self-test

No proof sees how a caller declares what it hands over. Each structure must have the same fields in the same order, each
as wide: a field that is narrower on one side may lose its high bits, and a proof takes it for any other number. Each
export must be declared with the types that its definition has, a slice as a pointer and a length; none may be missing.
`struct tardis_system` must be as large as the library's handle. The constants for answers, refusals, messages and ends
must be the numbers of the library's definitions, and their words those of the Python package.

TARDIS_VERSION is the version. The library's call, the program's `--version` and the Python package repeat it. The
defaults of `states` must be TARDIS_USUAL_STATES: in the program, in tardis.hpp and in the Python package.

With --self-test, wrong texts are planted, one at a time, and each must be found.
"""
import ctypes
import re
import sys
from pathlib import Path

TOP = Path(__file__).resolve().parent.parent
sys.path.insert(0, str(TOP / "python"))
from tardis import structures  # noqa: E402

OF_MACHINES = "answer", "message", "open", "place", "totals"
NAMES = "options", "operation", "record", "told", "word", "found", "lack", *OF_MACHINES  # what is handed over
HIDDEN = {"history", "system"}  # what no call of the library takes; what only the library looks into
NOT_IN_RUST = {"told", "lack", *OF_MACHINES}  # what history.rs does without
NOT_IN_PYTHON = {"told", "word"}  # words go there as bytes
HEADER, EXAMPLE = "crates/tardis_c/tardis.h", "examples/embed/history.rs"
PARTS, REFUSALS = "crates/tardis_c/specs/SystemParts.antt", "crates/machine_table/specs/RefusalNumbers.antt"
CONSTANTS = (("answer_kind", PARTS, "c_answer"), ("message_kind", PARTS, "carried_by"), ("end", PARTS, "end_of"),
             ("refusal", REFUSALS, "number_of"))  # by enumeration: the definition that has its numbers
OTHER_NAMES = {"NO_SUCH": "NOT_THERE", "NO_MEMORY": "MEMORY_REFUSED"}  # other constants of tardis.h have these names
WORDS = {"answer": structures.ANSWERS, "refusal": structures.REFUSALS, "message": structures.MESSAGES,
         "end": structures.ENDS}  # by the call of tardis.h that tells them
WIDE = {"*mut u8": 8, "u64": 8, "void *": 8, "uint64_t": 8, "Global": 0}  # bytes; an allocator is none
PLAIN = {"u32": "uint32_t", "u64": "uint64_t", "usize": "size_t", "u8": "uint8_t", "Handle": "struct tardis_system"}


PLANTED = {}  # by file, a text of it and what stands there instead


def text_of(place):
    """The text of a file, with what is planted there."""
    return (TOP / place).read_text(encoding="utf-8").replace(*PLANTED.get(place, ("", "")), 1)


def fields(found):
    """The names and the widths of fields, or the structures that they are, from pairs of a type and a name."""
    return [(name, re.sub(r"struct tardis_|Plain|^\W*uint|_t(?=$|\*)|^u(?=\d)", "", kind).lower())
            for kind, name in found]


def of_c(text):
    """The structures that a C header declares, by their names."""
    return {name: fields((f"{kind}*{many}" if many else kind, each) for kind, each, many in
                         re.findall(r"^\s+(\S+|struct \S+) (\w+)(?:\[(\d+)\])?;", body, re.M))
            for name, body in re.findall(r"^struct tardis_(\w+) \{(.*?)^\};", text, re.M | re.S)}


def of_rust(text):
    """The structures that sources in Rattle or Rust lay out as C does, by their names."""
    found = re.findall(r"#\[repr\(C\)\]\s+(?:#\[[^\n]*\]\s+)*pub struct (?:Plain|C(?=A))?(\w+) \{(.*?)\n\s*\}",
                       text, re.S)
    return {name.lower(): fields((re.sub(r"\[(\w+); (\d+)\]", r"\1*\2", kind), each) for each, kind in
                                 re.findall(r"pub (\w+): (\[[^]]*\]|\w+),", body)) for name, body in found}


def width(kind):
    """A type of the Python package, as `fields` has it; its name, if it isn't a whole number without a sign."""
    if issubclass(kind, ctypes.Array):
        return f"{width(kind._type_)}*{kind._length_}"
    return {structures.U32: "32", structures.U64: "64"}.get(kind, kind.__name__.lower())


def of_python():
    """The structures of the Python package, by their names."""
    return {name.lower(): [(field, width(kind)) for field, kind in each._fields_]
            for name, each in vars(structures).items() if isinstance(each, type) and issubclass(each, ctypes.Structure)
            and each is not structures.System}


def taken(kind):
    """The types in C of what a parameter in Rattle hands over; none of an allocator."""
    if kind == "Global":
        return []
    whole = re.fullmatch(r"(&mut |&)?(\[)?(?:Plain|C(?=A))?(\w+)\]?", kind)
    const, name = "" if whole[1] == "&mut " else "const ", PLAIN.get(whole[3], f"struct tardis_{whole[3].lower()}")
    if whole[1] is None:
        return [name]
    return [f"{const}{name} *", *["size_t"] * (whole[2] is not None)]


def exports(library):
    """The types in C of what each export of the library answers and takes, by its name."""
    found = re.findall(r'^pub extern "C" fn (\w+)\((.*?)\)(?: -> (\w+))?\s+ensures', library, re.M | re.S)
    return {name: (PLAIN[answers] if answers else "void",
                   [each for kind in re.findall(r": ([^,]+?)(?:,|$)", takes) for each in taken(kind.strip())])
            for name, takes, answers in found}


def prototypes(header):
    """What tardis.h declares of each export, in the same way."""
    found = re.findall(r"^(\w+) (tardis_c_\w+)\(([^)]*)\);", header, re.M)
    return {name: (answers, [re.sub(r"\s+", " ", re.sub(r"\w+$", "", each.strip())).strip()
                             for each in takes.split(",") if each.strip() != "void"])
            for answers, name, takes in found}


def in_python():
    """What the Python package declares of the calls that it makes; a pointer to bytes, or to items, is `*`."""
    def kind(of):
        if of in (structures.BYTES, structures.ITEMS):
            return "*"
        if hasattr(of, "contents"):
            return f"{kind(of._type_)} *"
        return f"struct tardis_{of.__name__.lower()}" if issubclass(of, ctypes.Structure) else f"uint{width(of)}_t"

    return {prefix + name: ("void" if name in structures.SILENT else "uint32_t", [kind(each) for each in takes])
            for prefix, calls in (("tardis_c_", structures.CALLS), ("tardis_c_system_", structures.CALLS_OF_SYSTEMS))
            for name, takes in calls.items()}


def stands_for(declared, wanted):
    """Whether what Python declares stands for what tardis.h does. There is no `const` there, and no `size_t`."""
    return declared[0] == wanted[0] and len(declared[1]) == len(wanted[1]) and all(
        "*" in need if has == "*" else has == need.removeprefix("const ").replace("size_t", "uint64_t")
        for has, need in zip(declared[1], wanted[1]))


def calls(header, library):
    """Which exports are declared otherwise than they are defined, or by the Python package."""
    has, wanted = prototypes(header), exports(library)
    for name in sorted({*has, *wanted}):
        if has.get(name) != wanted.get(name):
            yield f"header.py: tardis.h declares {name} as {has.get(name)}, and the library has {wanted.get(name)}"
    if not wanted or len(re.findall(r"\btardis_c_\w+\([^;{]*;", header[:header.index("static uint64_t")])) != len(has) \
            or library.count('extern "C"') != len(wanted):
        yield "header.py: there are exports that it doesn't find"
    for name, of in in_python().items():
        if name not in has or not stands_for(of, has[name]):
            yield f"header.py: the Python package declares {name} as {of}, and tardis.h {has.get(name)}"


def handle(header, sources):
    """Whether struct tardis_system has another size than the library's handle."""
    def size(name):
        body = re.search(rf"pub struct {name} \{{(.*?)\n\}}", sources, re.S)[1]
        kinds = re.findall(r"^\s+(?:pub )?\w+: ([^,]+),", body, re.M)
        return sum(WIDE[kind] if kind in WIDE else size(kind) for kind in kinds)

    body = re.search(r"^struct tardis_system \{(.*?)^\};", header, re.M | re.S)[1]
    in_c = sum(WIDE[kind] for kind in re.findall(r"^\s+(\w+(?: \*)?)\s*\w+;", body, re.M))
    of_library, of_package = size("Handle"), ctypes.sizeof(structures.System)
    if not in_c == of_library == of_package:
        yield f"header.py: struct tardis_system has {in_c} bytes, {of_package} in Python, and the handle {of_library}"


def constants(header):
    """Which enumerations have other constants than the definition of their numbers, or other words in Python."""
    for name, file, definition in CONSTANTS:
        text = text_of(file)
        cases = re.findall(rf"^{definition} \(?(\w+).*?\)? = \D*(\d+)", text, re.M)
        snake = [(re.sub(r"(?<=[a-z])(?=[A-Z])", "_", case).upper(), number) for case, number in cases]
        wanted = [(f"TARDIS_{OTHER_NAMES.get(case, case) if name == 'refusal' else case}", number)
                  for case, number in snake]
        body = re.search(rf"^enum tardis_{name} \{{(.*?)\}};", header, re.M | re.S)[1]
        has = [each for each in re.findall(r"(TARDIS_\w+) = (\d+)", body) if each[0] != "TARDIS_NOT_REFUSED"]
        if not wanted or has != wanted:
            yield f"header.py: enum tardis_{name} isn't {definition} of {file}: {sorted({*has} ^ {*wanted})}"
    for name, words in WORDS.items():
        told = re.search(rf"tardis_{name}_name\(.*?names\[\] = \{{(.*?)\}};", header, re.S)[1]
        if re.findall(r'"(\w*)"', told) != [*words]:
            yield f"header.py: the Python package has other words of tardis_{name}_name"


def versions(header):
    """Where a version is another one than that of the header: what is looked for there."""
    number = int(re.search(r"^#define TARDIS_VERSION (\d+)$", header, re.M)[1])
    text = f"{number // 10000}.{number // 100 % 100}.{number % 100}"
    for place, looks in (("crates/tardis_c/src/version.rt", f"ensures {{ result ≡ {number} }}"),
                         ("crates/command_line/src/app.rt", f'.version("{text}")'),
                         ("python/tardis/version.py", f'VERSION = "{text}"')):
        if looks not in text_of(place):
            yield f"header.py: {place} lacks {looks}"


def usual_states(header):
    """Where the default of `states` isn't that of the header."""
    usual = re.search(r"^#define TARDIS_USUAL_STATES (\d+)$", header, re.M)[1]
    for place, looks, wanted in (("crates/command_line/src/app.rt", r'"states", "(\w+)"', {usual}),
                                 ("crates/tardis_c/tardis.hpp", r"orders = false, uint64_t states = (\w+)",
                                  {"TARDIS_USUAL_STATES"}),
                                 ("python/tardis/runs.py", r"states: int = (\w+)", {f"{int(usual):_}"})):
        has = {*re.findall(looks, text_of(place))}
        if has != wanted:
            yield f"header.py: {place} has the default of states {has}, not {wanted}"


def sources(*crates):
    """The sources of crates, as one text."""
    return "".join(text_of(file.relative_to(TOP).as_posix()) for crate in crates
                   for file in sorted((TOP / "crates" / crate / "src").glob("*.rt")))


def faults():
    """All that differs."""
    header, example = text_of(HEADER), text_of(EXAMPLE)
    wanted, library = of_c(header), sources("tardis_c")
    found = [f"header.py: {side} has another tardis_{name} than tardis.h: {has.get(name)}"
              for side, has, without in (("the library", of_rust(library), ()),
                                         ("history.rs", of_rust(example), NOT_IN_RUST),
                                         ("the Python package", of_python(), NOT_IN_PYTHON))
              for name in NAMES if not wanted.get(name) or has.get(name) != wanted[name] if name not in without]
    if set(wanted) != {*NAMES, *HIDDEN}:
        found.append(f"header.py: tardis.h declares {sorted(wanted)}")
    return [*found, *calls(header, library), *handle(header, sources("held_machine")), *constants(header),
            *versions(header), *usual_states(header)]


STATES = "uint64_t states, uint32_t orders, uint32_t json,\n  "
# Texts that are planted: where, in place of what, and what is said of it.
PLANTS = (
    (HEADER, "    uint64_t line_words; ", "    uint32_t line_words; ", "the library has another tardis_options"),
    (HEADER, "    uint64_t line_words; ", "    uint32_t line_words; ", "the Python package has another tardis_options"),
    (HEADER, "    uint64_t place;    /*", "    uint32_t place;    /*", "history.rs has another tardis_record"),
    (HEADER, "    uint32_t core;    /*", "    uint64_t core;    /*", "the library has another tardis_operation"),
    (HEADER, "    uint64_t wts; ", "", "the library has another tardis_message"),
    (HEADER, "    uint64_t words[8]; ", "    uint64_t words[7]; ", "the library has another tardis_message"),
    (HEADER, "    uint64_t refusal; ", "    uint64_t cause; ", "the library has another tardis_answer"),
    (HEADER, "    uint64_t renewals; /* sent */\n    uint64_t upgrades;\n",
     "    uint64_t upgrades;\n    uint64_t renewals; /* sent */\n", "the library has another tardis_totals"),
    (HEADER, "struct tardis_lack {", "struct tardis_more {\n    uint64_t it;\n};\nstruct tardis_lack {",
     "tardis.h declares ["),
    (EXAMPLE, "pub place: u64", "pub place: u32", "history.rs has another tardis_record"),
    ("crates/tardis_c/src/plain.rt", "pub time: u64", "pub time: u32", "the library has another tardis_record"),
    (HEADER, STATES, STATES.replace("64", "32"), "tardis.h declares tardis_c_ends as"),
    (HEADER, STATES, STATES.replace("64", "32"), "the Python package declares tardis_c_ends as"),
    (HEADER, "uint32_t tardis_c_version(void);", "uint64_t tardis_c_version(void);", "declares tardis_c_version as"),
    (HEADER, "void tardis_c_system_close(", "uint32_t tardis_c_system_close(", "declares tardis_c_system_close as"),
    (HEADER, "tardis_c_word_fault(const struct", "tardis_c_word_fault(struct", "declares tardis_c_word_fault as"),
    (HEADER, "tardis_c_system_attempt(struct tardis_system *system, uint32_t core, struct",
     "tardis_c_system_attempt(struct tardis_system *system, struct", "declares tardis_c_system_attempt as"),
    (HEADER, "uint32_t tardis_c_version(void);", "", "declares tardis_c_version as None"),
    (HEADER, "uint32_t tardis_c_version(void);", "uint32_t tardis_c_version(void);\nuint32_t tardis_c_more(void);",
     "declares tardis_c_more as"),
    (HEADER, "uint32_t tardis_c_version(void);", "uint32_t tardis_c_version(void);\nuint8_t *tardis_c_more(void);",
     "there are exports that it doesn't find"),
    ("crates/tardis_c/src/version.rt", "-> u32", "-> u64", "declares tardis_c_version as"),
    ("crates/tardis_c/src/version.rt", "pub extern", "extern", "there are exports that it doesn't find"),
    (HEADER, "    uint64_t is_open;\n", "    uint64_t is_open;\n    uint64_t more;\n", "struct tardis_system has"),
    ("crates/held_machine/src/handle.rt", "    is_open: u64,\n", "    is_open: u64,\n    more: u64,\n",
     "struct tardis_system has"),
    (HEADER, "TARDIS_HELD = 7", "TARDIS_HELD = 17", "enum tardis_answer_kind isn't c_answer"),
    (HEADER, "TARDIS_DRAM_ST = 12", "TARDIS_DRAM_STORE = 12", "enum tardis_message_kind isn't carried_by"),
    (HEADER, ", TARDIS_DRAM = 2", "", "enum tardis_end isn't end_of"),
    (HEADER, "TARDIS_PINNED = 5", "TARDIS_PINNED = 6", "enum tardis_refusal isn't number_of"),
    (REFUSALS, "number_of Stopped = 9", "number_of Stopped = 10", "enum tardis_refusal isn't number_of"),
    (HEADER, '"recalled"', '"recall"', "other words of tardis_answer_name"),
    (HEADER, '"Pinned"', '"pinned"', "other words of tardis_refusal_name"),
    (HEADER, '"DramStRep"', '"DramStRet"', "other words of tardis_message_name"),
    (HEADER, '"core", "bank"', '"bank", "core"', "other words of tardis_end_name"),
    (HEADER, "#define TARDIS_VERSION ", "#define TARDIS_VERSION 1", "app.rt lacks"),
    ("crates/tardis_c/src/version.rt", "ensures { result ≡ ", "ensures { result ≡ 1", "version.rt lacks"),
    ("crates/command_line/src/app.rt", '.version("', '.version("1', "app.rt lacks"),
    ("python/tardis/version.py", 'VERSION = "', 'VERSION = "1', "version.py lacks"),
    (HEADER, "#define TARDIS_USUAL_STATES ", "#define TARDIS_USUAL_STATES 1", "runs.py has the default of states"),
    ("crates/command_line/src/app.rt", '"states", "', '"states", "1', "app.rt has the default of states"),
    ("crates/tardis_c/tardis.hpp", "states = TARDIS_USUAL_STATES", "states = 4194304", "hpp has the default of states"),
    *(("python/tardis/runs.py", f"def ends(text: str | bytes, *, states: int = 4_194_304, orders: bool = False,\n{end}",
       f"def ends(text: str | bytes, *, states: int = 1000, orders: bool = False,\n{end}",
       "runs.py has the default of states")
      for end in ("         json: Literal[False]", "         json: Literal[True]", "         json: bool = False")))


def self_test():
    """What is wrong with this script: nothing must be found, and each text that is planted."""
    yield from faults()
    for place, old, new, wanted in PLANTS:
        if text_of(place).count(old) != 1:
            yield f"header.py: {place} has {old!r} {text_of(place).count(old)} times"
        PLANTED[place] = old, new
        found = "\n".join(faults())
        PLANTED.clear()
        if wanted not in found:
            yield f"header.py: {new!r} in {place}: {found or 'nothing is found'}, and not: {wanted}"


if sys.argv[1:] in (["--check"], ["--self-test"]):
    sys.exit("\n".join(self_test() if "--self-test" in sys.argv else faults()) or None)
print(__doc__)
sys.exit(sys.argv[1:] not in (["-h"], ["--help"]))
