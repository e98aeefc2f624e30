#!/usr/bin/env python3
"""Records programs in C and C++ with each compiler that is there: tests/record.py PROGRAM.

What each trace must have was worked out by hand: the words that threads hand to each other. The program must run each
trace to its end. Standard error names the compilers that aren't there. The last line is `N tried, M wrong`.
"""
import os
import re
import shutil
import sys
import tempfile
from pathlib import Path

sys.path.insert(0, str(Path(__file__).resolve().parent.parent))
from reference.traces import Fault, Trace  # noqa: E402
from tests.texts import TOP, Tester  # noqa: E402


RECORD, PROGRAMS = TOP / "tools/record", TOP / "examples/traces/record"
# A program of which one part is in C++ and one in C, the number coming from the compiler's options; one of more lines
# than the program reads at once; one that loads from more pages than 16 bits count; one of more threads than the first
# form of traces has cores; and one whose last access is one too many for a trace.
MIXED = {"main.cc": 'extern "C" { extern long kept; void keep(long); }\n'
                    "#include <cstdio>\nint main() { keep(NUMBER); std::printf(\"%ld\\n\", kept); }\n",
         "keep.c": "long kept;\nvoid keep(long number) { kept = number + 1; }\n",
         "stores.c": "static volatile long word;\n"
                     "int main(void) { for (long at = 0; at < 1100000; at++) word = at; }\n",
         "pages.c": "static volatile char area[70000L * 4096];\n"
                    "int main(void) { for (long at = 0; at < 70000; at++) (void)area[at * 4096]; }\n"}
SEVENTEEN = ("#include <pthread.h>\nstatic volatile long words[17];\n"
             "static void *store(void *at) { words[(long)at] = 7; return 0; }\n"
             "int main(void) { for (long at = 1; at < 17; at++) { pthread_t one;\n"
             "pthread_create(&one, 0, store, (void *)at); pthread_join(one, 0); }\n")
# What is recorded of a region: main and a thread store 5 and 7 in it, and other numbers before and behind it.
REGION = ("#include <pthread.h>\n#include <tardis_record.h>\nstatic volatile long words[3];\n"
          "static void *store(void *at) { words[1] = (long)at; return 0; }\n"
          "static void run(long at) { pthread_t one; pthread_create(&one, 0, store, (void *)at);\n"
          "pthread_join(one, 0); }\n"
          "int main(void) { words[0] = 1; run(2); tardis_begin(); words[0] = 5; run(7); tardis_end();\n"
          "words[0] = 9; tardis_begin(); words[2] = 4; tardis_end(); run(8); }\n")
# pow stands in the library of -lm.
POWER = ("#include <math.h>\n#include <stdio.h>\nvolatile double two = 2, ten = 10;\n"
         "int main(void) { printf(\"%g\\n\", pow(two, ten)); }\n")
# Each kind of atomic operation on one word; stores of 16 and of 24 bytes; and a store whose memory is used anew, by
# functions that aren't recorded, before the thread's next access.
ATOMIC = ("#include <stdatomic.h>\n#include <stdio.h>\nstatic _Atomic long word;\nstatic volatile long behind;\n"
          "int main(void) { long wanted = 9, other = 1; atomic_store(&word, 5); atomic_fetch_add(&word, 2);\n"
          "atomic_exchange(&word, 9); int done = atomic_compare_exchange_strong(&word, &wanted, 11);\n"
          "done += atomic_compare_exchange_strong(&word, &other, 12); behind = atomic_load(&word);\n"
          "printf(\"%d %ld\\n\", done, other); }\n")
WIDE = ("struct three { long a, b, c; };\nstruct one { int a, b; };\nstatic volatile __int128 wide;\n"
        "static struct three from = {7, 8, 9}, to;\nstatic struct one small_from = {10, 0}, small_to;\n"
        "static volatile struct three *volatile source = &from, *volatile target = &to;\n"
        "static volatile struct one *volatile small_source = &small_from, *volatile small_target = &small_to;\n"
        "static volatile long last, other = 13, never;\n"
        "int main(void) { wide = (__int128)6 << 64 | 5; *target = *source; *small_target = *small_source;\n"
        "last = 11; if (other == 13) last = 12; never = other; }\n")
STACK = ("#include <stdio.h>\nstatic volatile long behind;\n"
         "__attribute__((noipa)) void keep(volatile long *at) { *at = 3; }\n"
         "__attribute__((noinline)) static void leaf(long at) { volatile long own[64]; keep(own); own[at] = 41; }\n"
         "int main(void) { leaf(63); for (int at = 0; at < 9; at++) printf(\"%f\\n\", 1.5); behind = 4; }\n")
MIXED |= {"atomic.c": ATOMIC, "wide.c": WIDE, "stack.c": STACK, "seven.c": "int main(void) { return 7; }\n",
          "named.cxx": "#include <cstdio>\nint main() { std::puts(\"in C++\"); }\n",
          "crowd.c": SEVENTEEN.replace("17", "THREADS") + "}\n"}
MIXED |= {"region.c": REGION, "power.c": POWER, "many.c": SEVENTEEN + "words[0] = 7; }\n",
          "full.c": SEVENTEEN + "for (long at = 0; at < 16777216; at++) words[0] = at; }\n"}


def recorded(tester, folder, *words):
    """What the program says, and its trace; or None, if there is none."""
    status, out, error = tester.run(f"{folder}/new.trace", *words)
    tester.expect((status, out) == (0, ""), f"{words}: {status} {out} {error}")
    try:
        return error, Trace(Path(folder, "new.trace").read_bytes())
    except (Fault, OSError) as fault:
        tester.expect(False, f"{words}: {fault}")
    return error, None


def stored(trace, value):
    """The words to which this value is stored, each with the core that stores it."""
    return {(word, core) for core, steps in enumerate(trace.steps) for kind, word, written in steps
            if kind != "load" and written == value}


def tries(tester, program, folder):
    error, trace = recorded(tester, folder, str(PROGRAMS / "flag.cpp"))
    tester.expect(error == "message 128\n", f"flag.cpp: {error}")
    # The message is stored by one core, and loaded by the other one once.
    messages = stored(trace, 128) if trace else set()
    tester.expect(trace is not None and trace.cores == 2 and
                  any(trace.steps[1 - core].count(("load", word, None)) == 1 for word, core in messages),
                  f"flag.cpp: the message is stored at {messages}")
    status, out, said = Tester(program).run("trace", "--line-words", "8", "--limit", "4294967295",
                                            f"{folder}/new.trace")
    tester.expect((status, said) == (0, "") and "\nend all-done\n" in out and "\norder legal\n" in out,
                  f"flag.cpp: {status} {out[:200]} {said}")
    error, trace = recorded(tester, folder, str(PROGRAMS / "sum.c"), "-DAPART")
    tester.expect(error == "total 32640\n" and trace.cores == 5, f"sum.c: {error}")
    error, trace = recorded(tester, folder, f"{folder}/main.cc", f"{folder}/keep.c", "-DNUMBER=41")
    tester.expect(error == "42\n" and len(stored(trace, 42)) == 1, f"C and C++: {error}")
    error, trace = recorded(tester, folder, f"{folder}/stores.c")
    steps = trace.steps[0] if trace else []
    tester.expect(len(steps) == 1100000 and steps[-1][0] == "store" and steps[-1][2] == 1099999, "1,100,000 stores")
    error, trace = recorded(tester, folder, f"{folder}/pages.c")
    words = {step[:2] for step in trace.steps[0]} if trace else set()
    tester.expect(len(words) == 70000, f"loads on 70,000 pages: {len(words)} of other words")
    error, trace = recorded(tester, folder, f"{folder}/many.c")
    tester.expect(trace is not None and trace.cores == 17 and {core for _, core in stored(trace, 7)} == set(range(17)),
                  "17 threads, each with its store")
    # Sixteen threads store once, and main 16,777,216 times: 17 are left out, and main's loads of `at` of the calls.
    got = tester.run(f"{folder}/full.trace", f"{folder}/full.c")
    said = re.fullmatch("recorder: the trace has the first 16777215 accesses; ([0-9]+) more are left out\n", got[2])
    tester.expect(got[:2] == (0, "") and said and int(said[1]) >= 17, f"16,777,232 stores: {got}")
    with open(f"{folder}/full.trace", "rb") as file:
        tester.expect(next(file) == b"trace 2\n" and sum(1 for _ in file) == 16777215, "the beginning isn't kept")
    error, trace = recorded(tester, folder, f"{folder}/region.c")
    found = [sorted(value for kind, _, value in steps if kind != "load") for steps in trace.steps] if trace else []
    tester.expect(found == [[4, 5], [7]], f"a region of interest: {error} {found}")
    error, _ = recorded(tester, folder, f"{folder}/power.c", "-lm")
    tester.expect(error == "1024\n", f"-lm: {error}")
    kinds(tester, folder)
    statuses(tester, folder)


def kinds(tester, folder):
    """What is recorded of each kind of access, and where its page stands."""
    error, trace = recorded(tester, folder, f"{folder}/atomic.c")
    words = {word for word, _ in stored(trace, 5)} if trace else set()
    found = [(kind, value) for kind, word, value in trace.steps[0] if word in words] if trace else []
    tester.expect((error, found) == ("1 11\n", [("store", 5), ("swap", 7), ("swap", 9), ("swap", 11), ("load", None),
                                                ("load", None)]), f"atomic operations: {error} {found}")
    _, trace = recorded(tester, folder, f"{folder}/wide.c")
    steps = trace.steps[0] if trace else []
    found = [(step[0], step[1] - steps[0][1]) + step[2:] for step in steps[:2]]
    tester.expect(found == [("store", 0, 5), ("store", 1, 6)], f"a store of 16 bytes: {found}")
    found = [step[2] for step in steps[2:] if step[0] == "store"]
    tester.expect(found == [7, 8, 9, 10, 11, 12, 13], f"copies of 24 and 8 bytes, and stores behind them: {found}")
    tester.expect(steps[:1] and steps[0][1] < 512, f"the first page is {steps[:1]}'s")
    _, trace = recorded(tester, folder, f"{folder}/stack.c")
    found = [value for kind, _, value in trace.steps[0] if kind == "store"] if trace else []
    tester.expect(found == [3, 41, 4], f"stores on the stack: {found}")


def statuses(tester, folder):
    """Statuses by hand: the program's own; a trace that can't be written; and more threads than a trace has cores."""
    status, out, error = tester.run(f"{folder}/new.trace", f"{folder}/seven.c")
    tester.expect((status, out, error) == (7, "", ""), f"a program that ends with 7: {status} {error}")
    error, _ = recorded(tester, folder, f"{folder}/named.cxx")
    tester.expect(error == "in C++\n", f"named.cxx: {error}")
    status, _, error = tester.run(f"{folder}/none/new.trace", f"{folder}/seven.c")
    tester.expect((status, error) == (1, "recorder: No such file or directory\n"), f"no folder: {status} {error}")
    _, trace = recorded(tester, folder, f"{folder}/crowd.c", "-DTHREADS=64")
    tester.expect(trace is not None and trace.cores == 64, "64 threads")
    status, _, error = tester.run(f"{folder}/new.trace", f"{folder}/crowd.c", "-DTHREADS=65")
    tester.expect((status, error) == (1, "recorder: more threads than a trace has cores\n"), f"65: {status} {error}")


def main(program):
    tester = Tester(str(RECORD / "record.sh"))
    for compilers in (("gcc", "g++"), ("clang", "clang++")):
        missing = [name for name in compilers if shutil.which(name) is None]
        if missing:
            print(f"record.py: {' and '.join(compilers)} aren't tried: there is no {missing[0]}", file=sys.stderr)
            continue
        os.environ["CC"], os.environ["CXX"] = compilers
        with tempfile.TemporaryDirectory() as folder:
            for name, text in MIXED.items():
                Path(folder, name).write_text(text)
            tries(tester, program, folder)
            Path(folder, "bad.cpp").write_text("int main() { return none; }\n")
            status, out, error = tester.run(f"{folder}/bad.trace", f"{folder}/bad.cpp")
            tester.expect(status not in (0, 3) and out == "" and "bad.cpp:1" in error, f"bad.cpp: {status} {error}")
    print(f"{tester.tried} tried, {tester.wrong} wrong")
    return int(tester.wrong > 0)


if __name__ == "__main__":
    sys.exit(main(sys.argv[1]) if len(sys.argv) == 2 else __doc__)
