#!/usr/bin/env python3
"""Tries tools/explain.py: tests/explain.py PROGRAM.

Verdicts and faults come from tables that were written by hand (examples/verdicts.table, examples/bad and
tests/litmus_faults.table). What the script must say of them comes from the cases below, worked out by hand. The last
line is `N tried, M wrong`.
"""
import gzip
import os
import subprocess
import sys
import tempfile
import time
from pathlib import Path

sys.path.insert(0, str(Path(__file__).resolve().parent.parent))
from tests.texts import TOP, Tester, of_printf, rows, unescaped  # noqa: E402
from reference.litmus_faults import fault_of  # noqa: E402
from reference.traces import record_line  # noqa: E402
from tools import explain, explained_orders, explained_runs, explained_texts, litmus_hints  # noqa: E402


MP = "0 W 0x0 1\n0 W 0x8 1\n1 R 0x8\n1 R 0x0\n"
GOOD = ["0 0 W 0x0 1 1 0", "0 1 W 0x8 1 1 1", "1 0 R 0x8 1 1 2", "1 1 R 0x0 1 1 3"]
# Message passing with other records: in which line which one stands, and lines that must be told, in this order.
RECORDS = [
    (4, "1 1 R 0x0 0 1 3", ["wrong value 3", "records, line 4: 1 1 R 0x0 0 1 3", "received 0 instead of 1:",
                            "  line 1: 0 0 W 0x0 1 1 0 wrote that", "0 is the word's opening value."]),
    (3, "1 0 R 0x8 1 0 2", ["wrong value 2", "received 1 instead of 0:", "no record before it wrote the word",
                            "1 is what line 2: 0 1 W 0x8 1 1 1 wrote; it comes later in the order."]),
    (4, "1 1 R 0x0 7 1 3", ["wrong value 3", "received 7 instead of 1:", "No record wrote 7 there."]),
    (4, "1 1 R 0x0 1 0 3", ["out of program order 3",
                            "Core 1's operation 0 comes next (the first is 0), and this is its operation 1:",
                            "  line 3 of the trace: 1 R 0x8", "line 3: 1 0 R 0x8 1 1 2, has time 1 and number 2",
                            "> line 4: 1 1 R 0x0 1 0 3", "  line 3: 1 0 R 0x8 1 1 2"]),
    (2, "0 1 W 0x8 2 1 1", ["out of program order 1",
                            "Core 0's operation 1 (the first is 0) is another one in the trace:",
                            "  line 2 of the trace: 0 W 0x8 1"]),
    (2, "0 2 W 0x8 1 1 1", ["out of program order 1",
                            "Core 0's operation 1 comes next (the first is 0), and this is its operation 2:",
                            "  line 2 of the trace: 0 W 0x8 1", "  no record has it"]),
    (4, "2 0 R 0x0 1 1 3", ["out of program order 3", "The trace has no operation of core 2."]),
    (4, "0 2 R 0x0 1 1 3", ["out of program order 3", "Core 0 has 2 operations in the trace, numbered from 0"]),
    (4, "1 1 R 0x0 1 1 5", ["bad number 3", "their numbers are 0 to 3, each once. None has 3.",
                            "the record with 3 is missing", "5 is too great: line 4: 1 1 R 0x0 1 1 5."]),
    (1, "0 0 W 0x0 1 1 4", ["bad number 0", "The numbers below and above:", "  line 2: 0 1 W 0x8 1 1 1"]),
    (4, "1 1 R 0x0 1 1 1", ["bad number 3", "Two have 1: line 2: 0 1 W 0x8 1 1 1, and line 4: 1 1 R 0x0 1 1 1."]),
]
# Two stores of one word, and a load of the first one behind both.
TWICE = ("0 W 0x0 1\n0 W 0x0 2\n1 R 0x0\n", "0 0 W 0x0 1 1 0\n0 1 W 0x0 2 2 1\n1 0 R 0x0 1 3 2\n", [
    "wrong value 2", "received 1 instead of 2:", "  line 2: 0 1 W 0x0 2 2 1 wrote that",
    "1 is what line 1: 0 0 W 0x0 1 1 0 wrote; it is overwritten by line 2.", "  line 2: 0 1 W 0x0 2 2 1",
    "> line 3: 1 0 R 0x0 1 3 2"])
# Times that are all equal. Core 1 keeps what it read at line 1, as after a lost invalidation, and no order explains it.
# In the second it hadn't read it before, and another order does.
EQUAL = [("0 W 0x0 1\n0 W 0x8 1\n1 R 0x0\n1 R 0x8\n1 R 0x0\n",
          "1 0 R 0x0 0 0 0\n0 0 W 0x0 1 0 1\n0 1 W 0x8 1 0 2\n1 1 R 0x8 1 0 3\n1 2 R 0x0 0 0 4\n", [
              "wrong value 4", "Core 1 received a value that 1 later write had replaced, as after a lost invalidation.",
              "It last touched the word at line 1.", "no order explains these records: tools/order.py RECORDS says"]),
         ("0 W 0x0 1\n0 W 0x0 2\n1 R 0x0\n", "0 0 W 0x0 1 0 0\n0 1 W 0x0 2 0 1\n1 0 R 0x0 0 0 2\n", [
             "wrong value 2", "Core 1 received a value that 2 later writes had replaced, as when an invalidation",
             "It hadn't touched the word before.", "another order explains these records: tools/order.py RECORDS"]),
         # Core 0's second record is missing, so these aren't all that an order must have.
         ("0 R 0x0\n0 R 0x0\n0 R 0x0\n", "0 0 R 0x0 5 0 0\n0 2 R 0x0 0 0 1\n", [
             "wrong value 0", "another may: tools/order.py RECORDS looks for it.",
             "No other order of the 2 records around it, lines 1 to 2, explains them"]),
         # Core 0 reads what it wrote itself, before core 1 did.
         ("0 W 0x0 1\n1 W 0x0 2\n0 R 0x0\n", "0 0 W 0x0 1 0 0\n1 0 W 0x0 2 0 1\n0 1 R 0x0 1 0 2\n", [
             "wrong value 2", "Core 0 received a value that 1 later write had replaced, as after a lost invalidation.",
             "It last touched the word at line 1.", "another order explains these records"]),
         # It had a copy before line 2, so it got the value of line 2 with data.
         ("1 R 0x0\n0 W 0x0 1\n0 W 0x0 2\n1 R 0x0\n",
          "1 0 R 0x0 0 0 0\n0 0 W 0x0 1 0 1\n0 1 W 0x0 2 0 2\n1 1 R 0x0 1 0 3\n", [
              "wrong value 3", "Core 1 received a value that 1 later write had replaced, as when an invalidation",
              "It hadn't touched the word since line 1.", "another order explains these records"]),
         ("0 W 0x0 1\n1 S 0x0 2\n1 R 0x0\n", "0 0 W 0x0 1 0 0\n1 0 S 0x0 2 1 0 1\n1 1 R 0x0 1 0 2\n", [
             "wrong value 2", "1 later write had replaced, its own at line 2 among them: it lost its own write.",
             "no order explains these records"]),
         # Of two writes of the value received, the later one counts.
         ("0 W 0x0 1\n0 W 0x0 2\n0 W 0x0 1\n0 W 0x0 3\n1 R 0x0\n",
          "0 0 W 0x0 1 0 0\n0 1 W 0x0 2 0 1\n0 2 W 0x0 1 0 2\n0 3 W 0x0 3 0 3\n1 0 R 0x0 1 0 4\n", [
              "wrong value 4", "Core 1 received a value that 1 later write had replaced, as when an invalidation",
              "It hadn't touched the word before.", "another order explains these records"]),
         # It had received that value before, but from an earlier write of it.
         ("0 W 0x0 1\n1 R 0x0\n0 W 0x0 2\n0 W 0x0 1\n0 W 0x0 3\n1 R 0x0\n",
          "0 0 W 0x0 1 0 0\n1 0 R 0x0 1 0 1\n0 1 W 0x0 2 0 2\n0 2 W 0x0 1 0 3\n0 3 W 0x0 3 0 4\n1 1 R 0x0 1 0 5\n", [
              "wrong value 5", "Core 1 received a value that 1 later write had replaced, as when an invalidation",
              "It hadn't touched the word since line 2.", "another order explains these records"]),
         # The records stand against core 1's program order, by which its load follows its store.
         ("0 R 0x0\n1 W 0x0 5\n1 R 0x0\n", "0 0 R 0x0 5 0 0\n1 1 R 0x0 0 0 1\n1 0 W 0x0 5 0 2\n", [
             "wrong value 0", "5 is what line 3: 1 0 W 0x0 5 0 2 wrote; it comes later in the order.",
             "no order explains these records"]),
         # What stands behind a record in the text, such as its line in a history, is shown with it, but in no sentence.
         ("0 W 0x0 1\n1 R 0x0\n", "0 0 W 0x0 1 0 0 # line 7\n1 0 R 0x0 5 0 1 #line 9\ta \r\n", [
             "records, line 2: 1 0 R 0x0 5 0 1 # line 9\\ta\n", "  line 1: 0 0 W 0x0 1 0 0 wrote that\n",
             "\n  line 1: 0 0 W 0x0 1 0 0 # line 7\n", "\n> line 2: 1 0 R 0x0 5 0 1 # line 9\\ta\n"])]
# The same by swaps, in a trace with advances: a swap writes, and it receives.
SWAPS = ("trace 2\n0 A\n0 S 0x0 1\n0 A\n0 S 0x0 2\n1 R 0x0\n", [
    ("0 0 S 0x0 1 0 1 0\n0 1 S 0x0 2 0 2 1\n1 0 R 0x0 2 2 2\n", [
        "wrong value 1", "Core 0's swap of 0x0 received 0 instead of 1:", "  line 1: 0 0 S 0x0 1 0 1 0 wrote that"]),
    ("0 0 S 0x0 1 0 1 0\n0 1 S 0x0 2 1 2 1\n1 0 R 0x0 1 2 2\n", [
        "wrong value 2", "  line 2: 0 1 S 0x0 2 1 2 1 wrote that", "it is overwritten by line 2."]),
    ("0 1 S 0x0 2 1 2 1\n0 0 S 0x0 1 0 3 0\n1 0 R 0x0 2 2 2\n", [
        "out of program order 1", "  line 3 of the trace: 0 S 0x0 1"])])
# Command lines of runs, and what must be told of each. Three loads want one place of a bank: the first one is done in
# round 6. By rounds the other two take the place from each other, and a line leaves in every third round.
LIVELOCK = "trace --bank-sets 1 --bank-ways 1 {}examples/traces/LIVELOCK.trace"
RUNS = [
    (LIVELOCK.format(""), 1, [
        "end limit: 1 operations of 3 issued are completed", "Cause: starvation.",
        "  core 1 waits for line 0x8 of bank 0 since turn 1 (R 0x8): its request is m1",
        "  core 2 waits for line 0x0 of bank 0 since turn 1 (R 0x0): its request is m2",
        "Set 0 of bank 0 has places for 1 lines:", "  0x0 left it 33 times in the last 100 turns", "Remedy: --fair;"]),
    (LIVELOCK.format("--fair "), 0, ["nothing is wrong, all is done"]),
    ("trace --help", 0, ["FILE", "--lease N", "--stream"]),
    (LIVELOCK.format("--fair --stream --cores 3 "), 0, ["nothing is wrong, all is done"]),
    (LIVELOCK.format("--stream "), 1, ["end limit: 1 operations of 3 issued are completed", "Cause: starvation."]),
    (LIVELOCK.format("--fair --json --counts --every 1 "), 0, ["nothing is wrong, all is done"]),
    ("litmus --seed 4 examples/litmus/SB+yes.litmus", 0, ["nothing is wrong", "--seed means nothing by rounds"]),
    # Seed 7 would take 15 turns, but a trace has one run.
    ("trace --schedule seed --seed 6 --limit 9 examples/traces/FIRST-STORE.trace", 0, [
        "nothing is wrong, all is done"]),
    (LIVELOCK.format("--fair --limit 11 "), 1, [
        "end limit: 2 operations of 3 issued are completed after turn 11", "Cause: too few turns.",
        "the last in turn 9", "  core 2 waits for line 0x0 of bank 0 since turn 1 (R 0x0)",
        "Remedy: a greater --limit"]),
    ("litmus --messages 2 examples/litmus/SB.litmus", 1, [
        "end stalled: 0 operations of 2 issued are completed after turn 2",
        "Cause: the network is too small. All 2 places",
        "  in flight: 2 ExReq", "  core 0 waits for line 0x0 of bank 0 since turn 1 (W 0x0 1): its request is m0",
        "  core 1 waits for line 0x8 of bank 0 since turn 1 (W 0x8 1): its request is m1", "Remedy: --messages 3"]),
    ("litmus --messages 1 examples/litmus/SB.litmus", 1, [
        "Cause: the network is too small.", "its request is m0",
        "  core 1 waits for line 0x8 of bank 0 since turn 1 (W 0x8 1): no place is free for its request"]),
    # The recall m4 came to a core that had given the line back and waits for it again, as examples/traces says.
    ("trace --schedule seed --seed 1538 --messages 2 --limit 1000 examples/traces/STALE-RECALLS.trace", 1, [
        "by seed 1538", "end limit: 1 operations of 2 issued", "Cause: the network is too small.",
        "  in flight: 1 ExReq, 1 FlushReq", "  1 of them recall a line that its owner has given back: m4",
        "(W 0x0 2): its request is m8", "Remedy: more --messages, or another seed"]),
    ("litmus --limit 1 --schedule seed --seed 7 --runs 2 examples/litmus/SB.litmus", 1, [
        "by seed 7", "end limit: 0 operations of", "Cause: too few turns.", "(none yet)"]),
    ("trace --limit 4 examples/traces/FIRST-STORE.trace", 1, [
        "end limit: 0 operations of 1", "Cause: too few turns.", "its reply is on the way"]),
    ("trace --limit 5 examples/traces/FIRST-STORE.trace", 1, ["end limit: 0", "its next attempt is still to come"]),
    ("trace --time 18446744073709551615 examples/traces/FIRST-STORE.trace", 1, [
        "end exhausted: 0 operations of 1", "Cause: a sum of times doesn't fit 64 bits"]),
]
NO_RUNS = [("check none b", "none: No such file or directory"), ("trace none", "none: No such file or directory"),
           ("litmus tests", "tests: Is a directory"),
           ("trace --schedule threads examples/traces/PAST.trace", "runs by threads can't be made again"),
           ("trace --fair --schedule seed none", "'--fair' needs '--schedule round' or '--schedule threads'"),
           ("trace --counts --schedule threads none", "'--counts' needs '--schedule round' or '--schedule seed', and "
            "no '--records'"),
           ("trace --counts --records none",
            "'--counts' needs '--schedule round' or '--schedule seed', and no '--records'"),
           ("trace --every 2 none", "'--every' needs '--counts'"),
           ("trace --records --json none", "'--json' cannot be used with '--records'"),
           ("trace --counts --every 0 none", "'--every <every>': 0 is not in 1..18446744073709551615"),
           ("trace --runs 3 none", "--runs is an option of litmus, and not of trace"),
           ("ends --lease=3 none", "--lease is an option of litmus and trace, and not of ends"),
           ("litmus --leese 3 none", "no command has the option --leese"),
           ("trace --lease 3 --fair --lease=3 none", "--lease is given more than once"),
           ("trace --fair --fair none", "--fair is given more than once"),
           ("trace -- --lease", "--lease: No such file"),
           ("", "required: command"), ("run none", "'run'"), ("trace", "required: FILE"), ("trace none two", ": two"),
           ("trace --schedule draw none", "'draw'"), ("trace none --lease", "--lease: expected one argument"),
           ("trace --limit 0 examples/traces/PAST.trace", "'--limit <limit>': 0 is not in 1..=4294967295")]
# Options out of range, each with its range; and texts of another kind.
REFUSED = [("trace --lease 0 examples/traces/PAST.trace", ["bad configuration: --lease 0: 1 to 4294967296"]),
           ("trace --line-words 4 --bank-ways 17 --ways 3 examples/traces/PAST.trace", [
               "bad configuration: --bank-ways 17: 1 to 16", "--line-words 4: 1 or 8"]),
           ("trace examples/traces/PAST.records", ["5 BadOperation", "It has records: `tardis check TRACE FILE`"]),
           ("litmus examples/traces/PAST.trace", ["4 BadHeader", "It is a trace, and no litmus test"]),
           ("ends --states 3 examples/traces/PAST.trace", ["4 BadHeader", "It is a trace, and no litmus test"]),
           ("trace examples/litmus/SB.litmus", ["4 BadCore", "It is a litmus test: `tardis litmus FILE`"]),
           ("trace --stream --cores 1 examples/traces/PAST.trace", [
               "examples/traces/PAST.trace, line 4, `1 R 0x0`, CORE: `1`\n",
               "  4 BadCore: the machine's greatest core is 0 (--cores 1)\n",
               "  often meant: --cores is the greatest core of the trace plus 1."]),
           ("trace --stream --lease 0 examples/litmus/SB.litmus", ["bad configuration: --lease 0: 1 to 4294967296"]),
           ("ends --json examples/traces/PAST.trace", ["4 BadHeader", "It is a trace, and no litmus test"]),
           ("check --json examples/traces/PAST.trace examples/traces/SWAP-LOCK.records", ["out of program order"]),
           ("check examples/traces/PAST.trace examples/traces/SWAP-LOCK.records", ["out of program order"])]
# Texts that are refused: the end of the file's name, the text, and what must be told.
PLAIN = "RISCV T\n"
OPENING = "{ 0:x5=1; 0:x6=x; 1:x6=x; }\n P0 | P1 ;\n"
CELLS = [("lw x7,4(x6)", "8", "offset"), ("fence", "8", "two sets"), ("amoswap.w.aq.rl x7,x5,(x6)", "8", "as both"),
         ("amoadd.w x7,x5,(x6)", "8", "one atomic"), ("lw a0,0(x6)", "8", "x0 to x31"),
         ("bne x5,x0,L", "8", "No branches"),
         ("li x5,-1", "8", "decimal"), ("li x5,0x1", "8", "decimal"), ("xor x7,x5,x5", "8", "no arithmetic"),
         ("lw x7 0(x6)", "8", "comma"), ("LW x7,0(x6)", "8", "small letters"), ("lw x7,0(x6)# c", "8", "No remark"),
         ("ori x5,x0,4000", "9", "2047"), ("li x5,2147483648", "9", "2147483647"), ("sd x5,0(x6)", "10", "`lw`, `sw`"),
         ("sw x6,0(x6)", "11", "the address"), ("lw x7,0(x8)", "12", "lacks this thread's address, as `0:x6=x`.")]
TEXTS = [
    (".litmus", f"{PLAIN}{OPENING} li x5,1 | ;\n sw x5,0(x6) | sd x5,0(x6) ;\nexists x=0\n", [
        "line 5, P1: `sd x5,0(x6)`", "  10 "]),
    (".litmus", PLAIN + "(* a *)\n" + OPENING + "exists x=0\n", ["line 2, `(* a *)`", "4 BadHeader", "from_herd"]),
    (".litmus", PLAIN + "\"\u201c\"\n" + OPENING + "exists x=0\n", ["line 2, `\"\\xe2\\x80\\x9c\"`", "3 BadByte"]),
    (".litmus", "AArch64 T\n" + OPENING + "exists x=0\n", ["line 1, `AArch64 T`", "4 BadHeader", "Only `RISCV`"]),
    (".litmus", "RISCV my test\n" + OPENING + "exists x=0\n", ["line 1", "4 BadHeader", "The name is one word"]),
    (".litmus", "RISCV T\n{ [x]=1; }\n P0 ;\nexists x=0\n", ["line 2", "5 BadInitial", "from_herd"]),
    (".litmus", "RISCV T\n{ 0:a0=1; }\n P0 ;\nexists x=0\n", ["line 2", "5 BadInitial", "not a0"]),
    (".litmus", PLAIN + OPENING + "Exists x=0\n", ["line 4, `Exists x=0`", "7 BadTable", "begins with `exists`"]),
    (".litmus", PLAIN + OPENING + "locations [x;]\n", ["line 4", "7 BadTable", "from_herd"]),
    (".litmus", PLAIN + OPENING + "li x5,2; li x7,2 | ;\nexists x=0\n", ["line 4", "7 BadTable", "one instruction"]),
    (".litmus", PLAIN + OPENING + "exists [x]=0\n", ["line 4", "13 BadCondition", "from_herd"]),
    (".litmus", PLAIN + OPENING + "exists x=0 && x=1\n", ["line 4", "13 BadCondition", "Atoms are"]),
    (".litmus", PLAIN + OPENING + "exists 0:\nx6=0\n", ["line 5, `x6=0`", "11 AddressAsValue", "the address"]),
    (".litmus", PLAIN + OPENING, ["line 3", "14 CutShort", "The condition"]),
    (".litmus", PLAIN + OPENING + " sw x5,0(x6) ;\nexists x=0\n", [
        "line 4", "7 BadTable", "The row has 1 cell, and there are 2 threads"]),
    # A header row that isn't the first to come has as many cells as the one behind it.
    (".litmus", PLAIN + "{ x=0; }\n P1 | P0 ;\n P0 | P1 ;\nexists x=0\n", [
        "line 3, `P1 | P0 ;`", "7 BadTable", "often meant: A row has a cell for each thread"]),
    # A location may have a thread's name.
    (".litmus", PLAIN + "{ 1:x6=x;\nP0=2; }\n P0 | P1 ;\n li x5,1 ;\nexists x=0\n", [
        "line 5", "7 BadTable", "The row has 1 cell, and there are 2 threads"]),
    (".litmus", PLAIN + "{ 1:x6=x;\nP0=x; }\n P0 | P1 ;\nexists x=0\n", [
        "line 3", "5 BadInitial", "A location opens with a number"]),
    (".litmus", PLAIN + "{ 1:x6=x;\nP0=2; }\n P0 | P1 ;\nexists 2:x7=0\n", [
        "line 5", "13 BadCondition", "There is no thread 2: the table has 2, from P0 on."]),
    (".trace", "x R 0x0\n", ["CORE: `x`", "4 BadCore", "begins with the core, a number alone"]),
    (".trace", f"0 R 0x0 {'y' * 92}\n", [f"line 1, `0 R 0x0 {'y' * 92}`, a field too many"]),
    (".trace", f"0 R 0x0 {'y' * 93}\n", [f"line 1, `0 R 0x0 {'y' * 92}..`, a field too many: `{'y' * 93}`"]),
    (".trace", "0 R 0x0\n16 R 0x8\n", ["line 2, `16 R 0x8`, CORE: `16`", "4 BadCore", "`trace 2`"]),
    (".trace", "0,R,0x0\n", ["line 1", "CORE: `0,R,0x0`", "not commas"]),
    (".trace", "0 A\n", ["the letter: `A`", "5 BadOperation", "`trace 2`"]),
    (".trace", "0 ST 0x0 1\n", ["the letter: `ST`", "5 BadOperation", "one capital"]),
    (".trace", "0 R 0x4\n", ["ADDR: `0x4`", "6 BadAddress", "multiple of 8"]),
    (".trace", "0 R 0xA8\n", ["ADDR: `0xA8`", "6 BadAddress", "small letters"]),
    (".trace", "0 R 0x8\r\n", ["ADDR: `0x8\\x0d`", "6 BadAddress", "carriage return"]),
    (".trace", "0 W 0x8\n", ["VALUE is missing", "7 BadValue", "has a value"]),
    (".trace", f"0 W 0x8 {2 ** 64}\n", [f"VALUE: `{2 ** 64}`", "7 BadValue", "from 0 to 2^64 - 1"]),
    (".trace", "0 W 0x8 0x1\n", ["VALUE: `0x1`", "7 BadValue: VALUE: 1 to 20 decimal digits", "64 bits: what is stored",
                                 "decimal"]),
    (".trace", "\ufeff0 R 0x0\n", ["line 1, `\\xef\\xbb\\xbf0 R 0x0`", "4 BadCore", "A byte order mark", "tail -c +4"]),
    (".litmus", "\ufeffRISCV T\n" + OPENING + "exists x=0\n", ["3 BadByte", "A byte order mark"]),
    (".litmus", "# c\ntrace 2\n20 R 0x0\n", ["BadHeader", "It is a trace"]),
    (".litmus", "0 R 0x0\n", ["BadHeader", "It is a trace"]),
    (".trace", "0 R 0x8 1\n", ["a field too many: `1`", "8 ExtraWords", "no value"]),
    (".trace", "trace 3\n", ["what follows `trace`: `3`", "9 BadForm", "only form"]),
]


# Tests of tests/herd_users that tools/from_herd.py converts: they have no loop, offset, array, pointer or sum.
HERD_CONVERTED = {"AMO_X0", "CTRLFENCEI", "CoRR-locs", "IRIW+addrs", "LB+data+ctrl", "PPOCA", "SB64", "SB64b"}
# What other machines call an instruction.
ELSEWHERE = {"st": "sw", "str": "sw", "store": "sw", "stw": "sw", "ldr": "lw", "load": "lw", "lwz": "lw", "set": "li",
             "mov": "lw`, `sw` or `li", "movl": "lw`, `sw` or `li", "swap": "amoswap.w", "xchg": "amoswap.w",
             "swp": "amoswap.w", "mfence": "fence rw,rw", "dmb": "fence rw,rw", "sync": "fence rw,rw"}
# Cells of P1 and conditions that aren't read, and words of the hint that each must get.
SLIPS = [("lw x7,x6", "", "The operands of `lw` are xD,0(xB)."), ("ldr x5,[x6]", "", "did you mean `lw`?"),
         ("amoswap x7,x5,(x6)", "", "`amoswap.w` or `amoswap.d`"), ("mfence", "", "did you mean `fence rw,rw`?"),
         ("lw x7,0(x6) ;", "", "One `;` ends the row"), ("amoswap.w x7,(x6),x5", "", "are xD,xS,(xB)."),
         ("", "final (1:x7=1)", "A condition begins with `exists`"),
         ("", "(1:x7=1)", "A condition begins with `exists`"),
         ("", "forrall (x=1)", "did you mean `forall`?"), ("", "exists (1:r7=1)", "Registers are x0 to x31."),
         ("", "exists (P1:x7=1)", "`1:x7`, not `P1:x7`"), ("", "exists (1:x7=-1)", "No number is negative."),
         ("", "exists (1:x7=0, x=1)", "joined by `/\\` and `\\/` alone."),
         ("", "exists x7=1", "its thread in front, as `0:x7`."),
         ("", "exists (x=1 /\\ x7=1)", "its thread in front, as `0:x7`."), ("", "exists (1:x0=0)", "x0 is always 0"),
         ("", "exists (1:x7=1))", "A parenthesis too many"), ("", "exists (3:x7=1)", "There is no thread 3"),
         ("", "exists [x]=1", "`tools/from_herd.py` converts it"),
         ("", "forall (1:x7=1 => x=1)", "`tools/from_herd.py` converts this test"),
         *((f"{name} x5,x7", "", f"did you mean `{meant}`?") for name, meant in ELSEWHERE.items())]
# Tests that are read, and what of them can't be meant.
WARNED = [
    ("RISCV T\n{ 0:x6=x; 0:x8=y; 0:x5=1; }\n P0 ;\n sw x5,0(x6) ;\nexists x=1\n", [
        "0:x8=y: no instruction of P0 uses that address"]),
    ("RISCV T\n{ 0:x6=x; }\n P0 ;\n sw x5,0(x6) ;\nexists (x=1)\n", ["P0 stores x5, which nothing has set: it is 0"]),
    ("RISCV T\n{ 0:x6=x; 1:x5=1; 1:x6=x; }\n P0 | P1 ;\n sw x5,0(x6) | sw x5,0(x6) ;\nexists (x=1)\n", [
        "P0 stores x5, which nothing has set: it is 0"]),
    ("RISCV T\n{ 0:x6=x; x=3; }\n P0 ;\n lw x5,0(x6) ;\nexists (x=1 /\\ 0:x5=3)\n", [
        "x in the condition: no instruction stores it, so it is always 3"]),
    ("RISCV T\n{ 0:x6=x; 0:x7=2; }\n P0 ;\n amoswap.w x5,x7,(x6) ;\nexists (0:x7=1)\n", [
        "0:x7 in the condition: no instruction of P0 writes x7, so it is always 2"]),
    ("RISCV T\n{ 0:x6=x; }\n P0 ;\n sw x0,0(x6) ;\n lw x5,0(x6) ;\n sw x5,0(x6) ;\nexists (0:x5=1)\n", []),
    # What a header line has isn't the block, and a carriage return may stand before the condition.
    ("RISCV T\n\"{ 7:x6=x; } (x8)\"\n{ 0:x6=x; 0:x8=y; 0:x5=1; }\n P0 ;\n sw x5,0(x6) ;\n\r exists x=1\n", [
        "0:x8=y: no instruction of P0 uses that address"])]


# Over an opening: its text, and lines that must be told of two loads of 0x8, of which one received 5 and one 6.
LOADS = "0 R 0x8\n1 R 0x8\n", "0 0 R 0x8 5 0 0\n1 0 R 0x8 6 0 1\n"
OPENINGS = [
    ("", ["wrong value 0", "received 5 instead of 0:", "which opens as 0", "No record wrote 5 there.",
          "tools/order.py --opening OPENING RECORDS says why"]),
    ("0x10 6\n\n0x8 5", ["wrong value 1", "received 6 instead of 5:", "which opens as 5", "No record wrote 6 there."]),
    ("0x8 1\n# 0x8 2\n0x8 1\n", ["OPENING, line 3, `0x8 1`, ADDR: `0x8`", "10 DoubleWord", "one value at first"]),
    ("8 5\n", ["OPENING, line 1, `8 5`, ADDR: `8`", "6 BadAddress", "`0x` and small letters"]),
    ("0x8\n", ["line 1, `0x8`, VALUE is missing", "7 BadValue: VALUE", "A line of an opening has"]),
    ("0x8 5 # five\n0x0 5 6\n", ["line 2, `0x0 5 6`, a field too many: `6`", "8 Extra", "A line of an opening has"])]


class Explainer(Tester):
    """Asks the script about texts, in files of a folder."""

    def __init__(self, folder):
        super().__init__(str(TOP / "tools/explain.py"))
        self.folder = folder

    def tells(self, wanted, *texts, names=("trace", "records"), is_good=False, opening=None):
        """The script says these words, in this order."""
        paths = [Path(self.folder, name) for name, _ in zip(names, texts)]
        for path, text in zip(paths, texts):
            path.write_bytes(text)
        lines, is_wrong = explain.explained(list(map(str, paths)), opening)
        out, at, good = "\n".join(lines), 0, is_wrong != is_good
        for words in wanted:
            found = out.find(words, at)
            at, good = found + len(words), good and found >= 0
        self.expect(good, f"{texts}: {out}, wanted {wanted}")
        return out


def verdicts(tester):
    for verdict, texts in rows(TOP / "examples/verdicts.table"):
        out = tester.tells([verdict], *map(of_printf, texts.split("|")), is_good=verdict == "legal")
        tester.expect(out.splitlines()[0] == verdict, f"{texts}: {out}, wanted {verdict}")
    tester.tells(TWICE[2], TWICE[0].encode(), TWICE[1].encode())
    for trace, records, wanted in EQUAL:
        tester.tells(wanted, trace.encode(), records.encode())
    left = "2 operations of the trace have no record; the first is line 2, 0 W 0x8 1."
    tester.tells(["legal\n" + left], MP.encode(), b"0 0 W 0x0 1 1 0\n1 0 R 0x8 0 0 1\n", is_good=True)
    tester.tells(["legal\n1 operation of the trace has no record: line 4, 0 R 0x0."],
                 b"trace 2\n0 A\n0 W 0x0 1\n0 R 0x0\n0 A\n", b"0 0 W 0x0 1 1 0\n", is_good=True)
    paths = [str(Path(tester.folder, name)) for name in ("trace", "records")]
    for words in (["--complete", *paths], ["--", "check", *paths, "--complete"]):
        ran = tester.run(*words)
        tester.expect(ran == (1, "no record of operation 1 of core 0\n1 operation of the trace has no record: line 4, "
                              "0 R 0x0.\n", ""), f"{words}: {ran}")
    out = tester.tells(["legal"], MP.encode(), "\n".join(GOOD).encode(), is_good=True)
    tester.expect(out == "legal", f"all records are there: {out}")
    for records, wanted in SWAPS[1]:
        tester.tells(wanted, SWAPS[0].encode(), records.encode())
    opening = Path(tester.folder, "opening")
    for text, wanted in OPENINGS:
        opening.write_text(text)
        tester.tells([words.replace("OPENING", str(opening)) for words in wanted], *map(str.encode, LOADS),
                     opening=str(opening))
    for line, record, wanted in RECORDS:
        records = [*GOOD[:line - 1], record, *GOOD[line:]]
        tester.tells(wanted, MP.encode(), "\n".join(records).encode())


def told_fault(fault):
    """What the script must say of a fault `line 6: 8 BadInstruction`."""
    line, kind = fault.removeprefix("opening: ").split(": ")
    return [f", {line}, ", f"  {kind}: "]


def faults(tester):
    for fault, text in rows(TOP / "tests/litmus_faults.table"):
        tester.tells(told_fault(fault), unescaped(text), names=["text.litmus"])
    for table, names in (("traces.table", ["text.trace"]), ("records.table", ["none.trace", "text.records"])):
        for fault, text in rows(TOP / "examples/bad" / table):
            tester.tells(told_fault(fault), *[b""] * (len(names) - 1), of_printf(text), names=names)
    for fault, text in rows(TOP / "examples/bad/openings.table"):
        path = Path(tester.folder, "text.opening")
        path.write_bytes(of_printf(text))
        tester.tells(told_fault(fault), b"", b"", opening=str(path))


def causes(tester):
    for cell, kind, meant in CELLS:
        text = f"RISCV T\n{OPENING} sw x5,0(x6) | ;\n | {cell} ;\nexists x=0\n"
        tester.tells([f"line 5, P1: `{cell}`", f"  {kind} ", meant], text.encode(), names=["text.litmus"])
    for ending, text, wanted in TEXTS:
        tester.tells(wanted, text.encode(), names=["text" + ending])
    for name, text, wanted in (("a.trace", gzip.compress(b"0 R 0x0\n" * 99, mtime=0), "It is compressed by gzip"),
                               ("a.litmus", gzip.compress(PLAIN.encode(), mtime=0), "It is compressed by gzip"),
                               ("a.trace", "0 R 0x0\n".encode("utf-16"), "It is in UTF-16"),
                               ("a.trace", b"#\n" * 16_777_217, "It has more lines than are read: `head -n 16777216 "
                                "FILE` is its beginning. `tardis trace --stream FILE` runs all."),
                               ("a.trace", b"0 R 0x0 #" + b"." * 260, "A comment that is too long.")):
        tester.tells([f"{name}, line ", f"often meant: {wanted}"], text, names=[name])
    tester.tells(["7 BadValue: RECEIVED: ", "64 bits: what the operation received"], b"", b"0 0 R 0x0 x 0 0\n",
                 names=["none.trace", "text.records"])
    tester.tells(["7 BadValue: PLACE: ", "32 bits: the operation's place"], b"", f"0 {2 ** 32} R 0x0 0 0 0\n".encode(),
                 names=["none.trace", "text.records"])
    for title, kinds in (("Litmus tests", explained_texts.TEST),
                         ("Texts of traces, of records and of openings", explained_texts.LINES)):
        for number, (_, _, often) in explained_texts.causes(title).items():
            meant = " ".join(dict.fromkeys(words for _, words in kinds.get(number, [])))
            tester.expect(often == meant, f"docs/TEXTS.md, {title}, {number}: {often}, and the script has {meant}")
        tester.expect(kinds.keys() <= explained_texts.causes(title).keys(), f"docs/TEXTS.md, {title}: lacks a kind")


def malformed(tester):
    """Tests as newcomers mistyped them: the fault by both programs, and a hint that hits."""
    listed = [line.split("|") for line in (TOP / "tests/malformed.table").read_text().splitlines() if line[0] != "#"]
    names = sorted(path.stem for path in (TOP / "tests/malformed").glob("*.litmus"))
    tester.expect(names == [name for name, *_ in listed] and len(names) == 22, f"tests/malformed: {names}")
    for name, fault, words in listed:
        text = (TOP / f"tests/malformed/{name}.litmus").read_bytes()
        tester.expect((fault_of(text) or "") == fault, f"{name}: {fault_of(text)}, wanted {fault}")
        tester.tells([*(told_fault(fault) if fault else ["nothing is wrong"]), words], text, names=["text.litmus"],
                     is_good=not fault)
    for path in sorted((TOP / "tests/herd_users").glob("*.litmus")):
        out, _ = explain.explained([str(path)])
        is_converted = path.stem in HERD_CONVERTED
        is_read = fault_of(path.read_bytes()) is None
        says = any("from_herd.py` converts" in line for line in out)
        tester.expect(is_read or says == is_converted, f"{path.name}: {out}")
    for cell, condition, words in SLIPS:
        text = f"{PLAIN}{OPENING} sw x5,0(x6) | {cell} ;\n{condition or 'exists (x=1)'}\n"
        tester.tells(["  often meant: ", words], text.encode(), names=["text.litmus"])
    for text, wanted in WARNED:
        out = tester.tells(["nothing is wrong"], text.encode(), names=["text.litmus"], is_good=True)
        tester.expect(out.split("\n")[1:] == [f"  but {one}" for one in wanted], f"{text}: {out}, wanted {wanted}")
    for path in (TOP / "examples/litmus").glob("*.litmus"):
        tester.expect(litmus_hints.warnings(path.read_text()) == [], f"{path.name}: warnings")


def runs(tester):
    os.chdir(TOP)
    for words, wanted, said in RUNS:
        status, out, error = tester.run("--", *words.split(" "))
        at, good = 0, (status, error) == (wanted, "")
        for part in said:
            found = out.find(part, at)
            at, good = found + len(part), good and found >= 0
        tester.expect(good, f"{words}: {status} {out} {error}, wanted {said}")
    queue = Path(tester.folder, "queue.trace")  # each core stores to one line: the bank serves them in turn
    queue.write_text("trace 2\n" + "".join(f"{core} W 0x0 1\n" for core in range(64)), encoding="ascii")
    status, out, error = tester.run("--", "trace", "--limit", "190", str(queue))
    tester.expect(status == 1 and "Cause: too few turns." in out, f"a queue: {status} {out} {error}")
    for words, said in REFUSED:
        status, out, error = tester.run("--", *words.split(" "))
        at = [out.find(part) for part in said]
        tester.expect((status, error) == (1, "") and -1 not in at and at == sorted(at),
                      f"{words}: {status} {out} {error}")
    streamed(tester)
    undecided(tester)
    full = tester.run("--", "trace", "examples/traces/PAST.trace")
    tester.expect(full[0] == 0, f"a run that is all done: {full}")
    tester.expect(tester.run("--", "ends", "examples/litmus/SB.litmus")[0] == 0, "a list of ends")
    with open("/dev/full", "w", encoding="ascii") as device:
        ran = subprocess.run([tester.program, "--", "trace", "examples/traces/PAST.trace"], stdout=device,
                             stderr=subprocess.PIPE, check=False)
    tester.expect((ran.returncode, ran.stderr) == (2, b"explain.py: standard output: No space left on device\n"),
                  f"a full device: {ran.stderr}")
    for words, wanted in NO_RUNS:
        status, out, error = tester.run("--", *words.split())
        tester.expect((status, out, error.count("\n")) == (2, "", 1) and wanted in error, f"{words}: {status} {error}")


def piped(tester):
    """Files that can be read only once."""
    texts = [(TOP / f"examples/{name}").read_bytes() for name in ("litmus/SB.litmus", "traces/PAST.trace")]
    good, done = (f"/dev/stdin: nothing is wrong{words}\n" for words in (" with this text", ", all is done"))
    for words, text, wanted in ((["/dev/stdin"], texts[0], good), (["/dev/stdin"], texts[1], good),
                                (["--", "litmus", "/dev/stdin"], texts[0], done),
                                (["--", "trace", "/dev/stdin"], texts[1], done),
                                (["/dev/stdin", str(TOP / "examples/traces/PAST.records")], texts[1], "legal\n")):
        got = tester.run(*words, text=text)
        tester.expect(got == (0, wanted, ""), f"{words} through a pipe: {got}")


def undecided(tester):
    """Where the time is up, nothing is said of the records around a wrong value. A store that misses is done in round
    6, five rounds after the first; fewer rounds don't show that it will be."""
    usual, explained_orders.SECONDS = explained_orders.SECONDS, -1
    out = tester.tells(["wrong value 4", "another may: tools/order.py RECORDS looks for it."],
                       *map(str.encode, EQUAL[0][:2]))
    tester.expect("rder of the" not in out, f"no time for another order: {out}")
    explained_orders.SECONDS = usual
    options = explained_runs.options_of(["trace", "--limit", "1", "examples/traces/FIRST-STORE.trace"])
    run, _ = explained_runs.run_of(explained_runs.subject_of(options, Path(options.FILE).read_bytes()), options, 0)
    usual = explained_runs.LONG
    for explained_runs.LONG, wanted in ((usual, 5), (6, 5), (5, None)):
        rounds = explained_runs.goes_on_fairly(run)
        tester.expect(rounds == wanted, f"of {explained_runs.LONG - 1} rounds: {rounds}, wanted {wanted}")
    explained_runs.LONG = usual


def streamed(tester):
    """The run that is explained is the one that is made: by a seed, a stream's machine of 64 cores has another one."""
    for cores in ([], ["--cores", "2"]):
        words = ["trace", "--stream", *cores, "--schedule", "seed", "--seed", "2", "examples/traces/PAST.trace"]
        options = explained_runs.options_of(words)
        run, _ = explained_runs.run_of(explained_runs.subject_of(options, Path(words[-1]).read_bytes()), options, 0)
        _, out, _ = Tester(os.environ["TARDIS"]).run(*words, "--records")
        records = [record_line(record) for record in run.machine.records]
        tester.expect(records == out.splitlines(), f"{words}: {records}, and the program has {out}")


def others(tester):
    piped(tester)
    tester.tells(["nothing is wrong"], MP.encode(), names=["good.trace"], is_good=True)
    test = (TOP / "examples/litmus/SB.litmus").read_bytes()
    tester.tells(["nothing is wrong"], test, names=["SB.litmus"], is_good=True)
    traces = str(TOP / "examples/traces/PAST.trace"), str(TOP / "examples/traces/SWAP-LOCK.records")
    for words, wanted in (((traces[0],), 0), (traces, 1)):
        status, out, error = tester.run(*words)
        tester.expect((status, error) == (wanted, "") and out, f"{words}: {status} {out} {error}")
    for words in ([], ["--nothing"], ["none.trace"], ["none.trace", "none.records"], [tester.folder]):
        status, out, error = tester.run(*words)
        tester.expect((status, out, error.count("\n")) == (2, "", 1), f"{words}: {status} {out} {error}")
    records = [f"0 {k} R 0x0 {int(k == 20)} 0 {k}" for k in range(40)]
    out = tester.tells(["wrong value 20"], b"0 R 0x0\n" * 40, "\n".join(records).encode())
    tester.expect([out.count(f"line {k}:") for k in (17, 18, 24, 25)] == [0, 2, 2, 0], f"three around it: {out}")
    for told, first, value in (("Another order of the 61 records around it, lines 72 to 132, explains", 100, 0),
                               ("No other order of the 61 records around it, lines 72 to 132, explains", 60, 0)):
        lines = [f"0 {k} R 0x0 {0 if k < first else 1} 0 {k}" for k in range(first)] + [f"1 0 W 0x0 1 0 {first}"]
        lines += [f"0 {k} R 0x0 {int(k != 100)} 0 {k + 1}" for k in range(first, 160)]
        tester.tells(["another may: tools/order.py RECORDS", told],
                     b"0 R 0x0\n" * 160 + b"1 W 0x0 1\n", "\n".join(lines).encode())
    lines = ["0 0 S 0x0 1 0 0 0", *(f"0 {k} R 0x0 1 0 {k}" for k in range(1, 100)), "1 0 W 0x0 2 0 100"]
    lines += [f"0 {k} R 0x0 {1 + (k > 100)} 0 {k + 1}" for k in range(100, 161)]
    tester.tells(["wrong value 101", "Another order of the 61 records around it, lines 72 to 132, explains"],
                 b"0 S 0x0 1\n" + b"0 R 0x0\n" * 160 + b"1 W 0x0 2\n", "\n".join(lines).encode())
    opening = Path(tester.folder, "opening")
    opening.write_text("0x0 9\n")
    tester.tells(["wrong value 101", "Another order of the 61 records around it, lines 72 to 132, explains"],
                 b"0 S 0x0 1\n" + b"0 R 0x0\n" * 160 + b"1 W 0x0 2\n",
                 "\n".join(["0 0 S 0x0 1 9 0 0", *lines[1:]]).encode(), opening=str(opening))
    opening.write_text("0x0 9\n0x8 7\n")  # one of the 61 has what 0x8 opens with
    tester.tells(["wrong value 101", "Another order of the 61 records around it, lines 72 to 132, explains"],
                 b"0 S 0x0 1\n" + b"0 R 0x0\n" * 109 + b"0 R 0x8\n" + b"0 R 0x0\n" * 50 + b"1 W 0x0 2\n",
                 "\n".join(["0 0 S 0x0 1 9 0 0", *lines[1:111], "0 110 R 0x8 7 0 111", *lines[112:]]).encode(),
                 opening=str(opening))
    many, start = [f"0 {k} R 0x0 0 0 {k + (k == 29999)}" for k in range(30000)], time.process_time()
    tester.tells(["bad number 29999", "No number stands twice"], b"0 R 0x0\n" * 30000, "\n".join(many).encode())
    tester.expect(time.process_time() - start < 20, "30,000 records take too long")
    kept, os.environ["TARDIS"] = os.environ["TARDIS"], str(Path(tester.folder, "program"))
    Path(os.environ["TARDIS"]).write_text("#!/bin/sh\necho maybe\n")
    Path(os.environ["TARDIS"]).chmod(0o755)
    ran = tester.run(*traces)
    tester.expect(ran == (2, "", f"explain.py: {os.environ['TARDIS']} answers no verdict\n"), f"no verdict: {ran}")
    Path(os.environ["TARDIS"]).write_text("#!/bin/sh\necho 'tardis: line 0: 9 Read' >&2\nexit 2\n")
    ran = tester.run(*traces)
    tester.expect(ran == (2, "", f"explain.py: {traces[0]}: line 0: 9 Read\n"), f"a fault of no line: {ran}")
    os.environ["TARDIS"] = kept
    status, out, error = tester.run("--help")
    tester.expect((status, error) == (0, "") and "TRACE RECORDS" in out, f"--help: {status} {error}")


def main(program):
    os.environ["TARDIS"] = os.path.abspath(program)
    with tempfile.TemporaryDirectory() as folder:
        tester = Explainer(folder)
        for part in (verdicts, faults, causes, malformed, others, runs):
            part(tester)
    print(f"{tester.tried} tried, {tester.wrong} wrong")
    return int(tester.wrong > 0)


if __name__ == "__main__":
    sys.exit(main(sys.argv[1]) if len(sys.argv) == 2 else __doc__)
