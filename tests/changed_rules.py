"""Changed rules for tests/changed_definitions.py: one small change of a definition that docs/TRUST.md lists, in the
file of reference/ that states the same rule.

They were chosen by hand before any was tried: down a group's table, from most of the files that reference/ states,
definitions that stand there in a place of their own. Each group has six or more, if reference/ states as many. The ten
changes of docs/HOSTILE.md's first figure stand in front. None was left out for what it showed, but those that change no
function, and others of the same definitions took their places:

- `coherent`, `words_end`: the last write of a word by its number, not by its time. On a machine these are the same.
- `set_of` of private_cache: the set of the line behind. That only names the sets otherwise.
- `item_or_end`: a comma ends an item. The next item then begins by a comma, which is the same fault in the same line.
- `tried` of mailboxes: a completion counts two. The second program reads that count nowhere.
- `Left` of closed_machine: held messages don't count as owners. No seat holds a message that carries ownership.
- `after_held`: the last of the held messages that is the served one. There is one.
- `is_progress` of schedules: a dropped recall is no progress of a round. It never is the only one. A core drops a
  recall once the line has come back to the bank, which freed a place. If all places are taken again, a younger message
  has the last one. It is delivered behind the recall, finds the place that this leaves, and makes progress. That leaves
  a core that was issued as many operations as it may be.

Of calls from C only numbers of refusals and what records lack are stated. Of laws nothing is: they run nowhere.
"""
from typing import NamedTuple

THEOREM, TABLE, LISTS, CHECKER = "The theorem", "The machine's table", "Lists of events and what is looked up", \
    "The checker"
LITMUS, READINGS, THREADS, SEATS = "The litmus text", "The readings", "Runs by threads", \
    "Seats of your own, and numbers"
REPORTS, TRACES, CALLS, LAWS = "Runs and reports", "Traces and records", "Calls from C and C++", "Laws for later layers"
# Groups of which reference/ states nothing: laws run nowhere.
UNSTATED = (LAWS,)


class Row(NamedTuple):
    """A change: the group, the definition, the file, what stands there once and what takes its place, and in words."""
    group: str
    definition: str
    file: str
    old: str
    new: str
    change: str


def rows_of(file, rows):
    return [Row(group, definition, f"reference/{file}.py", old, new, change)
            for group, definition, old, new, change in rows]


LEASED = "e.rts = max(e.rts, fit(e.wts + lease), fit(m.pts + lease))"
WRITE = "copy.rts if private else fit(copy.rts + 1))"
GIVEN_BACK = "e.wts, e.rts, e.dirty = m.wts, m.rts, True"
SETS = "(line // self.o.banks) % self.o.bank_sets"
ROWS = rows_of("machine", [
    # The ten of docs/HOSTILE.md.
    (TABLE, "shared_lease of timestamp_manager", LEASED, "e.rts = max(e.rts, fit(e.wts + lease))",
     "the reader's time plus the lease left out"),
    (TABLE, "returned_lease of timestamp_manager", "max(copy.rts, fit(copy.wts + self.o.lease), m.rts)",
     "max(copy.rts, fit(copy.wts + self.o.lease))", "the time that was asked for left out"),
    (TABLE, "is_version of timestamp_manager", "same = m.version == e.wts", "same = m.version is not None",
     "any version"),
    (TABLE, "serves of core_pts", 'kind == "load" and core.pts <= copy.rts', 'kind == "load" and core.pts < copy.rts',
     "a load only before the lease's end"),
    (TABLE, "write_time of core_pts", WRITE, WRITE.replace("1", "2"), "two after the lease's end"),
    (TABLE, "time_of of core_pts", "time = max(core.pts, copy.wts)", "time = core.pts", "a load's time is the core's"),
    (TABLE, "read_at of core_pts", "copy.rts = max(copy.rts, time)", "pass", "an owner's load leaves its lease"),
    (TABLE, "advance of core_pts", "fit(self.cores[number].pts + 1)", "fit(self.cores[number].pts + 2)", "by 2"),
    (THEOREM, "set_of of llc_bank", SETS, "line % self.o.bank_sets", "not over the number of banks"),
    (TABLE, "evicted of llc_bank", "max(self.mts[bank], e.rts)", "max(self.mts[bank], e.wts)",
     "the memory time rises to the version"),
    # The theorem.
    (THEOREM, "set_at of line_sets", "self.cores[core].sets[line % self.o.sets]",
     "self.cores[core].sets[line // 2 % self.o.sets]", "two neighbouring lines share a set"),
    (THEOREM, "words_of of dram_mts", "self.dram.get(m.line, [0] * self.o.line_words)",
     "self.dram.get(m.line, [1] * self.o.line_words)", "a line that was never stored has ones"),
    (THEOREM, "is_exclusive of core_pts", 'if copy.state == "Exclusive":\n                copy.rts',
     'if copy.state == "Shared":\n                copy.rts', "a reader's load extends the lease, an owner's doesn't"),
    (THEOREM, "find of line_sets", "place for place in places if place.line == line",
     "place for place in places if place.line >= line", "the first line that isn't lower"),
    # The machine's table.
    (TABLE, "open_core of machine_table", "SimpleNamespace(pts=options.time, ", "SimpleNamespace(pts=0, ",
     "a core opens at time 0"),
    (TABLE, "open_bank of machine_table", "self.mts = [options.time] * options.banks", "self.mts = [0] * options.banks",
     "a bank opens at time 0"),
    (TABLE, "has_capacity of network", "len(self.flight) >= self.o.messages", "len(self.flight) > self.o.messages",
     "one more message finds a place"),
    (TABLE, "counted of network", 'COUNTED = {"RenewRep": "renewals", "UpgradeRep": "upgrades"',
     'COUNTED = {"UpgradeRep": "renewals", "RenewRep": "upgrades"', "renewals and upgrades exchanged"),
    (TABLE, "if_there of machine_table", 'if name not in ("Deliver", "EvictBank") and of[0] >= len(self.cores):\n'
     '            return "NoSuch"', 'if name not in ("Deliver", "EvictBank") and of[0] >= len(self.cores):\n'
     '            return "Idle"', "an event of no core is answered Idle"),
    (TABLE, "record_of of machine_table", "kind, word, value, received, time, len(self.records)",
     "kind, word, value, received, time, len(self.records) + 1", "completions are numbered from 1"),
    (TABLE, "issue of core_pts", "if self.cores[number].op:", "if self.cores[number].out:",
     "an open operation is replaced until its request is out"),
    (TABLE, "dram_case of dram_mts", "self.dram[m.line] = m.words", "self.dram.setdefault(m.line, m.words)",
     "a line's first store stays"),
    (TABLE, "with_used of llc_bank", "entries.append(entries.pop(entries.index(e)))", "pass",
     "a request leaves the entry's place in the order of use"),
    (TABLE, "place_for of private_cache", 'if not copy and len(copies) >= self.o.ways:\n            return "NoRoom"',
     'if not copy and len(copies) > self.o.ways:\n            return "NoRoom"', "one more copy finds a place"),
    (TABLE, "read_answer of llc_bank", '("RenewRep" if same else "ShRep")', '("ShRep" if same else "ShRep")',
     "no renewals"),
    (TABLE, "given_back of llc_bank", GIVEN_BACK, GIVEN_BACK.replace("True", "e.dirty"), "a returned line isn't dirty"),
    (TABLE, "asked_back of llc_bank", 'line, e.owner, rts=until)\n            e.state = "Recalling"',
     'line, e.owner, rts=until)\n            e.state = "Exclusive"', "a recall leaves the entry Exclusive"),
    (TABLE, "put_last of line_sets", "copies.append(copies.pop(copies.index(copy)))", "pass",
     "a hit leaves the copy's place in the order of use"),
    # Lists of events and look-ups.
    (LISTS, "copies of interleaving_core", "return sorted(copy.line for copies in self.cores[number]",
     "return list(copy.line for copies in self.cores[number]", "the lines in their order of use"),
    (LISTS, "is_request of interleaving_core", 'm.kind not in ("ShReq", "ExReq") or len',
     'm.kind not in ("ShReq",) or len', "no room for a request to own"),
    (TABLE, "attempt_unserved of core_pts", 'if core.out:\n            return "Waiting"',
     'if core.out:\n            return "Idle"', "Idle for Waiting"),
    (LISTS, "victim_for of private_cache", "copies[0].line if not copy", "copies[-1].line if not copy",
     "the most recently used copy"),
    (LISTS, "is_settled of llc_bank", 'if e.state in ("Shared", "Exclusive"))', 'if e.state in ("Shared",))',
     "a line that is owned isn't listed"),
    (LISTS, "all_settled of llc_bank", 'UNDER_WAY = ("Loading", "Recalling", "Storing")',
     'UNDER_WAY = ("Loading", "Recalling")', "a line that is stored may leave"),
    (LISTS, "chosen of llc_bank", 'if other.state == "Shared"), entries[0]).line', 'if other.dirty), entries[0]).line',
     "the first dirty line"),
]) + rows_of("calls", [
    (TABLE, "is_good of machine_table", '"bank-ways": (8, 1, 16)', '"bank-ways": (8, 1, 17)', "17 ways of a bank"),
]) + rows_of("machine_texts", [
    (THEOREM, "carries_ownership of network", '"FlushRep", "WbRep")', '"FlushRep")', "a write-back carries none"),
    (THEOREM, "owners of machine_theorem", 'for copy in copies if copy.state == "Exclusive")', "for copy in copies)",
     "every copy is an owner's"),
    (THEOREM, "coherent of machine_theorem", "self.last else self.opening.get(word, 0)", "self.last else 0",
     "a word that no one wrote is 0"),
    (LISTS, "free_copies of core_pts", "line for line in copies if line != self.machine.line_at(core)",
     "line for line in copies if line > (self.machine.line_at(core) or -1)", "only lines above the open one"),
]) + rows_of("order", [
    (THEOREM, "Before of physiological_order", "(record.time, record.number))", "(record.time, -record.number))",
     "at equal times by falling number"),
    (THEOREM, "flat_after of physiological_order", '    if record.kind != "load":\n        memory[record.word]',
     '    if record.kind == "store":\n        memory[record.word]', "a swap leaves the memory"),
    (THEOREM, "KeepsProgramOrder of physiological_order", "record.place != place or place", "place",
     "a record's place isn't compared"),
    (CHECKER, "is_stale_load of physiological_order", "elif latest.get(record.word, -1) > record.time:",
     "elif latest.get(record.word, -1) >= record.time:", "also at the write's time"),
    (CHECKER, "writes of physiological_order", '        if record.kind != "load":\n            latest',
     '        if record.kind == "store":\n            latest', "a swap writes nothing"),
    (CHECKER, "IsVerdict of physiological_order", "for number in range(len(records)):\n        if",
     "for number in reversed(range(len(records))):\n        if", "the greatest missing number"),
    (CHECKER, "WalksTo of physiological_order", "or wanted[place] != operation(record)", "",
     "operations aren't compared"),
    (CHECKER, "IsVerdict of physiological_order", "for number in range(len(records)):\n        if",
     "for number in range(1, len(records)):\n        if", "record 0 may be missing"),
    (CHECKER, "words_end of physiological_order", "    memory = dict(opening)\n    for record in arrange(records):\n"
     "        flat_step(memory, record)\n    return memory", "    memory = {}\n    for record in arrange(records):\n"
     "        flat_step(memory, record)\n    return memory", "without the opening memory"),
    (TRACES, "HasRecord of report", "place, core):\n    return f\"no record of operation {place} of",
     "core, place):\n    return f\"no record of operation {place} of", "place and core exchanged"),
    (CALLS, "HaveAll of tardis_c", "if done[core] != len(operations)), None)",
     "if done[core] + 1 < len(operations)), None)", "one record may be missing"),
    (CALLS, "IsLack of tardis_c", "return found and found[::-1]", "return found and (found[1] + 1, found[0])",
     "the operation behind the first without a record"),
]) + rows_of("litmus", [
    (LITMUS, "register_value of litmus_reader", 'return 0 if register == "x0" else self', "return self",
     "x0 keeps what is loaded"),
    (LITMUS, "holds of litmus_reader", '.replace("/\\\\", " and ")', '.replace("/\\\\", " or ")',
     "and for or"),
    (LITMUS, "with_setting of litmus_reader", "self.memory[self.word(left)] = int(right)",
     "self.memory[self.word(left)] = int(right) % 2 ** 16", "16 bits of an opening value"),
    (LITMUS, "seen_in of litmus_reader", "list(dict.fromkeys(re.findall(NAME, condition)))",
     "sorted(set(re.findall(NAME, condition)))", "names in the order of letters"),
]) + rows_of("litmus_faults", [
    (LITMUS, "is_blank of litmus_lexer", r'BLANKS = " \t\r"', r'BLANKS = " \t"', "a carriage return isn't blank"),
    (LITMUS, "name_in of litmus_lexer", "{1,128}", "{1,127}", "names of at most 127 bytes"),
    (LITMUS, "is_location of litmus_lexer", "[A-Za-z0-9_]{0,31}", "[A-Za-z0-9_]{0,30}",
     "locations of at most 31 bytes"),
    (LITMUS, "register_of of litmus_lexer", "|3[01])", "|3[0])", "no register x31"),
    (LITMUS, "heading of litmus_parser", 'if cell.strip() != f"P{at}":', 'if cell.strip()[:1] != "P":',
     "any number behind P"),
    (LITMUS, "value of litmus_parser", "2 ** 31 - 1, 2047", "2 ** 31, 2047", "2^31 is a value"),
    (LITMUS, "item_or_end of litmus_parser", 'token = self.expect("[;}]", BAD_INITIAL)',
     'token = self.expect("[;]", BAD_INITIAL)', "the last item needs a semicolon"),
    (LITMUS, "mnemonic_of of litmus_parser", r"(?:\.aq|\.rl)?", r"(?:\.aq)?", "no .rl"),
    (LITMUS, "factor of litmus_parser", "256, 64\n", "256, 63\n", "63 open parentheses"),
    (READINGS, "FaultBefore of litmus_reader", "        if len(self.locations) > LOCATIONS:\n            self.fault(",
     "        if len(self.locations) > LOCATIONS:\n            self.fault(line=1, kind=", "found in line 1"),
    (READINGS, "is_cut_short of litmus_reader", "self.fault(CUT_SHORT, len(self.lines) or 1)",
     "self.fault(CUT_SHORT, len(self.lines) + 1)", "in the line behind the last"),
    (READINGS, "ended_by of litmus_reader", "        if text is None:\n            self.cut_short()\n        if self",
     "        if text is None:\n            self.fault(BAD_HEADER)\n        if self", "a cut header is a bad one"),
    (READINGS, "decided of piece_forms", "        if key in self.items:\n            self.fault(DOUBLE_INITIAL, line)",
     "        if key in self.items:\n            self.fault(DOUBLE_INITIAL)", "in the line of the value"),
    (READINGS, "reads of piece_forms", "self.fault(BAD_INITIAL, missing[0])", "self.fault(BAD_INITIAL, missing[-1])",
     "the last item without a thread"),
    (READINGS, "Read of litmus_lexer", r'if re.search(r"[^\t\r -~]", text):', r'if re.search(r"[^\t\r -\x7f]", text):',
     "byte 127 is read"),
]) + rows_of("seats", [
    (THREADS, "PutInto of mailboxes", "self.slots[free[0]] = seat.outbox.pop(at)",
     "self.slots[free[-1]] = seat.outbox.pop(at)", "the last free slot"),
    (THREADS, "TakenFrom of mailboxes", "seat.cursor = (place + 1) % len(slots)", "seat.cursor = place",
     "the next look begins at the same slot"),
    (THREADS, "is_request of mailboxes", 'if m.kind in ("ShReq", "ExReq"))', 'if m.kind in ("ShReq",))',
     "no room for a request to own"),
    (THREADS, "issue_answer of mailboxes", 'raise Refusal("Busy")', 'raise Refusal("TooMany")', "TooMany for Busy"),
    (THREADS, "link_to of mailboxes", "cores * banks + source * cores + target",
     "cores * banks + target * cores + source", "a bank's links by cores first"),
    (THREADS, "lacks_place of inbox", "if len(self.now.outbox) >= PLACES:", "if len(self.now.outbox) >= PLACES - 1:",
     "an outbox of 255 messages"),
    (THREADS, "is_passed of inbox", 'if answer == "Held" and not is_hand:', 'if answer == "Held":',
     "a message in the hand that is held stays there"),
    (THREADS, "after_hand of inbox", "seat.held.insert(before, m)", "seat.held.append(m)",
     "a message that stays comes behind what it sent"),
    (THREADS, "found_full of mailboxes", "if self.slots[slot] is None]", "if self.slots[slot] is None][1:]",
     "a link of three messages"),
    (THREADS, "incoming of mailboxes", "[core * banks + seat - cores for core in range(cores)]",
     "[core * banks + seat - cores for core in reversed(range(cores))]", "a bank looks at the last core first"),
]) + rows_of("seat_texts", [
    (SEATS, "AreCountsOf of closed_machine", "kind: sum(of[kind] for of in counts)",
     "kind: max(of[kind] for of in counts)", "the greatest for the sum"),
    (SEATS, "AllDrawn of drawn_numbers", "return told.joined(self.drawn[drawer])",
     "return told.joined(self.drawn[drawer][::-1])", "the last number first"),
    (SEATS, "ValuesLeft of closed_machine", "order.end_memory(self.opening, self", "order.end_memory({}, self",
     "without the opening memory"),
    (SEATS, "RisesFrom of drawn_numbers", "append(sum(map(len, self.drawn)))", "append(sum(map(len, self.drawn)) + 1)",
     "from 1"),
    (SEATS, "AreDealt of drawn_numbers", "append(sum(map(len, self.drawn)))", "append(len(self.drawn[drawer]))",
     "each drawer counts by itself"),
]) + rows_of("workers", [
    (THREADS, "has_moved of thread_driver", 'MOVED = ("delivered", "dropped", "started")',
     'MOVED = ("delivered", "started")', "a dropped message is no progress"),
    (THREADS, "InARow of thread_driver", "IN_A_ROW = 16", "IN_A_ROW = 15", "15 turns in a row"),
    (THREADS, "is_followed of thread_driver", "if not self.make_turn(number) or self",
     "if self.make_turn(number) is None or self", "a turn without progress is followed"),
    (THREADS, "RoomMadeIf of thread_driver", "if self.fair and not moved:", "if self.fair:", "also after progress"),
]) + rows_of("schedules", [
    (REPORTS, "is_progress of schedules", '("Waiting", "Held", "Busy",', '("Waiting", "Busy",',
     "a held message is progress"),
    (REPORTS, "is_over of schedules", "if self.turns == limit:", "if self.turns > limit:", "one turn more"),
    (REPORTS, "deliveries of schedules", "    for number in sorted(run.machine.flight):\n        run.deliver(",
     "    for number in sorted(run.machine.flight)[::-1]:\n        run.deliver(", "the last message first"),
    (REPORTS, "drawn of schedules", "events[second % len(events)]", "events[(second + 1) % len(events)]",
     "the event behind the drawn one"),
]) + rows_of("sequential", [
    (REPORTS, "turned of sequential_machine", 'got = 0 if kind == "store" else memory[word]\n                words',
     'got = 0 if kind == "swap" else memory[word]\n                words', "a swap receives 0"),
    (REPORTS, "Every of sequential_ends", "max(sizes[layer - 1] if layer else 0, sizes[layer + 1]) > most",
     "max(sizes[layer - 1] if layer else 0, sizes[layer + 1]) >= most", "a state fewer is kept"),
    (REPORTS, "IsEndOrder of sequential_ends", "ends.setdefault(model.end_values(state), order)",
     "ends[model.end_values(state)] = order", "the last order"),
]) + rows_of("reports", [
    (REPORTS, "is_yes of report_text", '"forall": held == all_done}', '"forall": held > 0}', "forall is exists"),
    (REPORTS, "states_text of report_text", 'for values, count in self.states.items())\n        yield from',
     'for values, count in sorted(self.states.items()))\n        yield from', "states by rising values"),
    (REPORTS, "sums_of of report_text", 'self.sums["completed"] += len(machine.records)',
     'self.sums["completed"] = len(machine.records)', "of the last run alone"),
    (REPORTS, "kinds_text of trace_texts", '**{f"{kind}s": kinds.count(kind) for kind in ("load", "store", "swap")}',
     '**{f"{kind}s": kinds.count(kind) for kind in ("load", "swap", "store")}', "swaps before stores"),
]) + rows_of("counted", [
    (REPORTS, "cause_without of event_counts", 'self.parts["core", core].lost.get(line, "cold")',
     '"cold"', "each copy that is missing is cold"),
    (REPORTS, "reloaded_at of event_counts", "+= self.has_copy(message.core, message.line)", "+= 1", "every grant"),
]) + rows_of("traces", [
    (REPORTS, "IsAddress of trace_lines", "if byte % 8:", "if byte % 4:", "every fourth byte"),
    (REPORTS, "IsTooLong of trace_reader", "len(line) > BYTES", "len(line) >= BYTES", "256 bytes are too long"),
    (TRACES, "IsWritable of trace_texts", "core, place = fields.core(63), fields.value(32)",
     "core, place = fields.core(63), fields.value(31)", "places of 31 bits"),
    (TRACES, "BeginTooLong of trace_reader", "LINES, BYTES = 16_777_216, 256", "LINES, BYTES = 16_777_215, 256",
     "a line fewer"),
    (TRACES, "IsRangedOp of trace_texts", 'value = None if letter == b"R" else fields.value()\n        received',
     'value = fields.value() if letter == b"W" else None\n        received', "a swap has no value"),
    (TRACES, "IsAnswered of trace_texts", 'None if letter == b"W" else fields.value()\n        time',
     'fields.value() if letter == b"R" else None\n        time', "a swap receives nothing"),
    (TRACES, "named of trace_reader", "for _, word, _ in operations})", "for kind, word, _ in operations "
     'if kind != "load"})', "words that are only loaded aren't named"),
    (TRACES, "is_within of trace_lines", 'line.split(b"#")[0])', 'line.split(b" #")[0])',
     "a comment begins behind a blank alone"),
]) + rows_of("streams", [
    (TRACES, "where_known of trace_reader", "        if step is None:\n            raise Unread\n", "",
     "behind a fault a core has no step"),
]) + rows_of("told", [
    (CALLS, "number_of of machine_table", "Busy TooMany NoSuch NoRoom Pinned", "Busy TooMany NoSuch Pinned NoRoom",
     "NoRoom and Pinned exchanged"),
])
