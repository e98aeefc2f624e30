-- Tardis as a Murphi model for rumur, written from docs/PROTOCOL.md: one bank, two lines of one word, a short test.
--
--     rumur --deadlock-detection stuck --output tardis.c tardis.m
--     cc -O2 -march=native tardis.c -lpthread && ./a.out
--
-- The constants choose the test and the machine. docs/EXPLORING.md compares its states with those of tools/explore.py.
-- Not in the model: private writes, several banks, lines of eight words, numbers of messages, times that don't fit.

const
  TEST: 0;           -- 0: store buffering, 1: message passing, 2: load buffering, 3: a write seen by two (3 cores),
                     -- 4: both cores store to both lines, in opposite orders
  CORES: 2;          -- 2; 3 in test 3, and for a ring of three in tests 0 and 2
  LINES: 2;          -- 2, or 3 in a ring
  STEPS: 2;          -- operations of a core, at most
  LEASE: 10;
  PLACES: 1;         -- copies in a cache: 1, or LINES if each line has a set of its own
  BANK_PLACES: 1;    -- entries in the bank, likewise
  MESSAGES: 8;       -- the most in flight
  EVICT_ANY: false;  -- evictions at any point, or only where something waits for the place
  ADVANCES: 0;       -- how often each core's own time may advance
  TIMES: 63;         -- no time is later
  EVENTS: 8;         -- entries in the history of a line

type
  Core: 0 .. CORES - 1;
  Line: 0 .. LINES - 1;
  Time: 0 .. TIMES;
  Value: 0 .. 1;
  Slot: 0 .. MESSAGES - 1;
  Kind: enum { ShReq, ExReq, ShRep, ExRep, RenewRep, UpgradeRep, FlushReq, WbReq, FlushRep, WbRep, DramLd, DramSt,
               DramLdRep, DramStRep };

  -- What a kind doesn't carry is 0 or false. A request's version is wts, if the core has a copy (known).
  Message: record
    kind: Kind; line: Line; core: Core; pts: Time; known: boolean; wts: Time; rts: Time; value: Value;
  end;

  Copy: record state: enum { NoCopy, Shared, Exclusive }; wts: Time; rts: Time; value: Value; end;

  Entry: record
    state: enum { Absent, Loading, Leased, Owned, Recalling, Storing };
    owner: Core; dirty: boolean; wts: Time; rts: Time; value: Value;
  end;

  -- What later records can contradict: a line's writes, and the latest read between two of them.
  Seen: record time: Time; write: boolean; value: Value; end;
  History: record count: 0 .. EVENTS; seen: array [0 .. EVENTS - 1] of Seen; end;

var
  pts: array [Core] of Time;
  step: array [Core] of 0 .. STEPS;           -- how many operations are completed
  open: array [Core] of boolean;              -- whether the next one is issued
  out: array [Core] of boolean;               -- whether its request is under way
  advanced: array [Core] of 0 .. ADVANCES;
  register: array [Core] of array [0 .. STEPS - 1] of Value;  -- what each load received
  copy: array [Core] of array [Line] of Copy;
  entry: array [Line] of Entry;
  mts: Time;
  dram: array [Line] of Value;
  count: 0 .. MESSAGES;                       -- messages in flight, and the messages, sorted: a bag
  net: array [Slot] of Message;
  history: array [Line] of History;

-- The test.

function length(c: Core): 0 .. STEPS;
begin
  if TEST = 3 & c = 0 then return 1; endif;
  return STEPS;
end;

function is_load(c: Core; s: 0 .. STEPS - 1): boolean;
begin
  if TEST = 3 then return c = CORES - 1 | c = 1 & s = 0; endif;
  if TEST = 4 then return false; endif;
  if TEST = 1 then return c = 1; endif;
  if TEST = 2 then return s = 0; endif;
  return s = 1;
end;

function line_of(c: Core; s: 0 .. STEPS - 1): Line;
begin
  if TEST = 1 & c = 1 | TEST = 3 & c = CORES - 1 then return 1 - s; endif;
  if TEST = 1 | TEST = 3 then return s; endif;
  return (c + s) % LINES;
end;

-- Messages in flight. A bag is sorted by all fields, so that equal bags are equal states.

function nothing(): Message;
var m: Message;
begin
  m.kind := ShReq; m.line := 0; m.core := 0; m.pts := 0; m.known := false; m.wts := 0; m.rts := 0; m.value := 0;
  return m;
end;

function message(kind: Kind; l: Line; c: Core): Message;
var m: Message;
begin
  m := nothing(); m.kind := kind; m.line := l; m.core := c;
  return m;
end;

function number(of_kind: Kind): 0 .. 13;
begin
  switch of_kind
    case ShReq: return 0; case ExReq: return 1; case ShRep: return 2; case ExRep: return 3; case RenewRep: return 4;
    case UpgradeRep: return 5; case FlushReq: return 6; case WbReq: return 7; case FlushRep: return 8;
    case WbRep: return 9; case DramLd: return 10; case DramSt: return 11; case DramLdRep: return 12;
    case DramStRep: return 13;
  endswitch;
end;

function is_before(a: Message; b: Message): boolean;
begin
  if a.kind != b.kind then return number(a.kind) < number(b.kind); endif;
  if a.line != b.line then return a.line < b.line; endif;
  if a.core != b.core then return a.core < b.core; endif;
  if a.pts != b.pts then return a.pts < b.pts; endif;
  if a.known != b.known then return b.known; endif;
  if a.wts != b.wts then return a.wts < b.wts; endif;
  if a.rts != b.rts then return a.rts < b.rts; endif;
  return a.value < b.value;
end;

function is_full(): boolean;
begin
  return count = MESSAGES;
end;

procedure send(m: Message);
var at: 0 .. MESSAGES;
begin
  at := count;
  while at > 0 & is_before(m, net[at - 1]) do
    net[at] := net[at - 1];
    at := at - 1;
  endwhile;
  net[at] := m;
  count := count + 1;
end;

procedure take(slot: Slot);
var at: 0 .. MESSAGES;
begin
  at := slot;
  while at + 1 < count do
    net[at] := net[at + 1];
    at := at + 1;
  endwhile;
  count := count - 1;
  net[count] := nothing();
end;

-- Whether a slot has a message that isn't equal to the one before it.
function is_there(slot: Slot): boolean;
begin
  if slot >= count then return false; endif;
  return slot = 0 | is_before(net[slot - 1], net[slot]);
end;

-- A message that carries a line: from a copy or an entry with these times and this value.
function carrying(kind: Kind; l: Line; c: Core; wts: Time; rts: Time; value: Value): Message;
var m: Message;
begin
  m := message(kind, l, c); m.wts := wts; m.rts := rts; m.value := value;
  return m;
end;

-- What is and isn't there.

function later(a: Time; b: Time): Time;
begin
  if a < b then return b; endif;
  return a;
end;

procedure clear_copy(c: Core; l: Line);
begin
  copy[c][l].state := NoCopy; copy[c][l].wts := 0; copy[c][l].rts := 0; copy[c][l].value := 0;
end;

-- An entry of a state that has no times and no words.
procedure bare_entry(l: Line);
begin
  entry[l].owner := 0; entry[l].dirty := false; entry[l].wts := 0; entry[l].rts := 0; entry[l].value := 0;
end;

procedure clear_entry(l: Line);
begin
  bare_entry(l);
  entry[l].state := Absent;
end;

procedure ask_owner(kind: Kind; l: Line; until: Time);
var m: Message; owner: Core;
begin
  owner := entry[l].owner;
  m := message(kind, l, owner); m.rts := until;
  send(m);
  entry[l].state := Recalling;
end;

function is_on(c: Core; l: Line): boolean;
begin
  if !open[c] then return false; endif;
  return line_of(c, step[c]) = l;
end;

function has_room(c: Core): boolean;
var copies: 0 .. LINES;
begin
  copies := 0;
  for l: Line do if copy[c][l].state != NoCopy then copies := copies + 1; endif; endfor;
  return copies < PLACES;
end;

function bank_has_room(): boolean;
var entries: 0 .. LINES;
begin
  entries := 0;
  for l: Line do if entry[l].state != Absent then entries := entries + 1; endif; endfor;
  return entries < BANK_PLACES;
end;

function hits(c: Core): boolean;
var l: Line;
begin
  if !open[c] then return false; endif;
  l := line_of(c, step[c]);
  if copy[c][l].state = Exclusive then return true; endif;
  return copy[c][l].state = Shared & is_load(c, step[c]) & pts[c] <= copy[c][l].rts;
end;

-- An eviction of a copy or an entry may happen.
function copy_may_leave(c: Core; l: Line): boolean;
begin
  if copy[c][l].state = NoCopy | is_on(c, l) then return false; endif;
  if copy[c][l].state = Exclusive & is_full() then return false; endif;
  if EVICT_ANY then return true; endif;
  if !open[c] then return false; endif;
  return !out[c] & copy[c][line_of(c, step[c])].state = NoCopy & !has_room(c);
end;

function is_wanted(): boolean;  -- a request is held for room at the bank, and nothing is under way there
begin
  for l: Line do
    if entry[l].state = Loading | entry[l].state = Recalling | entry[l].state = Storing then return false; endif;
  endfor;
  if bank_has_room() then return false; endif;
  for slot: Slot do
    if slot < count then
      if (net[slot].kind = ShReq | net[slot].kind = ExReq) & entry[net[slot].line].state = Absent then
        return true;
      endif;
    endif;
  endfor;
  return false;
end;

function entry_may_leave(l: Line): boolean;
begin
  if entry[l].state != Leased & entry[l].state != Owned then return false; endif;
  if (entry[l].state = Owned | entry[l].dirty) & is_full() then return false; endif;
  return EVICT_ANY | is_wanted();
end;

-- The history of a line: a record comes behind all of no later time.

function behind(l: Line; time: Time): 0 .. EVENTS;
var at: 0 .. EVENTS;
begin
  at := 0;
  while at < history[l].count & history[l].seen[at].time <= time do at := at + 1; endwhile;
  return at;
end;

function last_write(l: Line; at: 0 .. EVENTS): Value;
var back: 0 .. EVENTS;
begin
  back := at;
  while back > 0 do
    back := back - 1;
    if history[l].seen[back].write then return history[l].seen[back].value; endif;
  endwhile;
  return 0;
end;

procedure insert_at(l: Line; place: 0 .. EVENTS; time: Time; write: boolean; value: Value);
var at: 0 .. EVENTS;
begin
  assert "the history is long enough" history[l].count < EVENTS;
  at := history[l].count;
  while at > place do
    history[l].seen[at] := history[l].seen[at - 1];
    at := at - 1;
  endwhile;
  history[l].seen[at].time := time; history[l].seen[at].write := write; history[l].seen[at].value := value;
  history[l].count := history[l].count + 1;
end;

-- Leaves out what no later record can contradict: all but the latest of reads in a row, and of writes at one time.
procedure tidy(l: Line);
var from: 0 .. EVENTS; kept: 0 .. EVENTS; drop: boolean; length: 0 .. EVENTS;
begin
  from := 0; kept := 0; length := history[l].count;
  while from < length do
    drop := false;
    if from + 1 < length then
      if history[l].seen[from].write = history[l].seen[from + 1].write then
        drop := !history[l].seen[from].write | history[l].seen[from].time = history[l].seen[from + 1].time;
      endif;
    endif;
    if !drop then
      history[l].seen[kept] := history[l].seen[from];
      kept := kept + 1;
    endif;
    from := from + 1;
  endwhile;
  history[l].count := kept;
  while kept < length do
    history[l].seen[kept].time := 0; history[l].seen[kept].write := false; history[l].seen[kept].value := 0;
    kept := kept + 1;
  endwhile;
end;

procedure note(l: Line; load: boolean; value: Value; time: Time);
var at: 0 .. EVENTS;
begin
  at := behind(l, time);
  if load then
    assert "a load receives what the last write before it left" value = last_write(l, at);
  elsif at < history[l].count then
    assert "no later read saw another value" history[l].seen[at].write | history[l].seen[at].value = value;
  endif;
  insert_at(l, at, time, !load, value);
  tidy(l);
end;

-- A core's events.

procedure complete(c: Core);
var l: Line; time: Time;
begin
  l := line_of(c, step[c]);
  if is_load(c, step[c]) then
    time := later(pts[c], copy[c][l].wts);
    if copy[c][l].state = Exclusive then copy[c][l].rts := later(copy[c][l].rts, time); endif;
    register[c][step[c]] := copy[c][l].value;
    note(l, true, copy[c][l].value, time);
  else
    time := later(pts[c], copy[c][l].rts + 1);
    copy[c][l].wts := time; copy[c][l].rts := time; copy[c][l].value := 1;
    note(l, false, 1, time);
  endif;
  pts[c] := time;
  open[c] := false;
  step[c] := step[c] + 1;
end;

procedure ask(c: Core);
var m: Message; l: Line;
begin
  l := line_of(c, step[c]);
  m := message(is_load(c, step[c]) ? ShReq : ExReq, l, c);
  if is_load(c, step[c]) then m.pts := pts[c]; endif;
  if copy[c][l].state != NoCopy then m.known := true; m.wts := copy[c][l].wts; endif;
  send(m);
  out[c] := true;
end;

function may_ask(c: Core): boolean;
begin
  if !open[c] then return false; endif;
  if out[c] | hits(c) | is_full() then return false; endif;
  return copy[c][line_of(c, step[c])].state != NoCopy | has_room(c);
end;

ruleset c: Core do
  rule "issue" !open[c] & step[c] < length(c) ==> begin open[c] := true; end;
  rule "complete" hits(c) ==> begin complete(c); end;
  rule "request" may_ask(c) ==> begin ask(c); end;
  rule "advance" advanced[c] < ADVANCES ==> begin advanced[c] := advanced[c] + 1; pts[c] := pts[c] + 1; end;

  ruleset l: Line do
    rule "evict a copy" copy_may_leave(c, l) ==>
    begin
      if copy[c][l].state = Exclusive then
        send(carrying(FlushRep, l, c, copy[c][l].wts, copy[c][l].rts, copy[c][l].value));
      endif;
      clear_copy(c, l);
    end;
  end;
end;

-- Messages at a core.

procedure reply(m: Message);
begin
  assert "a reply finds its request" is_on(m.core, m.line) & out[m.core];
  out[m.core] := false;
  if m.kind = ShRep | m.kind = ExRep then
    assert "a line finds a place" copy[m.core][m.line].state != NoCopy | has_room(m.core);
    copy[m.core][m.line].state := m.kind = ShRep ? Shared : Exclusive;
    copy[m.core][m.line].wts := m.wts; copy[m.core][m.line].value := m.value;
  else
    assert "a lease finds a Shared copy" copy[m.core][m.line].state = Shared;
    if m.kind = UpgradeRep then copy[m.core][m.line].state := Exclusive; endif;
  endif;
  copy[m.core][m.line].rts := m.rts;
end;

procedure recall(m: Message);
var c: Core; l: Line;
begin
  c := m.core; l := m.line;
  if copy[c][l].state = Exclusive then
    if m.kind = FlushReq then
      send(carrying(FlushRep, l, c, copy[c][l].wts, copy[c][l].rts, copy[c][l].value));
      clear_copy(c, l);
    else
      copy[c][l].state := Shared;
      copy[c][l].rts := later(copy[c][l].rts, later(copy[c][l].wts + LEASE, m.rts));
      send(carrying(WbRep, l, c, copy[c][l].wts, copy[c][l].rts, copy[c][l].value));
    endif;
  endif;
end;

-- Messages at the bank and at DRAM.

function may_serve(m: Message): boolean;
begin
  if m.kind != ShReq & m.kind != ExReq then return false; endif;
  switch entry[m.line].state
    case Absent: return bank_has_room() & !is_full();
    case Owned: return !is_full();
    case Leased: return true;
    else return false;
  endswitch;
end;

procedure grant(m: Message);
var same: boolean; l: Line;
begin
  l := m.line;
  same := m.known & m.wts = entry[l].wts;
  if m.kind = ShReq then
    entry[l].rts := later(entry[l].rts, later(entry[l].wts, m.pts) + LEASE);
  endif;
  if same then
    send(carrying(m.kind = ShReq ? RenewRep : UpgradeRep, l, m.core, 0, entry[l].rts, 0));
  else
    send(carrying(m.kind = ShReq ? ShRep : ExRep, l, m.core, entry[l].wts, entry[l].rts, entry[l].value));
  endif;
  if m.kind = ExReq then
    bare_entry(l);
    entry[l].state := Owned; entry[l].owner := m.core;
  endif;
end;

-- A request that is answered is taken; one that waits for DRAM or an owner stays.
procedure serve(slot: Slot);
var m: Message;
begin
  m := net[slot];
  if entry[m.line].state = Absent then
    send(message(DramLd, m.line, 0));
    entry[m.line].state := Loading;
  elsif entry[m.line].state = Owned then
    if m.kind = ShReq then ask_owner(WbReq, m.line, m.pts + LEASE); else ask_owner(FlushReq, m.line, 0); endif;
  else
    take(slot);
    grant(m);
  endif;
end;

procedure come_back(m: Message);
var l: Line;
begin
  l := m.line;
  switch m.kind
    case DramStRep:
      assert "a stored line was Storing" entry[l].state = Storing;
      clear_entry(l);
    case DramLdRep:
      assert "a loaded line was Loading" entry[l].state = Loading;
      entry[l].state := Leased; entry[l].wts := mts; entry[l].rts := mts; entry[l].value := m.value;
    else
      assert "a returned line was owned" entry[l].state = Owned | entry[l].state = Recalling;
      assert "its owner returned it" entry[l].owner = m.core;
      bare_entry(l);
      entry[l].state := Leased; entry[l].dirty := true;
      entry[l].wts := m.wts; entry[l].rts := m.rts; entry[l].value := m.value;
  endswitch;
end;

ruleset slot: Slot do
  alias m: net[slot] do
    rule "a reply arrives"
      is_there(slot) & (m.kind = ShRep | m.kind = ExRep | m.kind = RenewRep | m.kind = UpgradeRep) ==>
    var one: Message;
    begin one := m; take(slot); reply(one); end;

    rule "a recall arrives"
      is_there(slot) & (m.kind = FlushReq | m.kind = WbReq) & !is_on(m.core, m.line) ==>
    var one: Message;
    begin one := m; take(slot); recall(one); end;

    rule "a request arrives" is_there(slot) & may_serve(m) ==> begin serve(slot); end;

    rule "a line comes back"
      is_there(slot) & (m.kind = FlushRep | m.kind = WbRep | m.kind = DramLdRep | m.kind = DramStRep) ==>
    var one: Message;
    begin one := m; take(slot); come_back(one); end;

    rule "DRAM loads" is_there(slot) & m.kind = DramLd ==>
    var one: Message;
    begin one := m; take(slot); send(carrying(DramLdRep, one.line, 0, 0, 0, dram[one.line])); end;

    rule "DRAM stores" is_there(slot) & m.kind = DramSt ==>
    var one: Message;
    begin one := m; take(slot); dram[one.line] := one.value; send(message(DramStRep, one.line, 0)); end;
  end;
end;

ruleset l: Line do
  rule "evict an entry" entry_may_leave(l) ==>
  begin
    if entry[l].state = Owned then
      ask_owner(FlushReq, l, 0);
    else
      mts := later(mts, entry[l].rts);
      if entry[l].dirty then
        send(carrying(DramSt, l, 0, 0, 0, entry[l].value));
        bare_entry(l);
        entry[l].state := Storing;
      else
        clear_entry(l);
      endif;
    endif;
  end;
end;

-- So that a state in which all is done isn't taken for a deadlock.
rule "all done" forall c: Core do step[c] = length(c) end ==> begin end;

startstate
begin
  for c: Core do
    pts[c] := 0; step[c] := 0; open[c] := false; out[c] := false; advanced[c] := 0;
    for s := 0 to STEPS - 1 do register[c][s] := 0; endfor;
    for l: Line do clear_copy(c, l); endfor;
  endfor;
  for l: Line do
    clear_entry(l);
    dram[l] := 0;
    history[l].count := 0;
    for at := 0 to EVENTS - 1 do
      history[l].seen[at].time := 0; history[l].seen[at].write := false; history[l].seen[at].value := 0;
    endfor;
  endfor;
  mts := 0;
  count := 0;
  for slot: Slot do net[slot] := nothing(); endfor;
end;

-- What must hold in every state.

function owners(l: Line): 0 .. CORES + MESSAGES;
var found: 0 .. CORES + MESSAGES;
begin
  found := 0;
  for c: Core do if copy[c][l].state = Exclusive then found := found + 1; endif; endfor;
  for slot: Slot do
    if slot < count & net[slot].line = l then
      if net[slot].kind = ExRep | net[slot].kind = UpgradeRep | net[slot].kind = FlushRep | net[slot].kind = WbRep then
        found := found + 1;
      endif;
    endif;
  endfor;
  return found;
end;

invariant "one owner at most" forall l: Line do owners(l) <= 1 end;
invariant "a version isn't later than its lease"
  forall l: Line do
    entry[l].wts <= entry[l].rts & forall c: Core do copy[c][l].wts <= copy[c][l].rts end
  end;
invariant "the bank remembers each lease"
  forall l: Line do
    forall c: Core do
      copy[c][l].state = Shared -> (entry[l].state = Leased -> copy[c][l].rts <= entry[l].rts) &
        (entry[l].state = Absent | entry[l].state = Loading | entry[l].state = Storing -> copy[c][l].rts <= mts)
    end
  end;

-- The ends: each that a sequential machine has is met, and the other one isn't. What each core's load received:

function received(c: Core): Value;
begin
  if TEST = 1 then return register[1][c % STEPS]; endif;
  if TEST = 2 then return register[c][0]; endif;
  if TEST = 3 & c = 0 then return register[1][0]; endif;
  if TEST = 3 then return register[CORES - 1][c - 1]; endif;
  return register[c][1];
end;

function is_done(): boolean;
begin
  return forall c: Core do step[c] = length(c) end;
end;

-- Store buffering: some store comes last, and the load behind it sees the store before. Message passing: the second
-- store isn't seen without the first. Load buffering: some load comes first. Test 3: core 1 stores after it has seen a
-- write, and who sees that store and then loads sees the write.
function is_forbidden(a: Value; b: Value; last: Value): boolean;
begin
  if TEST = 1 then return a = 1 & b = 0; endif;
  if TEST = 2 then return a = 1 & b = 1 & (CORES = 2 | last = 1); endif;
  if TEST = 3 then return a = 1 & b = 1 & last = 0; endif;
  if TEST = 4 then return a = 1 | b = 1; endif;  -- nothing is loaded
  return a = 0 & b = 0 & (CORES = 2 | last = 0);
end;

-- Whether an end is met; or it needs not be, as it is forbidden or has more cores than there are.
function is_met(a: Value; b: Value; last: Value): boolean;
begin
  if is_forbidden(a, b, last) | CORES = 2 & last = 1 then return true; endif;
  if !is_done() then return false; endif;
  return received(0) = a & received(1) = b & (CORES = 2 | received(CORES - 1) = last);
end;

invariant "no end is forbidden" !(is_done() & is_forbidden(received(0), received(1), received(CORES - 1)));

cover "end 0 0 0" is_met(0, 0, 0);
cover "end 0 1 0" is_met(0, 1, 0);
cover "end 1 0 0" is_met(1, 0, 0);
cover "end 1 1 0" is_met(1, 1, 0);
cover "end 0 0 1" is_met(0, 0, 1);
cover "end 0 1 1" is_met(0, 1, 1);
cover "end 1 0 1" is_met(1, 0, 1);
cover "end 1 1 1" is_met(1, 1, 1);
