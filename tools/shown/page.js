"use strict";
// Shows one view of the run after the other. Each view is what the player said there is; nothing is worked out here.
const run = JSON.parse(document.getElementById("data").textContent);
const byId = id => document.getElementById(id);
const SIGNS = {"&": "&amp;", "<": "&lt;", ">": "&gt;", '"': "&quot;"};
const escaped = text => String(text).replace(/[&<>"]/g, sign => SIGNS[sign]);
const hue = core => `style="--hue: var(--c${core % 8})"`;
const JUMPS = [["c", "completion"], ["s", "stale hit"], ["r", "renewal"], ["l", "recall"], ["e", "eviction"]];
if (run.wrong !== null) JUMPS.push(["w", "wrong"]);
const PLAY = 1200, FEW = 64n, MOST_OF_NAME = 12, NARROW = 760;
// The rows' units: how wide they are, where the two columns of boxes begin, and how wide a box is.
const PLACES = {wide: [1000, 64, 545, 320], narrow: [790, 40, 388, 276]};
let [WIDE, LEFT, RIGHT, BOX] = PLACES.wide;

// The view after `at` events, and the names of what the last of them changed. Changes are undone on the way back.
const view = {...run.opening};
const undone = [];
let at = 0, playing = null;
let quiz = false, isAsked = false; // whether a quiz asks now what the next event returns

function make() {
  const changes = run.steps[at][5], undo = {};
  for (const name in changes) {
    undo[name] = name in view ? view[name] : null;
    set(name, changes[name]);
  }
  undone[at++] = undo;
}

function unmake() {
  const undo = undone[--at];
  for (const name in undo) set(name, undo[name]);
}

function set(name, seen) {
  if (seen === null) delete view[name]; else view[name] = seen;
}

function go(to, asks = false) {
  isAsked = asks;
  to = Math.max(0, Math.min(run.steps.length, to));
  while (at < to) make();
  while (at > to) unmake();
  show();
  const address = `#${at}`;
  if (location.hash !== address) try { history.replaceState(null, "", address); } catch { /* too often */ }
}

// What a text says behind a word, as `wts` in `shared wts 0 rts 3 words 0`.
function behind(text, word) {
  const found = new RegExp(`(?:^| )${word} ([^ ]+)`).exec(text);
  return found && found[1];
}

// A time in a few letters: of those near the end of 64 bits the last digits.
const brief = time => String(time).length > 9 ? `…${String(time).slice(-4)}` : time;
const wordsOf = text => / words (.*)$/.exec(text)[1].split(" ");
const asSeen = name => `data-name="${name}" data-seen="${escaped(view[name])}"`;
const isNew = name => at > 0 && name in run.steps[at - 1][5] ? " new" : "";
const lineName = line => run.words === 1 ? run.names[line][0] : line;

// The values of a line's words that the run names.
const valuesOf = (line, words) =>
  run.names[line].map((name, place) => [name, words[place]]).filter(([name]) => run.named.has(name));
const values = (line, words) => valuesOf(line, words).map(([name, value]) => `${name} = ${value}`).join(", ");

// The same with names that give way where there is no room, so that values stay.
const shownValues = (line, words) => valuesOf(line, words).map(([name, value]) =>
  `<span class="name">${escaped(name)}</span><span class="said"> = ${escaped(value)}</span>`).join(
    '<span class="said">, </span>');
const isLong = line => run.words > 1 || run.names[line].some(name => name.length > MOST_OF_NAME);

// All times of the run along one scale, of whole numbers, since times may have 64 bits.
run.named = new Set(run.records.map(record => record[2]));
if (run.words === 1) Object.values(run.names).flat().forEach(name => run.named.add(name));
const timesOf = ([name, seen]) => /^(core|copy)/.test(name) && seen !== null ?
  [...seen.matchAll(/(?:time|wts|rts) (\d+)/g)].map(found => BigInt(found[1])) : [];
const ends = times => times.reduce(([least, most], time) => [time < least ? time : least, time > most ? time : most],
  [times[0], times[0]]);
const [first, last] = ends([run.opening, ...run.steps.map(step => step[5])].flatMap(Object.entries).flatMap(timesOf));
let least = first, most = last;
const place = time => most === least ? 0 : Number((BigInt(time) - least) * 1000n / (most - least)) / 10;

// In a long run the scale is that of the view.
function scale() {
  if (last - first > FEW) [least, most] = ends(Object.entries(view).flatMap(timesOf));
}

function copies(core, time) {
  const found = Object.keys(view).filter(name => name.startsWith(`copy ${core} `));
  if (!found.length) return '<p class="none">no copies</p>';
  return found.map(name => {
    const copy = view[name], line = name.split(" ")[2], owned = copy.startsWith("exclusive");
    const wts = behind(copy, "wts"), rts = behind(copy, "rts"), ended = !owned && BigInt(time) > BigInt(rts);
    const start = place(wts), wide = Math.max(place(rts) - start, 0);
    return `<div class="copy${isNew(name)}${isLong(line) ? " wide" : ""}" title="${escaped(copy)}" ${asSeen(name)}>
      <b title="${escaped(values(line, wordsOf(copy)))}">${shownValues(line, wordsOf(copy)) || escaped(line)}</b>
      <span class="bar${ended ? " ended" : ""}${owned ? " own" : ""}">
      <i class="${wide ? "" : "point"}" style="left:${start}%;width:${wide}%"></i>
      <u style="left:${place(time)}%"></u></span>
      <span class="state">${owned ? "own" : ended ? "ended" : "read"} ${brief(wts)}..${brief(rts)}</span></div>`;
  }).join("");
}

// The numbers of each core's operations.
const numbersOf = run.programs.map(() => []);
run.records.forEach((record, number) => numbersOf[record[0]].push(number));

// A core's steps about the next one, as many as there is room for.
function program(core, room) {
  const steps = run.programs[core], next = view[`at ${core}`] || 0;
  const from = Math.max(0, Math.min(next - Math.floor(room / 2), steps.length - room));
  let done = steps.slice(0, from).filter(step => step !== "advance").length;
  return steps.slice(from, from + room).map((step, index) => {
    const number = step !== "advance" && from + index < next ? numbersOf[core][done++] : -1;
    const state = from + index === next ? "next" : from + index < next ? "done" : "";
    const received = number < 0 || run.records[number][4] === null ? "" : ` → ${run.records[number][4]}`;
    const [, does, name] = /^(.* )?([^ ]*)$/.exec(step);
    const text = `<span class="said">${escaped(does || "")}</span><span class="name">${escaped(name)}</span>` +
      (received && `<span class="said">${received}</span>`);
    const title = escaped(step) + received;
    return `<li class="${state}${number in run.past ? " past" : ""}" title="${title}">${text}</li>`;
  }).join("");
}

// The registers that a thread's operations fill, with what they have so far.
function registers(core) {
  if (!run.question) return "";
  const count = completed(), filled = new Map();
  const newest = at && run.steps[at - 1][6].includes("c") ? count - 1 : -1;
  run.question.registers[core].forEach((name, place) => {
    const number = numbersOf[core][place];
    if (name === null || name === "x0") return;
    if (number < count) filled.set(name, `<span class="${number === newest ? "new" : ""}">${name} = ${
      run.records[number][4]}</span>`);
    else if (!filled.has(name)) filled.set(name, name);
  });
  return filled.size ? `<p class="registers">${[...filled.values()].join(", ")}</p>` : "";
}

function message(name) {
  const [kind, ...words] = view[name].split(" "), line = words[5], carried = words.slice(6).join(" ");
  const left = words[3] === "core" || words[3] === "bank" && words[0] === "dram";
  const waits = `waits ${name}` in view, dram = / dram /.test(view[name]), mark = dram ? (left ? "↑ " : "↓ ") : "";
  const bank = run.banks > 1 && !dram ? `${left ? "from" : "to"} bank ${words[left ? 1 : 4]}` : "";
  const head = left ? "M8 1 L1 5 L8 9" : "M92 1 L99 5 L92 9";
  const says = [bank, carried.replace(/\d{10,}/g, brief), waits ? "waits" : ""].filter(Boolean).join("; ");
  return `<div class="message${isNew(name)}${waits ? " waits" : ""}" ${asSeen(name)}>
    <b>${mark}${kind} ${escaped(lineName(line))}</b><svg class="arrow" viewBox="0 0 100 10" preserveAspectRatio="none">
    <path d="M2 5 H98"/><path d="${head}"/></svg>${says}</div>`;
}

const messages = test => Object.keys(view).filter(name => /^m\d/.test(name) && test(view[name])).sort((one, other) =>
  one.slice(1) - other.slice(1)).map(message).join("");

// The part that the last event was at: of a message the one that it came to, a DRAM with its bank.
function acting() {
  const [what, ...of] = at ? run.steps[at - 1][0].split(" ") : [];
  if (what === "evict") return `${of[0]} ${of[1]}`;
  if (what !== "deliver") return `core ${of[0]}`;
  const [part, number] = (undone[at - 1][of[0]] || view[of[0]]).split(" > ")[1].split(" ");
  return `${part === "core" ? part : "bank"} ${number}`;
}

function showCores() {
  scale();
  const acts = acting();
  const room = [0, 9, 5, 3][run.cores.length] || 2;
  byId("cores").innerHTML = run.cores.map(core => {
    const state = view[`core ${core}`], time = behind(state, "time");
    const before = at ? undone[at - 1][`core ${core}`] : null, moved = before && behind(before, "time") !== time;
    const wire = messages(text => new RegExp(` core ${core} `).test(text)), now = acts === `core ${core}` ? " now" : "";
    return `<div class="row"><div class="core${now}" id="core-${core}" ${hue(core)} ${asSeen(`core ${core}`)}>
      <h2><span>core ${core}${run.question ? ` runs P${core}` : ""}</span><span class="time${moved ? " new" : ""}"
      title="${time}">time ${brief(time)}</span></h2>
      <div class="does"><ol>${program(core, room)}</ol>${registers(core)}</div>
      <div class="copies">${copies(core, time)}</div></div><div class="wire">${wire}</div></div>`;
  }).join("");
}

function entry(name) {
  const seen = view[name], line = name.split(" ")[1], [state] = seen.split(" "), owner = behind(seen, "owner");
  const times = `${brief(behind(seen, "wts"))}..${brief(behind(seen, "rts"))}`;
  const says = state === "shared" ? (seen.includes("dirty") ? "dirty " : "") + times : owner === null ? state :
    `<em class="own" ${hue(owner)}>core ${owner} ${state === "exclusive" ? "owns it" : "is asked"}</em>`;
  const words = state === "shared" ? values(line, wordsOf(seen)) : lineName(line);
  return `<div class="entry${isNew(name)}" ${asSeen(name)}><b>${escaped(words)}</b><span>${says}</span></div>`;
}

const bankOf = line => Number(BigInt(line) / 8n / BigInt(run.words) % BigInt(run.banks));

function showBanks() {
  const acts = acting();
  byId("banks").innerHTML = [...Array(run.banks).keys()].map(bank => {
    const lines = Object.keys(run.names).filter(line => bankOf(line) === bank);
    const entries = lines.map(line => `entry ${line}`).filter(name => view[name] !== "none").map(entry);
    const dram = lines.map(line => escaped(values(line, view[`dram ${line}`].split(" ")))).map((pair, place, all) =>
      pair + (place < all.length - 1 ? "," : ""));
    const wire = messages(text => new RegExp(` dram ${bank} `).test(text));
    const now = acts === `bank ${bank}` ? " now" : "";
    return `<div class="bank${now}" id="bank-${bank}" ${asSeen(`bank ${bank}`)}><h2>bank ${bank}</h2>
      <h3>memory time ${brief(behind(view[`bank ${bank}`], "time"))}</h3>
      ${entries.join("") || '<p class="none">no entries</p>'}
      <div class="wire">${wire}</div>
      <div class="dram"><b>DRAM</b> ${dram.map(pair => `<span>${pair}</span>`).join(" ")}</div></div>`;
  }).join("");
}

// How many operations are completed.
let counts = [0];
run.steps.forEach(([, , , , , , marks], index) => counts.push(counts[index] + (marks.includes("c") ? 1 : 0)));
const completed = () => counts[at];

// Where an operation may be cut into two lines.
const SPLITS = {load: [/ (?=→)/, /(?<=load) /], store: [/ (?=to )/, /(?<=to) /], swap: [/ (?=into )/, /(?<=into) /]};

// A name in a box: of a long one its two ends.
const shortName = name => name.length > MOST_OF_NAME ? `${name.slice(0, 7)}…${name.slice(-4)}` : name;

function box(x, y, high, number, isLeft) {
  const [core, kind, name, value, received, time] = run.records[number];
  const says = (of, name) => ({load: "load ", store: `store ${of(value)} to `, swap: `swap ${of(value)} into `}[kind] +
    name + (received === null ? "" : ` → ${of(received)}`));
  const said = says(brief, shortName(name)), whole = says(String, name), middle = high / 2;
  const {parts, size} = [[said], ...SPLITS[kind].map(by => said.split(by))].map(parts => {
    const long = Math.max(...parts.map(part => part.length));
    return {parts, size: Math.min(27, (BOX - 96) * 1.5 / long, parts.length > 1 ? high * .45 : 27)};
  }).reduce((one, other) => other.size > one.size ? other : one);
  const title = whole === said ? "" : `<title>${escaped(whole)}</title>`;
  const shown = parts.map((part, row) => `<tspan x="100" y="${middle + size * (row - (parts.length - 1) / 2)}">${
    escaped(part)}</tspan>`).join(" ");
  const shownTime = `time ${brief(time)}`, small = Math.min(24, 24 * 8.5 / shownTime.length);
  const order = isLeft ? `x="-14" text-anchor="end">${number}` :
    `x="${BOX + 12}" style="font-size:${small}px">${shownTime}`;
  return `<g transform="translate(${x} ${y})"><rect class="box" width="${BOX}" height="${high}" rx="8"/>
    <rect class="hue" width="88" height="${high}" rx="8"/>
    <text class="who" x="44" y="${middle}" style="font-size:${core > 9 ? 19 : 23}px">core ${core}</text>
    <text style="font-size:${size}px">${title}${shown}</text>
    <text class="order" y="${middle}" ${order}</text></g>`;
}

// Swaps and long names take two lines of a box, which must be high enough for them.
const leastStep = run.records.some(([, kind, name]) => kind === "swap" || name.length > MOST_OF_NAME) ? 66 : 40;

// The rows are as many as there will be; those that are out of sight aren't drawn.
let shownOrders = "";
let size = null; // of the window of the rows: how many units a pixel has, and its height

function measure() {
  [WIDE, LEFT, RIGHT, BOX] = innerWidth <= NARROW ? PLACES.narrow : PLACES.wide;
  const rows = byId("rows"), unit = WIDE / Math.max(rows.clientWidth, 1), frame = rows.clientHeight * unit;
  size = {unit, frame, step: Math.max(leastStep, Math.min(105, (frame - 70) / Math.max(run.records.length, 1)))};
  shownOrders = "";
}

// From which unit on the rows are seen, so that the last one is.
const bottom = count => Math.max(0, count * size.step + 60 - size.frame);

function showOrders(top) {
  const count = completed(), {frame, step} = size, high = step - Math.min(16, step * .2);
  const key = `${count} ${Math.round(top / step)}`;
  if (shownOrders === key) return;
  shownOrders = key;
  byId("ties").setAttribute("viewBox", `0 0 ${WIDE} ${Math.max(run.records.length * step + 12, count * step + 60)}`);
  const arranged = run.arranged.filter(number => number < count);
  const rank = [];
  arranged.forEach((number, index) => { rank[number] = index; });
  const last = count - 1, past = Math.max(-1, ...Object.keys(run.past).filter(number => number < count));
  const over = past in run.past ? run.past[past] : -1;
  const group = number => {
    const y = number * step + 6, to = rank[number] * step + 6;
    const classes = [[number in run.past, "past"], [number === run.wrong, "wrong"], [number === last, "latest"],
      [number === over, "over"]].filter(([is]) => is).map(([, name]) => name).join(" ");
    const ends = [y + high / 2, to + high / 2];
    return `<g class="${classes}" ${hue(run.records[number][0])} data-number="${number}" data-rank="${rank[number]}">
      <path class="tie" d="M${LEFT + BOX} ${ends[0]} L${RIGHT} ${ends[1]}"/>${box(LEFT, y, high, number, true)}
      ${box(RIGHT, to, high, number, false)}</g>`;
  };
  const inSight = row => (row + 2) * step > top && (row - 1) * step < top + frame;
  const numbers = [...Array(count).keys()].filter(number => inSight(number) || inSight(rank[number]));
  numbers.sort((one, other) => (one in run.past) - (other in run.past));
  byId("ties").innerHTML = numbers.map(group).join("") + (over < 0 ? "" : crossing(past, over, rank, step, high));
}

// A ring where the ties of a stale hit and of the write that it comes before cross; and a note below, if no tie of a
// later row is there.
function crossing(last, over, rank, step, high) {
  const start = last - over, end = rank[last] - rank[over], along = start / (start - end);
  const x = LEFT + BOX + along * (RIGHT - LEFT - BOX);
  const y = 6 + high / 2 + step * (last + along * (rank[last] - last));
  const middle = (LEFT + BOX + RIGHT) / 2, row = Math.max(last, rank[over]), below = high / 2 + step * row + 42;
  const note = `<text class="note" y="${below}"><tspan x="${middle}">reads</tspan>
    <tspan x="${middle}" dy="30">the past</tspan></text>`;
  return `<circle class="cross" cx="${x}" cy="${y}" r="17"/>${step > 95 || row === completed() - 1 ? note : ""}`;
}

// What a quiz asks at a place, if a load or swap completes next.
function question(place) {
  if (!quiz || place === run.steps.length || !run.steps[place][6].includes("c")) return null;
  const [core, kind, name] = run.records[counts[place]];
  return kind === "store" ? null : `What does core ${core}'s ${kind} of ${name} return?`;
}

function showSaid() {
  byId("passed").textContent = "";
  const step = at ? run.steps[at - 1] : null, asks = isAsked && question(at);
  const past = !asks && step && /[sw]/.test(step[6]);
  byId("what").textContent = asks || (step ? step[2] : `${run.title}: before the first event`);
  byId("why").innerHTML = asks ? "The right arrow shows it." : step ?
    `${escaped(step[3])} <cite><a href="#rule" id="cite" title="p">docs/PROTOCOL.md, ${escaped(step[4])}</a></cite>` :
    `The right arrow goes on to the next event${["w", "s"].filter(key => find(key, 1) !== null).map(key =>
      `, and ${key} to the ${key === "w" ? "wrong operation" : "first stale hit"}`)[0] || ""}.`;
  byId("said").className = past ? "past" : "";
  if (!byId("rule").hidden) showRule();
  if (run.question) byId("answer").textContent = at === run.steps.length ? run.question.answer || "" : "";
  byId("count").textContent = `event ${at} of ${run.steps.length}`;
  byId("count").title = step ? `${step[0]}: ${step[1]}` : "";
}

function show() {
  showSaid();
  showCores();
  showBanks();
  showOrders(bottom(completed()));
  byId("slider").value = at;
  byId("first").disabled = byId("back").disabled = at === 0;
  byId("next").disabled = at === run.steps.length;
  if (at === run.steps.length) pause();
  for (const [key] of JUMPS) {
    const isAhead = find(key, 1) !== null;
    byId(`jump-${key}`).classList.toggle("behind", !isAhead);
    byId(`jump-${key}`).disabled = !isAhead && find(key, -1) === null;
  }
  follow();
}

// All is drawn by now, so that it is laid out once.
function follow() {
  byId("rows").scrollTop = bottom(completed()) / size.unit;
  const acting = document.querySelector(".core.now") || document.querySelector(".row .new");
  // In a narrow window that would move the page itself.
  if (acting && innerWidth > NARROW) acting.scrollIntoView({block: "nearest"});
}

// The rule's section of docs/PROTOCOL.md, and the keys.
function showRule() {
  const title = at ? run.steps[at - 1][4] : "";
  byId("rule").textContent = title ? `docs/PROTOCOL.md, ${title}\n\n${run.rules[title] || ""}` : "No event yet.";
}

function turn(id) {
  const other = id === "rule" ? "keys" : "rule";
  byId(other).hidden = true;
  byId(id).hidden = !byId(id).hidden;
  showRule();
}

const HELP = [["right, left", "on to the next event that changes something, and back"], ["down, up", "each event"],
  ["Home, End", "the first and the last event"], ["space", "play"],
  ...JUMPS.map(([key, name]) => [key, `the next ${name}; with shift the one before`]),
  ["q", "a quiz: what a load returns is asked before it is shown"], ["p", "the rule's paragraph"],
  ["d", "dark or light"], ["?", "these keys"]];

// The next event of a kind, or the one before.
function find(key, by) {
  for (let to = at + by; to > 0 && to <= run.steps.length; to += by) if (run.steps[to - 1][6].includes(key)) return to;
  return null;
}

// To another event; in a quiz, on to the next question at most, and from there to what it asks.
function move(to) {
  if (isAsked && to > at) return go(at + 1);
  let place = at;
  while (place < to && !question(place)) place += 1;
  if (place < to) go(place, true); else go(to);
}

// On by one event, over those that change nothing, as a core that waits.
function walk(by) {
  let to = at + by;
  while (to > 0 && to < run.steps.length && !Object.keys(run.steps[to - 1][5]).length) to += by;
  const from = at;
  move(to);
  const over = Math.abs(at - from) - 1;
  if (over > 0) byId("passed").textContent = `(${over} passed over that changed nothing)`;
}

function jump(key, by) {
  const to = find(key, by);
  if (to !== null) move(to);
}

function turnQuiz() {
  quiz = !quiz;
  isAsked = false;
  document.documentElement.classList.toggle("quiz", quiz);
  byId("quiz").setAttribute("aria-pressed", quiz);
  show();
}

function pause() {
  clearInterval(playing);
  playing = null;
  byId("play").textContent = "play";
}

function play() {
  if (playing) return pause();
  if (at === run.steps.length) go(0);
  playing = setInterval(() => {
    walk(1);
    if (isAsked) pause();
  }, PLAY);
  byId("play").textContent = "pause";
}

function dark(is) {
  document.documentElement.classList.toggle("dark", is);
}

const KEYS = {ArrowRight: () => walk(1), ArrowLeft: () => walk(-1), PageDown: () => walk(1), PageUp: () => walk(-1),
  ArrowDown: () => move(at + 1), ArrowUp: () => go(at - 1), Home: () => go(0), End: () => move(run.steps.length),
  " ": play, q: turnQuiz, "?": () => turn("keys"), p: () => turn("rule"), Escape: () => {
    byId("keys").hidden = byId("rule").hidden = true;
  }, d: () => dark(!document.documentElement.classList.contains("dark"))};
document.addEventListener("keydown", event => {
  if (event.ctrlKey || event.altKey || event.metaKey) return;
  if (event.key === " " && event.target.tagName === "BUTTON") return;
  const key = event.key.length === 1 ? event.key.toLowerCase() : event.key;
  if (event.key === "Escape" && byId("keys").hidden && byId("rule").hidden) return;
  if (JUMPS.some(([letter]) => letter === key)) jump(key, event.shiftKey ? -1 : 1);
  else if (KEYS[key]) KEYS[key]();
  else return;
  event.preventDefault();
});

// A button that the mouse pressed gives the space bar back.
document.addEventListener("click", event => {
  if (event.detail && event.target.closest("button")) event.target.closest("button").blur();
});

function begin() {
  const steps = run.steps.length;
  const ticks = key => run.steps.map((step, index) => step[6].includes(key) ? `M${index + 1} 0 V10` : "").join("");
  document.body.className = run.cores.length > 4 ? "tight many" : run.cores.length > 3 ? "tight" : "";
  byId("title").textContent = run.title;
  byId("how").textContent = `${run.how}; played by ${run.made}`;
  byId("end").textContent = run.end + (run.done ? ` By timestamp the run is ${
    run.wrong === null ? "legal" : `not legal: ${run.verdict}`}.` : "");
  byId("end").className = run.done && run.wrong === null ? "" : "cut";
  if (run.wrong !== null) {
    byId("by-time").className = "wrong";
    byId("by-time").querySelector("span").textContent = `operation ${run.wrong} is wrong here`;
  }
  if (run.question) {
    byId("question").hidden = false;
    byId("asked").textContent = run.question.asked || "";
    byId("condition").textContent = run.question.condition;
  }
  byId("keys").innerHTML = HELP.map(([key, does]) => `<kbd>${key}</kbd>  ${does}`).join("\n");
  byId("slider").max = steps;
  byId("ticks").setAttribute("viewBox", `0 0 ${Math.max(steps, 1)} 10`);
  byId("ticks").classList.toggle("many", steps > 800);
  byId("ticks").innerHTML = `<path d="${ticks("c")}"/><path class="past" d="${ticks("s")}"/>`;
  byId("jumps").innerHTML += JUMPS.map(([key, name]) => `<button id="jump-${key}" class="${key}"
    title="${key}; with shift, back">${name.replace(key, `<kbd>${key}</kbd>`)}</button>`).join("");
  for (const [key] of JUMPS) byId(`jump-${key}`).onclick = event => jump(key, event.shiftKey ? -1 : 1);
  Object.entries({first: () => go(0), back: () => walk(-1), next: () => walk(1), play}).forEach(([id, act]) => {
    byId(id).onclick = act;
  });
  byId("help").onclick = () => turn("keys");
  byId("quiz").onclick = turnQuiz;
  byId("why").addEventListener("click", event => {
    if (event.target.id !== "cite") return;
    event.preventDefault();
    turn("rule");
  });
  byId("slider").oninput = event => move(Number(event.target.value));
  addEventListener("resize", () => {
    measure();
    show();
  });
  addEventListener("hashchange", fromHash);
  byId("rows").addEventListener("scroll", () => showOrders(byId("rows").scrollTop * size.unit));
  dark(matchMedia("(prefers-color-scheme: dark)").matches);
  measure();
  fromHash();
}

function fromHash() {
  const wanted = location.hash.slice(1), key = {stale: "s", wrong: "w"}[wanted];
  go(key ? run.steps.findIndex(step => step[6].includes(key)) + 1 : Number(wanted) || 0);
}

begin();
