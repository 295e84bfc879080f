// A visit: the list of programs, the keys of the panel, the guided minutes, and what runs while nobody is there.

const FLASH = 350;      // ms: where motion is not wanted, the lamps change at most that often
const LONG_RUN = 300;   // seconds that a visitor may watch a run without a touch
const WARNED = 10;      // seconds before the end of a visit from which on the page asks whether the visitor is there
const BACK = 3000;      // ms between two questions whether the console is back
const CARD = 600;       // ms that a card takes to leave the reader

const visit = { mode: "attract", name: "", guide: null, guideState: {}, playing: false, turn: 0, show: 0, touched: performance.now(), touch: false, failed: "", isGone: false, cardsLeft: null, statements: new Map() };
window.visit = visit;       // for whoever looks at the page from outside, as its tests do
const pause = ms => new Promise(done => setTimeout(done, ms));
function stopPlaying() { visit.playing = false; }

// The engine of a visitor: programs by their names, and of the inputs only what he has keyed.
class VisitEngine extends ServerEngine {
  async inputs({ name, keys, script }) {
    this.about = Object.assign(await this.post("inputs", { name, keys, script }), { name });
    return this.about;
  }
  async act(n, action, line) {
    const { name } = this.about;
    return Object.assign(await super.act(n, action, line), { name });
  }
}
engine = new VisitEngine();

const typewriter = new Typewriter($("paper"));
const panel = new Panel($("panel"), turned);
let settings = { programs: [], guides: {}, idle: 60, steps: 16, pace: 10 };
const program = () => settings.programs.find(it => it.name === visit.name) || {};
const guide = () => settings.guides[visit.guide];

// Work that asks the server. If it fails the page says so in plain words.
async function attempt(work) {
  try {
    const found = await work();
    visit.failed = "";
    return found;
  } catch (error) {
    stopPlaying();
    visit.failed = word(error.status ? "failed" : "gone");
    drawAll();
    $("say").title = error.message;     // for whoever looks after the exhibit
    if (!error.status) waitForConsole();
    return undefined;
  }
}

// Asks again and again whether the console is back, which then has the same address, and begins anew.
async function waitForConsole() {
  if (visit.isGone) return;
  visit.isGone = true;
  for (;;) {
    await pause(BACK);
    try { await engine.examples(); location.reload(); return; }
    catch (error) { continue; }
  }
}

// What changes the inputs is asked for one after the other: the last one counts.
let ordered = Promise.resolve();
function inOrder(work) {
  ordered = ordered.then(work, work);
  return ordered;
}

// Loads a program, with nothing keyed.
async function load(name, guide = null) {
  const turn = ++visit.turn;
  stopPlaying();
  Object.assign(visit, { name, guide, guideState: {} });
  view.s = null;      // until it is loaded no key acts
  $("keyline").value = "";
  drawAll();
  const fed = typewriter.feed(), about = await attempt(() => inOrder(() => engine.inputs({ name, keys: "", script: [] })));
  await fed;
  if (!about || turn !== visit.turn) return false;
  view.about = about;
  readListing(about.listing);
  return show(0);
}

// The statements of instructions by their addresses: if none follows a halt, the program has ended.
function readListing(listing) {
  visit.statements.clear();
  for (const line of listing) {
    const found = line.match(/^\d+ (\d{5,}) /);
    if (!found) continue;
    const rest = line.slice(found[0].length + 13);
    if (!DECLARATIVES.has(rest.slice(11, 15).trim())) visit.statements.set(Number(found[1]), `${rest.slice(11, 15)} ${rest.slice(15).split(",,")[0]}`.trim());
  }
}
const goesOn = s => s.end && s.end.kind === "HALT" && visit.statements.has(s.ir);

async function show(n) {
  const turn = visit.turn, part = program().cards ? "all" : "lights", found = await attempt(() => Promise.all([engine.state(n), engine.panel(n, part)]));
  if (!found || turn !== visit.turn) return false;
  view.s = found[0];
  view.n = found[0].n;
  drawAll();
  panel.showLights(found[1].lights);
  showReader(found[1].cardsLeft);
  return true;
}
function showMachine(s) {
  const at = shownAt(s), it = decode(s.core, at);
  panel.show(s, visit.playing, it);
  panel.tell(at, it, visit.statements.get(at));
}

// The card reader: the next card, and how many are left. A card that has been read leaves to the left.
function showReader(left) {
  const cards = program().cards && view.about ? linesOf(view.about.data) : [], now = cards.length && typeof left === "number" ? left : null;
  $("reader").hidden = now === null;
  $("reader-count").textContent = now === null ? "" : word("cardsLeft", { n: now });
  if (now === visit.cardsLeft) return;
  const leaves = now !== null && visit.cardsLeft !== null && now < visit.cardsLeft && !typewriter.still.matches, old = $("hopper").lastElementChild;
  visit.cardsLeft = now;
  for (const image of [...$("hopper").children]) if (image !== old || !leaves) image.remove();
  if (leaves && old) {
    old.classList.add("read");
    setTimeout(() => old.remove(), CARD);
  }
  if (now) $("hopper").prepend(cardImage(cards[cards.length - now], word("nextCard")));
}

// Runs until the program halts, stops or wants something, or until STOP. The typewriter sets the pace: what is typed is waited for, as on the machine.
async function run() {
  const turn = ++visit.turn, on = () => turn === visit.turn && visit.playing;
  visit.playing = true;
  drawAll();
  await attempt(() => (program().stride ? byStates : byFrames)(on));
  if (turn !== visit.turn) return;
  stopPlaying();
  visit.touched = Math.max(visit.touched, performance.now() - settings.idle * 500);
  if (!await show(view.n)) return;
  typewriter.read(true);
  if (visit.mode === "visit" && view.s.end && view.s.end.kind === "NEED KEYS") askForKeys();
}

async function byFrames(on) {
  const chunk = 100, last = engine.last();
  let more = engine.frames(view.n, chunk + 1), drawn = 0;
  while (on() && view.n < last) {
    const { n, core: first, frames } = await more, core = [...first];
    const many = n + frames.length >= last ? frames.length : frames.length - 1;      // the last one is there for its address
    if (!on() || many < 1) return;
    more = engine.frames(n + many, chunk + 1);
    more.catch(() => {});
    for (let i = 0; i < many && on(); i++) {
      const frame = frames[i], next = frames[i + 1], it = decode(core.join(""), frame.ir), isDigits = !!it.cells && typesDigits(it.cells);
      for (const [at, c] of frame.cells) core[at] = c;
      view.n = n + i + 1;
      view.s = Object.assign({}, view.s, { n: view.n, ir: next ? next.ir : frame.ir, core: core.join(""), end: null, switches: switchesOf(view.about, view.n), typedLength: view.s.typedLength + frame.typed.length });
      if (frame.typed || !typewriter.still.matches || performance.now() - drawn > FLASH) { drawn = performance.now(); showMachine(view.s); lightsOf(view.n, on); }
      if (it.device === "card reader" && visit.cardsLeft) { showReader(visit.cardsLeft - 1); await pause(CARD); }
      if (frame.typed && !await typewriter.type(frame.typed, isDigits)) return;
      await pause(1000 / settings.steps);
    }
  }
}

// A program of many steps is looked at each so many steps only.
async function byStates(on) {
  while (on() && view.n < engine.last()) {
    const from = view.s, s = await engine.state(view.n + program().stride);
    if (!on()) return;
    view.s = s;
    view.n = s.n;
    showMachine(s);
    lightsOf(s.n, on);
    if (!await typewriter.type(s.typed.slice(s.typed.length - (s.typedLength - from.typedLength)), false)) return;
    await pause(typewriter.still.matches ? FLASH : 30);
  }
}

// The lamps of the indicators are asked for; they come a moment later, and not for each step.
let asking = false;
function lightsOf(n, on) {
  if (asking) return;
  asking = true;
  engine.panel(n, "lights").then(found => { asking = false; if (on()) panel.showLights(found.lights); }, () => { asking = false; });
}

// A key that changes the inputs. What came of it counts no more where another program was loaded meanwhile.
async function act(action, line) {
  stopPlaying();
  const turn = visit.turn, about = await attempt(() => inOrder(() => engine.act(view.n, action, line)));
  if (!about || turn !== visit.turn) return false;
  view.about = about;
  return true;
}

// The keys of the panel.

async function start() {
  if (visit.playing || !view.s) return;
  const { end } = view.s;
  if (end && end.kind === "HALT" && !goesOn(view.s)) { if (await load(visit.name, visit.guide)) await run(); return; }
  if (end && end.kind === "NEED KEYS") { askForKeys(); return; }
  if (end && end.kind !== "HALT" || end && !await act("START")) return;
  visit.guideState.changed = visit.guideState.changed && "run";
  await run();
}
async function step() {
  if (!view.s || view.s.end && !goesOn(view.s)) return;
  const wasPlaying = visit.playing, turn = ++visit.turn;
  stopPlaying();
  if (wasPlaying) { await show(view.n); return; }
  if (view.s.end && !await act("START")) return;
  const { cells } = decode(view.s.core, view.s.ir), typed = view.s.typedLength;
  if (!await show(view.n + 1) || turn !== visit.turn) return;
  await typewriter.type(view.s.typed.slice(view.s.typed.length - (view.s.typedLength - typed)), !!cells && typesDigits(cells));
  typewriter.read(true);
}
// The instruction at which it is comes to its end, and so does what it types.
function stop() { stopPlaying(); }
async function release(text) {
  if (!view.s || !view.s.end || view.s.end.kind !== "NEED KEYS") return;
  $("keyline").value = "";
  $("keyline").blur();
  showBoard(false);
  const line = asKeyed(text);
  if (!await act("KEYS", line)) return;
  typewriter.putKeyed(line);
  await run();
}
// The machine's typewriter has capitals and no accents.
function asKeyed(text) {
  const spelt = { "\u00c4": "AE", "\u00d6": "OE", "\u00dc": "UE", "\u00df": "SS" };
  return text.normalize("NFC").toUpperCase().replace(/[\u00c4\u00d6\u00dc\u00df]/g, c => spelt[c]).normalize("NFD").replace(/[\u0300-\u036f]/g, "").replace(/[^ -_]/g, " ").slice(0, 60);
}
// Whether a key is heard at this place. While the machine runs, the screen does not know yet that the run ends here: so it is asked for.
async function isHeard() {
  if (!view.s) return false;
  const wasPlaying = visit.playing, turn = ++visit.turn;
  stopPlaying();
  if (wasPlaying && !await show(view.n) || turn !== visit.turn) return false;
  return !view.s.end || view.s.end.kind === "HALT";
}
async function turned(key, on) {
  const wasPlaying = visit.playing, isHere = await isHeard(), turn = visit.turn;
  if (isHere && (!await act(turnOf(key, on)) || !await show(view.n)) || turn !== visit.turn) return;
  if (wasPlaying) await run();
}

// Drawing.

function drawAll() {
  const s = view.s, box = $("more");
  $("title").textContent = visit.name ? entry("programs", visit.name)[0] : "";
  $("sound").textContent = word(typewriter.sound ? "soundOn" : "soundOff");
  $("sound").setAttribute("aria-pressed", !!typewriter.sound);
  box.textContent = "";
  if (visit.failed || !s) {
    say(visit.failed, true);
    for (const id of ["start", "stop", "sie", "release", "keyline", "screen-keys"]) $(id).disabled = true;
    return;
  }
  showMachine(s);
  const end = s.end && s.end.kind, wanted = end === "NEED KEYS" && !visit.playing, stopped = end && end !== "HALT";
  $("start").disabled = visit.playing || stopped && !wanted;
  $("stop").disabled = !visit.playing;
  $("sie").disabled = visit.playing || !!end && !goesOn(s);
  $("release").disabled = $("keyline").disabled = $("screen-keys").disabled = !wanted;
  $("keyline").placeholder = wanted ? word("keyboardHere") : "";
  $("keyform").classList.toggle("wanted", wanted);
  $("release").classList.toggle("wanted", wanted);
  $("start").classList.toggle("wanted", !visit.playing && !stopped);
  $("reset").classList.toggle("wanted", !visit.playing && !!stopped && !wanted);
  const guided = visit.mode === "visit" && visit.guide && GUIDES[visit.guide](s, end);
  say(visit.mode === "attract" ? `${word("lead")} ${entry("programs", visit.name)[1]}` : guided ? guided.text : plain(s, end), end === "CHECK");
  if (!guided) return;
  $("say").prepend(el("b", word("step", { i: guided.i, n: guided.n }) + " "));
  box.append(...(guided.parts || []));
}
// How the machine stands, in plain words, and what to press.
function plain(s, end) {
  if (visit.playing) return word("running");
  if (end === "HALT") return word(!goesOn(s) ? "done" : program().halt || "halt");
  if (end === "CHECK") return word({ "04": "check4", 10: "check10" }[s.end.line.split(" ")[1]] || "check");
  if (end === "NEED KEYS") return `${word("needKeys")} ${entry("programs", visit.name)[1]}`;
  if (end) return word({ "NEED CARDS": "needCards", LIMIT: "limit", JAM: "jam" }[end]);
  return s.n <= 0 ? word("loaded") : word("standing", { n: s.n });
}

// The guided minutes: where the visitor is, what is said there, and what he can do besides the keys.

function chip(text, pressed, work) {
  const button = el("button", text, "chip");
  button.type = "button";
  if (pressed !== null) button.setAttribute("aria-pressed", pressed);
  button.onclick = work;
  return button;
}
const GUIDES = {
  name(s, end) {
    const i = visit.playing ? 0 : end === "NEED KEYS" ? 2 : goesOn(s) ? 3 : end === "HALT" ? 4 : s.n <= 0 ? 1 : 0;
    return i ? { i, n: 4, text: word("name" + i) } : null;
  },
  bit(s, end) {
    const state = visit.guideState, { cell, bit: broken } = guide(), at = five(cell), parts = [];
    if (state.bits) {
      const both = el("div", undefined, "both");
      both.append(bitRow(word("bitBefore"), state.bits), bitRow(word("bitAfter"), state.bits.map((bit, i) => i === 5 - broken ? !bit : bit)));
      parts.push(both);
    } else if (!end) parts.push(chip(word("bitButton", { at }), null, breakBit));
    if (end === "CHECK") return { i: 3, n: 3, text: word("bit3", { at }), parts };
    return state.bits ? { i: 2, n: 3, text: word("bit2", { at }), parts } : end ? null : { i: 1, n: 3, text: word("bit1"), parts };
  },
  table(s, end) {
    const state = visit.guideState;
    if (end !== "HALT" || visit.playing) return s.n <= 0 ? { i: 1, n: 4, text: word("table1") } : null;
    const { cell } = guide(), at = five(cell), first = cell - cell % 10, digit = bare(s.core[cell]), chips = [...Array(10).keys()].map(d => chip(d, String(d) === digit, () => setSum(d)));
    const table = el("table", undefined, "sums"), head = table.insertRow(), row = table.insertRow();
    head.append(el("th", word("tableRow", { x: Math.floor(cell / 10) % 10 })));
    row.append(el("th", ""));
    for (let y = 0; y < 10; y++) { const c = s.core[first + y]; head.append(el("th", y)); row.append(el("td", bare(c), classes(isFlag(c) && "f", first + y === cell && "here"))); }
    const i = state.changed === "run" ? 4 : state.changed ? 3 : 2;
    const box = el("div", undefined, "chips");
    box.append(...chips);
    return { i, n: 4, text: word("table" + i, { digit, at }), parts: [box, table] };
  },
};
// One bit of a digit fails, as a ring of core might.
async function breakBit() {
  if (!await isHeard()) return;
  const state = visit.guideState, { cell, bit } = guide(), bits = bitsOf(view.s.core[cell]);
  if (!bits || !await act(`FLIP ${cell} ${bit}`)) return;
  state.bits = bits;
  await show(view.n);
  typewriter.read(true);
}
// Another digit takes the place of the sum: each bit that differs is turned.
async function setSum(digit) {
  if (!await isHeard()) return;
  const { cell } = guide(), now = bitsOf(view.s.core[cell]), then = bitsOf(String(digit));
  if (!now) return;
  for (let i = 0; i < 6; i++) if (now[i] !== then[i] && !await act(`FLIP ${cell} ${5 - i}`)) return;
  visit.guideState.changed = "set";
  await show(view.n);
}

// The keyboard: the computer's own, or keys on the screen.

const KEY_ROWS = ["1234567890", "QWERTYUIOP", "ASDFGHJKL,", "ZXCVBNM.-+"];
function makeBoard() {
  const field = $("keyline"), board = $("board");
  for (const row of KEY_ROWS) for (const c of row) board.append(chip(c, null, () => { field.value = (field.value + c).slice(0, 60); }));
  for (const [name, work] of [["blank", () => { field.value += " "; }], ["rubout", () => { field.value = field.value.slice(0, -1); }]]) {
    const button = chip("", null, work);
    button.dataset.word = name;
    board.append(button);
  }
  const send = chip("RELEASE", null, () => release(field.value));
  send.classList.add("go");
  board.append(send);
}
function showBoard(on) {
  $("board").hidden = !on;
  $("screen-keys").setAttribute("aria-expanded", on);
}
function askForKeys() {
  if (visit.touch && innerWidth >= 700) showBoard(true);
  else $("keyline").focus({ preventScroll: true });
}

// Beginning, choosing, and what runs while nobody is there.

function drawChooser() {
  for (const [id, kind, names] of [["guides", "guides", Object.keys(settings.guides)], ["list", "programs", settings.programs.map(it => it.name)]]) {
    $(id).textContent = "";
    for (const name of names) {
      const card = el("button", undefined, "card"), [title, about] = entry(kind, name);
      card.type = "button";
      card.append(el("b", title), el("span", about));
      card.onclick = () => { $("chooser").close(); if (kind === "guides") load(settings.guides[name].program, name); else load(name); };
      $(id).append(card);
    }
  }
}
function speak(code) {
  language = code;
  drawWords();
  $("languages").textContent = "";
  for (const other of Object.keys(WORDS.all)) if (other !== code) {
    const button = el("button", WORDS.all[other].name);
    button.type = "button";
    button.lang = other;
    button.onclick = () => { speak(other); };
    $("languages").append(button);
  }
  drawChooser();
  drawAll();
}
function begin() {
  if (visit.mode === "visit") return;
  visit.mode = "visit";
  ++visit.show;
  ++visit.turn;
  stopPlaying();
  $("attract").hidden = true;
  $("chooser").showModal();
  if (view.about) load(visit.name);
}
async function attract() {
  const mine = ++visit.show, here = () => mine === visit.show, list = settings.programs.filter(it => it.attract);
  visit.mode = "attract";
  visit.warned = false;
  typewriter.hear(false);
  delete document.documentElement.dataset.shade;
  $("chooser").close();
  showBoard(false);
  $("attract").hidden = false;
  speak(WORDS.first);
  for (let i = 0; here() && list.length; i = (i + 1) % list.length) {
    if (await load(list[i].name)) await run();
    for (const line of list[i].attract) {
      if (!here() || !view.s || !view.s.end || view.s.end.kind !== "NEED KEYS") break;
      for (const c of line) { await pause(180); if (here()) $("keyline").value += c; }
      await pause(700);
      if (here()) await release(line);
    }
    for (let seconds = 0; seconds < 7 && here(); seconds++) await pause(1000);
  }
}
function touched(event) {
  visit.touched = performance.now();
  if (visit.warned) { visit.warned = false; drawAll(); }
  if (event.type === "pointerdown") visit.touch = event.pointerType === "touch";
  else if (visit.mode === "attract" && !event.ctrlKey && !event.altKey && !event.metaKey) { event.preventDefault(); begin(); }
}
document.addEventListener("pointerdown", touched, true);
document.addEventListener("keydown", touched, true);
document.addEventListener("contextmenu", event => event.preventDefault());
setInterval(() => {
  const left = (visit.playing ? LONG_RUN : settings.idle) - (performance.now() - visit.touched) / 1000;
  if (visit.mode !== "visit") return;
  if (left <= 0) attract();
  else if (left < WARNED && settings.idle > 2 * WARNED && !visit.failed) { visit.warned = true; say(word("still", { n: Math.ceil(left) })); }
}, 1000);

$("start").onclick = start;
$("stop").onclick = stop;
$("sie").onclick = step;
$("reset").onclick = () => load(visit.name, visit.guide);
$("programs").onclick = () => $("chooser").showModal();
$("attract").onclick = begin;
$("sound").onclick = () => { typewriter.hear(!typewriter.sound); drawAll(); };
$("feed").onclick = () => { if (!visit.playing) typewriter.feed(); };
$("screen-keys").onclick = () => showBoard($("board").hidden);
$("keyform").onsubmit = event => { event.preventDefault(); release($("keyline").value); };
$("shade").onclick = () => {
  const dark = getComputedStyle(document.documentElement).colorScheme === "dark" || getComputedStyle(document.documentElement).colorScheme !== "light" && matchMedia("(prefers-color-scheme: dark)").matches;
  document.documentElement.dataset.shade = dark ? "light" : "dark";
};

(async () => {
  makeBoard();
  drawWords();
  settings = Object.assign(settings, await attempt(() => engine.examples()) || {});
  typewriter.pace = settings.pace;
  if (settings.programs.length) attract();
})();
