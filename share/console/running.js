// Going from step to step, running at a pace, and the keys of the console.

// Core, registers and typing come first; the lights and the hopper, which are asked for, a moment later.
async function go(n, quiet) {
  const asked = ++view.asked, old = view.s, panel = guard(() => engine.panel(n)), s = await guard(() => engine.state(n));
  if (!s || asked !== view.asked) return;
  show(s);
  if (s.end) sayEnd();
  else if (!quiet || recordEnds(s)) say(recordEnds(s));
  const typed = old && s.n === old.n + 1 && s.typedLength > old.typedLength ? "typed: " + s.typed.slice(old.typedLength - s.typedLength) + ". " : "";
  $("live").textContent = `step ${s.n}. ${typed}${$("next").textContent}`;
  typewriter.typing.then(() => { if (!view.playing) typewriter.read(true); });
  const lights = await panel;
  if (!lights || asked !== view.asked) return;
  view.panel = lights;
  drawPanel(lights);
}
function show(s) {
  view.s = s;
  view.n = s.n;
  view.panel = null;
  draw();
}

function sayEnd() {
  const end = view.s.end, hint = end.kind === "HALT" ? !engine.live ? "" : isFinal() ? "The program has ended: behind this halt no instruction stands. First goes back to the beginning." : "START or SIE goes on behind the halt." : engine.live || end.kind === "CHECK" ? HINTS[end.kind] : "";
  say(`${end.line}. ${end.about ? end.about + " " : ""}${end.said.length ? end.said.join("; ") + ". " : ""}${hint}`, end.kind === "CHECK" || end.kind === "JAM");
  if (end.kind === "NEED KEYS" && engine.live) $("keyline").focus();
  if (end.kind === "NEED CARDS" && engine.live) $("cardline").focus();
}

// Whether the program has ended: it is halted, and behind the halt stands none of its instructions.
function isFinal() { return view.s.end && view.s.end.kind === "HALT" && view.about.kind === "source" && !view.statementAt.has(view.s.ir); }

// At a halt the Start key goes on, and is a line of the script. At the program's end, where it would run on into data, it has to be pressed twice.
async function pressStart() {
  if (!(view.s.end && view.s.end.kind === "HALT" && engine.live)) return true;
  if (isFinal() && view.warned !== view.n) {
    view.warned = view.n;
    say("Behind this halt no instruction stands: the machine would take data for one. START once more goes on all the same.");
    return false;
  }
  return act("START");
}

async function step() {
  byHand();
  if (view.s.end && (view.s.end.kind !== "HALT" || !engine.live)) { sayEnd(); return; }
  if (await pressStart()) await go(view.n + 1);
}
function byHand() { view.resume = false; stopPlaying(); }
function stopPlaying() {
  if (!view.playing) return;
  view.playing = false;
  clearTimeout(view.timer);
}
async function halt() {
  if (!view.playing) return;
  byHand();
  await go(view.n);
}

async function start() {
  if (view.playing || !view.s || !await pressStart()) return;
  const pace = Number($("pace").value);
  view.resume = true;
  if (pace === 0) {
    say("running ..");
    const found = await guard(() => engine.stop(view.n, view.stops));
    if (!found) return;
    await go(found.n);
    if (found.statement) say(`breakpoint at statement ${found.statement}, step ${found.n}`);
    return;
  }
  view.playing = true;
  draw();
  say("running");
  await guard(() => play(pace));
}

// Runs at a pace: the steps come by the hundred, and each is drawn, or several at once where the screen is slower than the pace.
async function play(pace) {
  const run = ++view.asked, chunk = pace >= 100 ? 500 : 100, goesOn = () => view.playing && run === view.asked;
  let buffer = null, at = 0, more = engine.frames(view.n, chunk), due = performance.now(), busy = false;
  while (goesOn()) {
    if (!buffer || at >= buffer.frames.length) {
      buffer = await more;
      at = 0;
      more = null;
      if (!goesOn()) return;
      if (!buffer.frames.length) break;
      if (view.s.n !== buffer.n) { const s = await engine.state(buffer.n); if (!goesOn()) return; view.s = s; }
      due = Math.max(due, performance.now() - 500);
    }
    if (!more && at > buffer.frames.length / 2) { more = engine.frames(buffer.n + buffer.frames.length, chunk); more.catch(() => {}); }
    const now = performance.now(), count = Math.max(1, Math.min(Math.floor((now - due) * pace / 1000) + 1, pace >= 100 ? 20 : 1));
    const [s, passed, stop] = along(view.s, buffer.frames.slice(at, at + count + 1), count);
    at += passed;
    due = Math.max(due + 1000 * passed / pace, now - 500);
    if (stop || s.n >= engine.last()) {
      stopPlaying();
      await go(s.n, true);
      if (stop) say(`breakpoint at statement ${stop}, step ${s.n}`);
      return;
    }
    view.s = s;
    view.n = s.n;
    if (s.ir === null) {        // the last of these: where the next one stands comes with the next ones
      buffer = await (more || engine.frames(s.n, chunk));
      at = 0;
      more = null;
      if (!goesOn()) return;
      if (buffer.frames.length) s.ir = buffer.frames[0].ir;
    }
    draw(true);
    if (typewriter.pace) { await typewriter.typing; if (!goesOn()) return; }
    if (!busy) {
      busy = true;
      engine.panel(s.n, "lights").then(found => { busy = false; if (goesOn()) drawLamps(found.lights, view.n === found.n ? 0 : found.n); }, () => { busy = false; });
    }
    await new Promise(done => { view.timer = setTimeout(done, Math.max(0, due - performance.now())); });
  }
  if (run === view.asked) { stopPlaying(); await go(view.n, true); }
}

// The machine some steps on, at most to a breakpoint; the last of the frames is looked at for its address alone.
function along(from, frames, count) {
  const s = Object.assign({}, from, { changed: [], pieces: [], end: null }), core = [...from.core];
  let passed = 0, stop = null;
  while (passed < count && passed < frames.length && !stop) {
    const frame = frames[passed++], next = frames[passed];
    if (frame.typed) s.pieces.push([frame.typed, typesDigits(core.slice(frame.ir, frame.ir + 12))]);
    for (const [a, c] of frame.cells) { s.changed.push([a, core[a]]); core[a] = c; }
    s.typed += frame.typed;
    s.typedLength += frame.typed.length;
    s.n++;
    s.was = frame.ir;
    s.ir = next ? next.ir : null;
    const number = next && view.statementAt.get(next.ir);
    if (number && view.stops.has(number)) stop = number;
  }
  s.core = core.join("");
  s.switches = switchesOf(view.about, s.n);
  return [s, passed, stop];
}

// What a key may have changed of the inputs is kept, for Undo, and no more of them: a source may be long.
function remember(n) {
  const { data, keys, script } = view.about;
  view.history.push({ data, keys, script, n });
  if (view.history.length > 50) view.history.shift();
}

// A key: it changes the inputs, and the run is worked out anew.
async function act(action, line) {
  if (!engine.live) { say("this is a record: its run can be looked at, and not changed"); return false; }
  stopPlaying();
  const n = view.n, about = await guard(() => engine.act(n, action, line));
  if (!about) return false;
  remember(n);
  view.about = about;
  view.scriptEdited = false;
  return true;
}

// A machine that ran until it wanted a card or a line runs on once it has it.
async function press(action, line, told) {
  const { n } = view, isWanted = view.s.end && view.s.end.kind === "NEED KEYS", goesOn = view.resume && view.s.end && view.s.end.kind.startsWith("NEED") && line !== undefined;
  if (!await act(action, line)) return;
  if (action === "KEYS" && isWanted) typewriter.key(line, n);
  const differs = view.about.past === false;
  await go(view.n, true);
  if (differs) say("Put in here, it has changed what came before this step too: an earlier card was the last one, and is not now.", true);
  else if (goesOn) await start();
  else if (!view.s.end) say(told || action);
}

// What there is to say of a run that has no page of its own.
function aboutRun({ kind, text, deck, data, keys, script, loading, end, command }) {
  const comment = kind === "source" ? linesOf(text).filter(line => line[5] === "*").map(line => line.slice(6)).join("\n") + "\n\n" : "";
  const count = (many, one, more) => `${thousands(many)} ${many === 1 ? one : more}`;
  return comment.trimStart() + `${kind === "source" ? `A source of ${count(linesOf(text).length, "line", "lines")}` : "A deck"}, ${count(deck.length, "card", "cards")} to load` +
    (loading ? ` in ${count(loading, "step", "steps")}` : "") + `; ${count(linesOf(data).length, "data card", "data cards")}, ${count(linesOf(keys).length, "line", "lines")} of the keyboard, ` +
    `${count(script.length, "line", "lines")} of the operator's script.\nThe run ends by ${end.line}.\nReplay: ${command}\n`;
}

async function open(about, name) {
  stopPlaying();
  const old = view.about, made = await guard(() => engine.inputs(about));
  if (!made) { engine.about = old; return; }
  if (made.refusal) { refused(made, about); engine.about = old || made; return; }
  Object.assign(view, { about: made, history: [], scriptEdited: false, s: null, panel: null, warned: null, name: name || "", cells: 0, cursor: null });
  view.stops.clear();
  firstRow = 0;
  $("examples").value = [...$("examples").options].some(option => option.value === name) ? name : "";
  $("refusal").hidden = true;
  typewriter.clear();
  view.page = about.about || "";
  $("about").textContent = view.page || aboutRun(made);
  showInputs();
  newListing();
  tab("listing");
  await go(0, true);
  if (view.s && !view.s.end) say(`${name ? name + ": " : ""}loaded. SIE makes one step, START runs.`);
}
function showInputs() {
  $("source").value = view.about.text;
  $("kind").value = view.about.kind;
  $("size").value = view.about.core;
  $("limit").value = view.about.limit;
  $("at").max = view.about.core - 1;
  $("ruler").hidden = view.about.kind === "deck";
}

// A source that is refused is marked at what breaks the rule; the console keeps the run before.
function refused(made, about) {
  const it = made.refusal, box = $("source"), lines = about.text.split("\n");
  tab("source");
  box.value = about.text;
  $("kind").value = about.kind;
  $("refusal").hidden = false;
  $("refusal").textContent = it.line + "\n" + it.said.join("\n").replace(/^--source: /, "");
  say(it.line + (view.s ? ". The console still shows the run before." : ""), true);
  if (!it.statement) return;
  const begin = lines.slice(0, it.statement - 1).reduce((sum, line) => sum + line.length + 1, 0), column = it.column ? it.column - 1 : 0;
  box.focus();
  box.setSelectionRange(begin + column, begin + (it.column ? column + it.width : (lines[it.statement - 1] || "").length));
  box.scrollTop = Math.max(0, (it.statement - 6) * 1.3 * parseFloat(getComputedStyle(box).fontSize));
}

function tab(name) {
  for (const button of $("tabs").children) {
    const on = button.dataset.tab === name;
    button.setAttribute("aria-selected", on);
    button.tabIndex = on ? 0 : -1;
    $("t-" + button.dataset.tab).hidden = !on;
  }
}
