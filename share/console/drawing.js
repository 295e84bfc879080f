// Drawing the machine at a step.

const STATES = { HALT: ["HALT", "wait"], CHECK: ["CHECK", "stop"], LIMIT: ["LIMIT", "stop"], "NEED CARDS": ["READER: NO CARDS", "wait"],
  "NEED KEYS": ["KEYBOARD: TYPE A LINE", "wait"], JAM: ["JAM", "stop"] };
const HINTS = { CHECK: "A stopped machine can't be started: go back and look.", "NEED CARDS": "The reader is empty: put a card into the hopper, and the run goes on.",
  "NEED KEYS": "The machine waits for the keyboard: type a line and press Release.", LIMIT: "The limit of steps is reached, and the program would run on: the limit can be made greater under Source.",
  JAM: "A line of over 80 columns jams." };

const DISK_LAMPS = [[36, "DISK ADDR"], [37, "DISK LENGTH"], [38, "CYLINDER"]];
const lamps = new Panel($("panel"), (key, on) => press(turnOf(key, on)), DISK_LAMPS), typewriter = new Typewriter($("paper"));
typewriter.pace = 0;

function drawLamps(lights, older) {
  lamps.showLights(lights);
  $("lamps-why").textContent = older ? `lights of step ${older}` : lights.why;
  drawArms(lights.arms);
}

// The arms of the disk drives: a mark between cylinder 0 on the left and 99 on the right, and the same in words.
function drawArms(arms) {
  const box = $("arms");
  box.textContent = "";
  arms.forEach((cylinder, i) => {
    const row = el("div"), bar = el("span", undefined, "arm"), mark = el("i");
    bar.setAttribute("aria-hidden", "true");
    if (cylinder !== null) { mark.style.left = cylinder / 99 * 100 + "%"; bar.append(mark); }
    row.append(el("span", `Drive ${i + 1}`), bar, el("span", cylinder === null ? "arm: not known here" : `arm at cylinder ${String(cylinder).padStart(2, "0")}, sectors ${five(200 * cylinder)} to ${five(200 * cylinder + 199)}`));
    box.append(row);
  });
}

// The map: a square for each cell, its digit's shade, with a bar over a flag; colours for the instruction, its fields and what changed. The rows above
// have the same as text.
const colours = {
  kept: null,
  read() {
    const style = getComputedStyle(document.documentElement), context = document.createElement("canvas").getContext("2d", { willReadFrequently: true });
    const rgb = name => { context.fillStyle = style.getPropertyValue(name).trim(); context.fillRect(0, 0, 1, 1); return [...context.getImageData(0, 0, 1, 1).data.slice(0, 3)]; };
    const zero = rgb("--cell0"), nine = rgb("--cell9"), mix = t => zero.map((v, i) => Math.round(v + (nine[i] - v) * t));
    this.kept = { digits: [...Array(10).keys()].map(v => v ? mix(.35 + .65 * v / 9) : zero), mark: rgb("--mark"), p: rgb("--p"), q: rgb("--q"), ir: rgb("--here"),
      changed: rgb("--changed"), flag: rgb("--ink"), bad: rgb("--bad"), gap: rgb("--box") };
    return this.kept;
  },
};
function drawMap(s, it, at) {
  const colour = colours.kept || colours.read(), all = $("map-all").checked;
  if (!all) {
    let used = s.core.length;
    while (used > 1 && s.core[used - 1] === "0") used--;
    view.cells = Math.max(view.cells, used);
  }
  const canvas = $("map"), narrow = canvas.clientWidth < 500, columns = (all ? 200 : 100) / (narrow ? 2 : 1), size = narrow ? all ? 2 : 5 : all ? 4 : 8, most = Math.ceil(s.core.length / columns);
  const rows = all ? most : Math.min(most, Math.max(10, Math.ceil(view.cells / columns) + 1)), cells = Math.min(columns * rows, s.core.length), width = columns * size;
  if (canvas.width !== width || canvas.height !== rows * size) { canvas.width = width; canvas.height = rows * size; }
  view.columns = columns;
  $("map-note").textContent = `00000 to ${five(cells - 1)}, ${columns} cells in a row` + (cells < s.core.length ? "; behind them zeros" : "");
  const image = new ImageData(width, rows * size), points = new Uint32Array(image.data.buffer), number = v => 0xff000000 | v[2] << 16 | v[1] << 8 | v[0], gap = number(colour.gap), flag = number(colour.flag);
  const fill = (a, v, bar) => {
    if (a >= cells) return;
    const begin = Math.floor(a / columns) * size * width + a % columns * size;
    for (let j = 0; j < size; j++) for (let i = 0; i < size; i++) points[begin + j * width + i] = size > 4 && (i === 0 || j === size - 1) ? gap : j < size / 4 && bar ? flag : v;
  };
  const shades = colour.digits.map(number), mark = number(colour.mark), bad = number(colour.bad);
  for (let a = 0; a < cells; a++) { const v = valueOf(s.core[a]); fill(a, v < 0 ? bad : v > 9 ? mark : shades[v], isFlag(s.core[a])); }
  const range = (part, v) => { if (part) for (let a = part[0]; a <= part[1] && a < s.core.length; a++) fill(a, number(v), isFlag(s.core[a])); };
  range(it.fields.q, colour.q);
  range(it.fields.p, colour.p);
  if (at !== null && at + 12 <= s.core.length) range([at, at + 11], colour.ir);
  for (const [a] of s.changed) range([a, a], colour.changed);
  canvas.getContext("2d").putImageData(image, 0, 0);
  canvas.setAttribute("aria-label", `all of core, ${s.core.length} cells; the instruction at ${at}` + (it.p && it.p.at !== undefined ? `, P ${it.p.at}` : "") +
    (it.q && it.q.at !== undefined ? `, Q ${it.q.at}` : "") + `; ${s.changed.length} cells changed by the last step; the rows above have them as text`);
}

let firstRow = 0;
function drawRows(s, it, lit, shown) {
  const want = $("around").value, count = 8;
  let at = Number($("at").value) || 0;
  if (want === "ir") at = shown || 0;
  else if (want === "p" && it.p && it.p.at !== undefined) at = it.fields.p ? it.fields.p[0] : it.p.at;
  else if (want === "q" && it.q && it.q.at !== undefined) at = it.fields.q ? it.fields.q[0] : it.q.at;
  else if (want === "ch" && s.changed.length) at = s.changed[0][0];
  // The rows stay where they are as long as the place is in sight: then one sees what moves.
  if (at < firstRow + 50 || at >= firstRow + 50 * (count - 1)) firstRow = at - 100;
  firstRow = Math.max(0, Math.min(Math.floor(firstRow / 50) * 50, s.core.length - 50 * count));
  const changed = new Set(s.changed.map(c => c[0])), inside = (part, a) => part && a >= part[0] && a <= part[1], box = $("rows");
  box.textContent = "";
  box.append(el("span", "       +0        +10       +20       +30       +40", "line a"));
  for (let row = 0; row < count; row++) {
    const from = firstRow + 50 * row, line = el("span", undefined, "line");
    line.append(el("span", five(from) + "  ", "a"));
    let text = "", kind = null;
    const flush = () => { if (text) line.append(kind ? el("span", text, kind) : text); text = ""; };
    for (let a = from; a < from + 50 && a < s.core.length; a++) {
      const c = s.core[a], value = valueOf(c);
      const now = classes(isFlag(c) && "f", shown !== null && inside([shown, shown + 11], a) && "ir", inside(it.fields.p, a) && "fp", inside(it.fields.q, a) && "fq", changed.has(a) && "ch",
        (value < 0 || value > 9) && "sp", lit.has(a) && "lit");
      if (now !== kind) { flush(); kind = now; }
      text += bare(c);
    }
    flush();
    box.append(line);
  }
}

function drawTable(s, lit, note) {
  const box = $("addtable"), changed = new Set(s.changed.map(c => c[0]));
  if (!box.rows.length) {
    const head = box.insertRow();
    head.append(el("th", "+"));
    for (let y = 0; y < 10; y++) head.append(el("th", y));
    for (let x = 0; x < 10; x++) { const row = box.insertRow(); row.append(el("th", x)); for (let y = 0; y < 10; y++) row.insertCell(); }
  }
  for (let x = 0; x < 10; x++) for (let y = 0; y < 10; y++) {
    const a = 300 + 10 * x + y, c = s.core[a], cell = box.rows[x + 1].cells[y + 1], normal = (x + y) % 10 === valueOf(c) && isFlag(c) === (x + y > 9);
    cell.textContent = bare(c);
    cell.className = classes(isFlag(c) && "f", !normal && "odd", lit.has(a) && "lit", changed.has(a) && "ch");
    cell.title = five(a) + (normal ? "" : ": not the standard table");
  }
  $("table-note").textContent = note;
}

// The cells of the table that the last step looked up, and a word on them.
function lookups(s) {
  const plain = "Slanted digits are none of the standard table.";
  if (s.was === null || s.was === undefined) return [new Set(), plain];
  const before = [...s.core];
  for (const [a, c] of s.changed) before[a] = c;
  const found = lookedUp(before.join(""), s.core, s.was);
  if (!found) return [new Set(), plain];
  if (!found.agrees) return [new Set(), "Which cells the last step looked up can't be said: what the page has worked out is not what the machine has stored."];
  const cells = found.cells;
  return [new Set(cells), `The last step looked up ${cells.length} sums here: ${cells.slice(0, 12).map(five).join(" ")}${cells.length > 12 ? " .." : ""}` +
    (found.compare ? " (a comparison stores nothing, so this is worked out by the page alone)" : "")];
}

// What is new on the paper is known to be digits or text if one step has typed it, or if the run has told each piece.
function drawPaper(s) {
  const text = s.typed.slice(s.typed.length - Math.max(0, s.typedLength - typewriter.length)), isNext = s.n === typewriter.step + 1 && s.was !== null && s.was !== undefined;
  typewriter.showAt(s.typed, s.typedLength, s.n, s.pieces || isNext && [[text, typesDigits(s.core.slice(s.was, s.was + 12))]]);
}

function drawDisk(s) {
  const box = $("disk");
  if (!s.sectors.length) { box.textContent = engine.live || s.n === engine.last() ? "No sector holds anything but zeros." : "A record has the sectors as they are at its last step."; return; }
  const table = el("table", undefined, "grid"), head = table.insertRow();
  table.setAttribute("aria-label", "sectors of the disk");
  for (const text of ["drive", "sector", "100 digits", ""]) head.append(el("th", text));
  for (const it of s.sectors) { const row = table.insertRow(); row.append(el("td", it.drive), el("td", five(it.sector)), el("td", it.text, "long"), el("td", it.written ? "written by this run" : "")); }
  box.textContent = "";
  box.append(table);
}

// Why a record goes no further, where the run does.
function recordEnds(s) {
  return engine.live || s.end || s.n < engine.last() ? "" : `The record ends here, with its first ${thousands(s.n)} steps; the run goes on, to ${view.about.end.line}. `;
}

// The line of what comes next, or of how the run has ended.
function nextLine(s, it) {
  if (s.end) return [s.end.line, s.end.about, s.end.said.join("; ")].filter(text => text).join("   ");
  if (s.ir === null) return "Next: not known here";
  const part = (name, o) => !o ? "" : o.bad ? `, ${name}: ${o.bad}` : `, ${name} ${five(o.at)}` + (o.immediate ? " (in the instruction)" : o.chain.length ? ` (found at ${o.chain.map(five).join(", then ")})` : "");
  const statement = view.statementAt.get(s.ir), cells = it.cells ? `${it.cells.slice(0, 2)} ${it.cells.slice(2, 7)} ${it.cells.slice(7)}` : "";
  return `Next: ${five(s.ir)}  ${cells}  ${it.long || it.bad}` + (it.device ? ", " + it.device : "") + part(it.branch !== undefined ? "goes to" : "P", it.p) + part("Q", it.q) +
    (it.tests !== undefined ? `, indicator ${String(it.tests).padStart(2, "0")}` : "") + (statement && view.lines[statement - 1] ? `   (statement ${statement}: ${view.lines[statement - 1].statement})` : "");
}

function drawConsole(s, it, at) {
  const about = view.about, over = s.end, [text, kind] = over ? STATES[over.kind] : view.playing ? ["RUNNING", "run"] : ["MANUAL", ""];
  $("lamp").textContent = over && over.kind === "CHECK" ? "CHECK " + over.line.split(" ")[1] : text;
  $("lamp").className = kind;
  const slider = $("slider");
  slider.min = $("with-loading").checked || s.n < 0 ? -about.loading : 0;
  slider.max = engine.last();
  slider.value = s.n;
  slider.setAttribute("aria-valuetext", "step " + s.n);
  if (document.activeElement !== $("count")) $("count").value = s.n;
  $("of").textContent = (s.n < 0 ? "the deck is loading itself; " : "") + `of ${thousands(about.end.n)}` + (about.loading ? `, the deck's ${about.loading} before 0` : "");
  const statement = view.statementAt.get(at);
  lamps.show(s, view.playing, it);
  lamps.tell(at, it, statement && view.lines[statement - 1] && view.lines[statement - 1].statement);
  $("next").textContent = nextLine(s, it);
  const acts = about.script.filter((line, i) => about.acts[i] === s.n).map(line => line.replace(/^AT \d+ /, "").replace(/^HALT /, "at the halt "));
  $("acts").textContent = acts.length ? "The operator, here: " + acts.join(", ") : "";
  const focused = document.activeElement;
  const ended = !engine.live && s.n >= engine.last() || over && !(over.kind === "HALT" && engine.live);
  $("step").disabled = !!ended;
  $("start").disabled = view.playing || !!ended;
  $("back").disabled = s.n <= -about.loading;
  $("stop").disabled = !view.playing;
  if (focused.disabled && machine.contains(focused)) machine.focus({ preventScroll: true });      // so that its keys go on
}

// A read from the keyboard writes the next line, if it is there already: as digits from P on, or as pairs from P - 1 on.
function withLine(it, s) {
  const keys = linesOf(view.about.keys), left = view.panel && view.panel.n === s.n ? view.panel.keysLeft : 0;
  if (it.device !== "keyboard" || !it.fields.p || !Number.isInteger(left) || !left) return it;
  const many = (it.op === 37 ? 2 : 1) * keys[keys.length - left].length, from = it.fields.p[0];
  return { ...it, fields: { ...it.fields, p: many ? [from, Math.min(s.core.length - 1, from + many - 1)] : undefined } };
}
function drawCore(s) {
  const at = shownAt(s), it = withLine(decode(s.core, at), s), [lit, note] = lookups(s);
  drawRows(s, it, lit, at);
  drawMap(s, it, at);
  drawTable(s, lit, note);
  return it;
}

// Draws the machine; `brief`, while it runs, leaves out what is long to draw.
function draw(brief) {
  const s = view.s;
  if (!s) return;
  drawConsole(s, drawCore(s), shownAt(s));
  drawFields(s);
  drawPaper(s);
  drawListing(false);
  if (!brief) { drawPunched(s); drawDisk(s); }
  if (!view.scriptEdited) $("script").value = view.about.script.join("\n");
  $("replay").textContent = view.about.command || "";
  document.title = `${s.n} - IBM 1620`;
}

function drawPanel(panel) {
  drawLamps(panel.lights);
  if (panel.cardsLeft === undefined) return;
  drawCards(view.s, panel);
  if (decode(view.s.core, shownAt(view.s)).device === "keyboard") drawCore(view.s);
  const keys = linesOf(view.about.keys), left = Array.isArray(panel.keysLeft) ? panel.keysLeft[1] : panel.keysLeft;
  $("keys-note").textContent = !keys.length ? "Nothing is typed ahead." : left === null ? "" : `${keys.length - left} of ${keys.length} typed lines were read` + (left ? `; the next one is ${JSON.stringify(keys[keys.length - left])}` : "");
}
