// The listing with its breakpoints, and the fields that have a label.

const LINES_MOST = 1500;

function newListing() {
  view.statementAt.clear();
  view.addressOf.clear();
  view.lines = [];
  const listing = view.about.listing || [];
  // Where nobody numbered pages and lines, their five columns are left out.
  const unnumbered = listing.every(line => line.slice(25, 30).trim() === "");
  for (const line of listing) {
    const found = line.match(/^(\d+) (\d{5,}|     ) /);
    if (!found) { view.lines.push({ text: line }); continue; }
    const number = Number(found[1]), rest = line.slice(found[0].length + 13), operation = rest.slice(11, 15).trim(), instruction = found[2].trim() !== "" && !DECLARATIVES.has(operation);
    if (instruction) { view.statementAt.set(Number(found[2]), number); view.addressOf.set(number, Number(found[2])); }
    view.lines.push({ number, instruction, text: unnumbered && found[0].length === 12 ? line.slice(0, 25) + line.slice(30) : line, statement: rest.trim().replace(/ +/g, " ") });
  }
  $("stop-note").hidden = view.about.kind === "deck";
  view.shown = null;
  newFields();
  drawListing(true);
}

function drawDeck() {
  const box = $("listing");
  box.textContent = "";
  box.append(el("p", "A deck has no statements: these are its cards. The Load key reads the first one into 00000 to 00079, column 1 into 00000.", "note pad"));
  view.about.deck.slice(0, 20).forEach((text, i) => {
    const card = el("div", undefined, "card pad");
    card.append(el("div", `card ${i + 1}`, "note"), cardImage(text, `card ${i + 1}`));
    box.append(card);
  });
  $("listing-note").textContent = view.about.deck.length > 20 ? `The first 20 of ${view.about.deck.length} cards.` : "";
}

function breakButton(number) {
  const button = el("button", undefined, "break");
  button.type = "button";
  button.tabIndex = -1;
  button.setAttribute("aria-label", `breakpoint at statement ${number}`);
  button.onclick = () => toggleStop(number);
  markStop(button, number);
  return button;
}
function markStop(button, number) {
  button.textContent = view.stops.has(number) ? "\u25CF" : "\u25CB";
  button.setAttribute("aria-pressed", view.stops.has(number));
}

function drawListing(anew) {
  const box = $("listing"), s = view.s, lines = view.lines;
  if (view.about && view.about.kind === "deck") { if (anew) drawDeck(); return; }
  const here = s ? view.statementAt.get(shownAt(s)) : undefined;
  let from = 0, to = lines.length;
  if (lines.length > LINES_MOST) {
    const middle = here ? here - 1 : 0;
    if (!anew && view.shown && middle >= view.shown[0] + 50 && middle < view.shown[1] - 50) [from, to] = view.shown;
    else { from = Math.max(0, Math.min(middle - LINES_MOST / 2, lines.length - LINES_MOST)); to = from + LINES_MOST; }
  }
  if (anew || !view.shown || view.shown[0] !== from || view.shown[1] !== to) {
    const table = el("table");
    table.setAttribute("aria-label", "statements of the listing");
    view.rows = new Map();
    for (const line of lines.slice(from, to)) {
      const row = table.insertRow(), mark = row.insertCell();
      if (line.instruction) mark.append(breakButton(line.number));
      row.insertCell();
      row.insertCell().textContent = line.text;
      if (line.number) view.rows.set(line.number, row);
    }
    box.textContent = "";
    box.append(table);
    view.shown = [from, to];
    view.hereRow = null;
    $("listing-note").textContent = lines.length > LINES_MOST ? `Statements ${from + 1} to ${to} of ${lines.length} are shown, around the next one.` : "";
  }
  if (view.hereRow) { view.hereRow.classList.remove("here"); view.hereRow.removeAttribute("aria-current"); view.hereRow.cells[1].textContent = ""; }
  const row = view.hereRow = here !== undefined && view.rows.get(here) || null;
  if (!row) return;
  row.classList.add("here");
  row.setAttribute("aria-current", "step");
  row.cells[1].textContent = s.end ? "\u25A0" : "\u25B6";
  const top = row.offsetTop;
  if (top < box.scrollTop + 20 || top > box.scrollTop + box.clientHeight - 60) box.scrollTop = top - box.clientHeight / 2;
}

function toggleStop(number) {
  if (!view.addressOf.has(number)) return;
  const set = !view.stops.delete(number);
  if (set) view.stops.add(number);
  const row = view.rows.get(number);
  if (row) markStop(row.querySelector(".break"), number);
  say(`breakpoint at statement ${number} ${set ? "set" : "cleared"}`);
}

// Along the listing by the arrow keys.
function moveCursor(down) {
  const all = [...view.rows.keys()].filter(number => view.addressOf.has(number));
  if (!all.length) return;
  const at = all.indexOf(view.cursor || view.statementAt.get(view.s.ir)), next = all[Math.max(0, Math.min(all.length - 1, at + (down ? 1 : -1)))];
  for (const row of view.rows.values()) row.classList.remove("cursor");
  view.cursor = next;
  const row = view.rows.get(next);
  row.classList.add("cursor");
  row.scrollIntoView({ block: "nearest" });
  $("live").textContent = `statement ${next}: ${row.cells[2].textContent}` + (view.stops.has(next) ? ", breakpoint" : "");
}

// What stands in the fields that have a label: as digits with their flags, and as a number or a text.
const PAIRS = Object.fromEntries(tableOf("characters").map(line => [line.slice(1).trim().split(/ +/)[2], line[0]]));
const FIELDS = new Set(["DS", "DSS", "DSC", "DC", "DSA", "DSB", "DAS", "DAC"]);

function newFields() {
  view.fields = [];
  for (const line of view.about.listing || []) {
    const found = line.match(/^(\d+) (\d{5,}) /);
    if (!found) continue;
    const rest = line.slice(found[0].length + 13), label = rest.slice(5, 11).trim(), operation = rest.slice(11, 15).trim(), first = rest.slice(15).split(",")[0].trim(), a = Number(found[2]);
    const length = operation === "DSA" ? 5 : /^\d+$/.test(first) ? Number(first) : 0, isText = operation === "DAS" || operation === "DAC", isRecord = operation === "DSS" || operation === "DSC";
    if (!label || !FIELDS.has(operation) || !length) continue;
    const range = isText ? [a - 1, a - 2 + 2 * length] : isRecord ? [a, a + length - 1] : [a - length + 1, a];
    if (range[0] >= 0 && range[1] < view.about.core) view.fields.push({ label, address: a, range, isText, isNumber: !isText && !isRecord });
  }
  $("fields-box").hidden = !view.fields.length;
}

function meaning(field, cells) {
  if (field.isText) {
    let text = "";
    for (let i = 0; i + 1 < cells.length && valueOf(cells[i + 1]) !== 10; i += 2) text += PAIRS[bare(cells[i]) + bare(cells[i + 1])] || "?";
    return "\u201C" + text + "\u201D";
  }
  if (!field.isNumber || [...cells].some(c => valueOf(c) < 0 || valueOf(c) > 9)) return "";
  return (isFlag(cells[cells.length - 1]) ? "-" : "") + [...cells].map(bare).join("").replace(/^0+(?=.)/, "");
}

function drawFields(s) {
  const box = $("fields");
  if (!view.fields.length) return;
  box.textContent = "";
  const changed = new Set(s.changed.map(c => c[0])), head = box.insertRow();
  for (const text of ["label", "address", "digits", "is"]) head.append(el("th", text));
  for (const field of view.fields.slice(0, 40)) {
    const row = box.insertRow(), cells = s.core.slice(field.range[0], field.range[1] + 1), digits = el("td", undefined, "long");
    for (let i = 0; i < Math.min(cells.length, 60); i++) digits.append(el("span", bare(cells[i]), classes(isFlag(cells[i]) && "f", changed.has(field.range[0] + i) && "ch")));
    if (cells.length > 60) digits.append(" ..");
    row.append(el("td", field.label), el("td", five(field.address)), digits, el("td", meaning(field, cells)));
  }
}
