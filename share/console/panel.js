// The panel: two rows of registers with a lamp for each bit, the lamps of the states and the indicators, and the switches. Only what this machine has.

const SVG = "http://www.w3.org/2000/svg";
const PITCH = 38, GAP = 24, ROW_WIDE = 3 * 16 + 12 * PITCH + 2 * GAP;       // from digit to digit, from register to register, and of a row of them
const ROWS_OF_LAMPS = [[["ir", "IR-1", 5], ["ir2", "IR-2", 5]], [["op", "OP", 2], ["p", "P", 5], ["q", "Q", 5]]];
const STATE_LAMPS = [["automatic", "AUTOMATIC"], ["manual", "MANUAL"], ["check", "CHECK STOP"], ["reader", "READER NO FEED"]];
const INDICATOR_LAMPS = [[11, "HIGH POS"], [12, "EQUAL ZERO"], [14, "OVERFLOW"], [16, "PARITY EVEN"], [17, "PARITY ODD"], [6, "READ CHECK"], [7, "WRITE CHECK"], [9, "LAST CARD"]];
const SWITCHES = [["1", "1"], ["2", "2"], ["3", "3"], ["4", "4"]], CHECK_SWITCHES = [["overflow", "OVERFLOW"], ["io", "I/O"]];

const svg = (name, attributes) => {
  const made = document.createElementNS(SVG, name);
  for (const [key, value] of Object.entries(attributes)) made.setAttribute(key, value);
  return made;
};

// A register: a column of lamps for each digit, the names of the bits on the left, and the digit below, as a help for the reader.
class Register {
  constructor(name, size, from) {
    this.name = name;
    this.wide = 16 + PITCH * size;
    this.picture = svg("g", { transform: `translate(${from} 0)`, role: "img" });
    const texts = [[name, { x: 0, y: 12, class: "title" }], ...BIT_NAMES.map((bit, i) => [bit, { x: 7, y: 35 + 20 * i, class: "bit" }])];
    for (const [text, attributes] of texts) { const made = svg("text", attributes); made.textContent = text; this.picture.append(made); }
    this.digits = [...Array(size).keys()].map(place => {
      const x = 16 + PITCH * (place + .5);
      const lamps = BIT_NAMES.map((bit, i) => svg("circle", { cx: x, cy: 31 + 20 * i, r: 8.2, class: "glass" })), digit = svg("text", { x, y: 162, class: "digit" }), bar = svg("rect", { x: x - 6, y: 147, width: 12, height: 2, class: "bar" });
      this.picture.append(...lamps, digit, bar);
      return { lamps, digit, bar, shown: null };
    });
  }
  show(chars) {
    [...chars].forEach((c, i) => {
      const at = this.digits[i], on = bitsOf(c);
      if (at.shown === c) return;
      at.shown = c;
      at.lamps.forEach((lamp, bit) => lamp.classList.toggle("on", !!(on && on[bit])));
      at.digit.textContent = c === "?" ? "?" : bare(c);
      at.bar.classList.toggle("on", isFlag(c));
    });
    this.picture.setAttribute("aria-label", word("bitsOf", { name: this.name, digits: [...chars].map(c => c === "?" ? word("unknown") : bare(c) + (isFlag(c) ? " F" : "")).join(" ") }));
  }
}

// The bits of one digit in a row, each with its name in its lamp.
function bitRow(name, bits) {
  const row = el("div", undefined, "bits"), picture = svg("svg", { viewBox: "0 0 150 24", role: "img" });
  BIT_NAMES.forEach((bit, i) => {
    const x = 13 + 25 * i, text = svg("text", { x, y: 16.5, class: classes("in", bits[i] && "on") });
    text.textContent = bit;
    picture.append(svg("circle", { cx: x, cy: 12, r: 10.5, class: classes("glass", bits[i] && "on") }), text);
  });
  picture.setAttribute("aria-label", word("bitsOf", { name, digits: BIT_NAMES.filter((bit, i) => bits[i]).join(" ") || "0" }));
  row.append(el("span", name), picture);
  return row;
}

// How the machine stands: automatic while it runs or waits for a line, else manual; `check` and `reader` say why it stopped.
function stateOf(s, playing) {
  if (playing) return "automatic";
  return { CHECK: "check", JAM: "check", "NEED CARDS": "reader", "NEED KEYS": "automatic" }[s.end && s.end.kind] || "manual";
}

class Panel {
  // `turned` is told which switch is to be turned, and whether on; `more` are indicators besides those that each panel has.
  constructor(box, turned, more = []) {
    this.registers = {};
    this.lamps = {};
    this.switches = {};
    this.indicators = [...INDICATOR_LAMPS, ...more];
    this.now = el("p", undefined, "now");
    box.append(this.rows(), this.now, this.panes(STATE_LAMPS, "states"), this.panes(this.indicators, "indicators"), this.toggles(turned));
  }
  rows() {
    const rows = el("div", undefined, "rows");
    for (const row of ROWS_OF_LAMPS) {
      const line = el("div", undefined, "registers"), picture = svg("svg", { viewBox: `0 0 ${ROW_WIDE} 166`, preserveAspectRatio: "xMinYMid meet" });
      let from = 0;
      for (const [key, name, size] of row) {
        const it = this.registers[key] = new Register(name, size, from);
        picture.append(it.picture);
        from += it.wide + GAP;
      }
      line.append(picture);
      rows.append(line);
    }
    return rows;
  }
  panes(list, kind) {
    const line = el("div", undefined, "panes " + kind);
    for (const [key, name] of list) line.append(this.lamps[key] = el("span", name, "pane"));
    return line;
  }
  toggles(turned) {
    const switches = el("div", undefined, "toggles");
    for (const [list, kind] of [[SWITCHES, "switches"], [CHECK_SWITCHES, "checks"]]) {
      const group = el("fieldset", undefined, "live"), legend = el("legend");
      legend.dataset.word = kind;
      group.append(legend);
      for (const [key, name] of list) group.append(this.switches[key] = this.toggle(key, name, kind, turned));
      switches.append(group);
    }
    return switches;
  }
  toggle(key, name, kind, turned) {
    const button = el("button", undefined, "toggle"), isCheck = kind === "checks";
    button.type = "button";
    button.dataset.key = key;
    button.setAttribute("role", "switch");
    button.setAttribute("aria-checked", "false");
    button.append(el("span", isCheck ? "STOP" : "ON", "up"), el("span", undefined, "bat"), el("span", isCheck ? "PROGRAM" : "OFF", "down"), el("b", name));
    button.onclick = () => turned(key, button.getAttribute("aria-checked") !== "true");
    return button;
  }
  light(key, on) {
    const lamp = this.lamps[key];
    lamp.classList.toggle("on", !!on);
    lamp.classList.toggle("unknown", on === undefined);
    lamp.setAttribute("aria-label", `${lamp.textContent}: ${on === undefined ? word("unknown") : on ? "on" : "off"}`);
  }
  // The machine at a step, of which `it` is the instruction that the lights show.
  show(s, playing, it) {
    const cells = it.cells || "????????????", state = stateOf(s, playing);
    this.registers.ir.show(s.ir === null ? "?????" : five(s.ir));
    this.registers.op.show(cells.slice(0, 2));
    this.registers.p.show(cells.slice(2, 7));
    this.registers.q.show(cells.slice(7, 12));
    for (const [key] of STATE_LAMPS) this.light(key, key === state || key === "manual" && (state === "check" || state === "reader"));
    for (const [key, button] of Object.entries(this.switches)) button.setAttribute("aria-checked", !!s.switches[key]);
  }
  // The line of the instruction: its statement, if there is one, and what it does.
  tell(at, it, statement) {
    this.now.textContent = "";
    if (it.name && it.name !== "?") this.now.append(`${five(at)}  ${statement || it.name}`, el("span", entry("operations", it.op) || it.long));
    else this.now.append(el("span", word("nowNone")));
  }
  showLights(lights) {
    for (const [code] of this.indicators) this.light(code, lights.on[code]);
    this.registers.ir2.show(lights.ir2 === null || lights.ir2 === undefined ? "?????" : five(lights.ir2));
  }
}

// The line of the operator's script that turns a switch.
const turnOf = (key, on) => key.length === 1 ? `SWITCH ${key} ${on ? "ON" : "OFF"}` : `${key.toUpperCase()} ${on ? "STOP" : "PROGRAM"}`;
