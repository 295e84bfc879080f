// The typewriter: a paper under a carriage that moves. What the program has typed is there, and in another colour what was keyed in.

const LINES_OF_PAPER = 400;     // that are kept of the paper

class Typewriter {
  constructor(box) {
    this.pace = 10;         // characters a second; 0: at once
    this.sound = null;      // an AudioContext, if the user wants to hear it
    this.still = matchMedia("(prefers-reduced-motion: reduce)");
    this.window = el("div", undefined, "window");
    this.window.tabIndex = 0;
    this.window.setAttribute("role", "log");
    this.window.dataset.wordLabel = "paper";
    this.sheet = el("div", undefined, "sheet");
    this.carriage = el("div", undefined, "carriage");
    this.carriage.append(el("i", undefined, "knob"), el("i", undefined, "platen"), el("i", undefined, "knob"));
    this.guide = el("div", undefined, "guide");
    this.probe = el("span", undefined, "probe");
    this.window.append(this.sheet, this.probe);
    box.append(this.window, this.carriage, this.guide);
    this.turn = 0;
    this.typing = Promise.resolve(true);
    this.clear();
  }
  // A new sheet; what was still to be typed is not.
  clear() {
    Object.assign(this, { text: "", length: 0, step: -Infinity, digits: [], keyed: [] });
    this.draw();
  }
  draw() {
    this.turn++;
    this.sheet.textContent = "";
    this.newLine();
    this.read(true);
  }
  newLine() {
    this.line = el("div", undefined, "line");
    this.sheet.append(this.line);
    this.column = 0;
    while (this.sheet.children.length > LINES_OF_PAPER) this.sheet.firstChild.remove();
  }
  // The paper is drawn up by a page.
  async feed() {
    const turn = ++this.turn;
    if (!this.still.matches && this.sheet.textContent) {
      this.window.classList.add("fed");
      this.noise(.25, 500, .05);
      await new Promise(done => setTimeout(done, 450));
      this.window.classList.remove("fed");
    }
    if (turn === this.turn) this.clear();
  }
  // While the machine stands still the whole line can be read; while it types the place of typing stays where it is.
  read(on) {
    this.reading = on;
    this.move();
  }
  // The carriage moves to the left as far as what is typed stays in sight; then the place of typing moves.
  move() {
    const still = this.reading || this.still.matches, size = this.probe.getBoundingClientRect().width / 10, wide = this.window.clientWidth;
    const at = parseFloat(getComputedStyle(this.sheet).paddingLeft) + size * this.column, inSight = Math.min(0, wide - at - 3 * size);
    const shift = still ? inSight : Math.max(wide * .38 - at, inSight);
    this.sheet.style.setProperty("--shift", `${this.reading ? 0 : shift}px`);
    this.carriage.style.setProperty("--shift", `${still ? 0 : (wide * .19 - at) / 4}px`);
    this.guide.style.left = `${at + shift}px`;
    this.guide.classList.toggle("reading", this.reading);
    this.window.scrollTop = this.window.scrollHeight;
  }
  put(c, isDigits) {
    if (c === "\n") { this.newLine(); return; }
    if (c === "\r") return;
    // A digit with a flag is typed as a letter: it has a bar over the digit, and the letter on touch.
    if (isDigits && isFlag(c)) {
      const digit = el("span", bare(c), "flag");
      digit.title = word("flagged", { digit: bare(c), letter: c });
      digit.onclick = () => digit.classList.toggle("asked");
      digit.dataset.letter = c;
      this.line.append(digit);
    } else this.line.append(c);
    this.column += c === "\t" ? 8 - this.column % 8 : 1;
  }
  // What was keyed in has a line of its own.
  putKeyed(line) {
    if (this.column) this.newLine();
    this.line.append(el("span", line, "keyed"));
    this.newLine();
    this.move();
  }
  // A line that is keyed in at a step: it is on the paper from the next step on.
  key(line, step) {
    this.keyed.push({ line, step, at: this.length });
    this.keyed = this.keyed.slice(-LINES_OF_PAPER);
  }
  keyedBy(step) {
    for (const it of this.keyed) if (it.at === this.length && it.step >= this.step && it.step < step) this.putKeyed(it.line);
    this.step = step;
  }
  // Types a text, after what is being typed. The answer is whether all of it was typed.
  type(text, isDigits) {
    if (isDigits) this.digits.push([this.length, this.length + text.length]);
    this.digits = this.digits.slice(-LINES_OF_PAPER);
    this.text = (this.text + text).slice(-80 * LINES_OF_PAPER);
    this.length += text.length;
    const before = this.typing, turn = this.turn;
    if (!this.pace) { this.putAll(text, isDigits); return before; }
    this.typing = (async () => { await before; return this.typeNow(text, isDigits, turn); })();
    return this.typing;
  }
  putAll(text, isDigits) {
    for (const c of text) this.put(c, isDigits);
    this.move();
  }
  async typeNow(text, isDigits, turn) {
    if (text && turn === this.turn) this.read(false);
    for (const c of text) {
      if (turn !== this.turn) return false;
      this.put(c, isDigits);
      this.move();
      if (c === "\n") this.noise(.12, 700, .06);
      else if (c === " ") this.noise(.02, 900, .03);
      else this.noise(.03, 2600, .09);
      await new Promise(done => setTimeout(done, 1000 / this.pace));
    }
    return turn === this.turn;
  }
  // The paper at a step, of which `text` is the end of all that was typed by then. What is new is typed, by the instructions in `pieces` if they are
  // known: a text and whether it is digits. A step back moves the paper back.
  showAt(text, length, step, pieces) {
    const more = length - this.length, old = more >= 0 ? text.slice(0, Math.max(0, text.length - more)) : "";
    const isPassed = this.keyed.some(it => it.step >= this.step && it.step < step && it.at > this.length);      // a line that was keyed in on the way
    if (more < 0 || step < this.step || more > text.length || !this.text.endsWith(old) || isPassed) { this.redraw(text, length, step); return; }
    this.keyedBy(step);
    const added = text.slice(text.length - more), known = pieces && pieces.map(([piece]) => piece).join("") === added;
    for (const [piece, isDigits] of known ? pieces : [[added, false]]) if (piece) this.type(piece, isDigits);
  }
  redraw(text, length, step) {
    const isBack = length <= this.length && this.text.includes(text), from = length - text.length;
    if (!isBack) this.digits = [];
    this.draw();
    if (from) this.put("\u22ee", false);
    const keyed = this.keyed.filter(it => it.step < step && it.at >= from);
    for (let i = 0; i <= text.length; i++) {
      while (keyed.length && keyed[0].at <= from + i) this.putKeyed(keyed.shift().line);
      if (i < text.length) this.put(text[i], this.digits.some(([begin, end]) => from + i >= begin && from + i < end));
    }
    Object.assign(this, { text, length, step });
    this.move();
  }
  // A short noise, softer at its end: a type bar, or the carriage.
  noise(seconds, tone, loud) {
    if (!this.sound) return;
    const context = this.sound, size = Math.ceil(context.sampleRate * seconds), buffer = context.createBuffer(1, size, context.sampleRate);
    const data = buffer.getChannelData(0), source = context.createBufferSource(), filter = context.createBiquadFilter(), gain = context.createGain();
    for (let i = 0; i < size; i++) data[i] = (2 * Math.random() - 1) * (1 - i / size) ** 2;
    source.buffer = buffer;
    filter.type = "bandpass";
    filter.frequency.value = tone * (.9 + .2 * Math.random());
    gain.gain.value = loud;
    source.connect(filter).connect(gain).connect(context.destination);
    source.start();
  }
  hear(on) {
    if (on && !this.sound) this.sound = new AudioContext();
    else if (!on && this.sound) { this.sound.close(); this.sound = null; }
  }
}
