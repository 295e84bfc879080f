// Where the machine at a step comes from: the server, which asks the program, or the record in this page. Both have the same calls.

class ServerEngine {
  constructor() { this.live = true; this.about = null; }
  async fetch(path, options) {
    let reply;
    try { reply = await fetch("api/" + path, options); }
    catch (error) { throw new Error("the console's server does not answer: start the console again, and go on here if it has the same file for --address; else open the address that it prints"); }
    if (reply.ok) return reply;
    const error = new Error((await reply.json().catch(() => ({}))).error || reply.statusText);
    error.status = reply.status;
    throw error;
  }
  async get(path) { return (await this.fetch(path)).json(); }
  async post(path, body) { return (await this.fetch(path, { method: "POST", headers: { "Content-Type": "application/json" }, body: JSON.stringify(body) })).json(); }
  // A run that the server has dropped is sent again.
  async again(work) {
    try { return await work(); }
    catch (error) {
      if (error.status !== 410 || !this.about) throw error;
      await this.inputs(this.about);
      return work();
    }
  }
  async inputs(about) {
    const { kind, text, data, keys, script, pack, core, limit } = about;
    this.about = await this.post("inputs", { kind, text, data, keys, script, pack, core, limit });
    return this.about;
  }
  async act(n, action, line) {
    this.about = await this.again(() => this.post("act", { id: this.about.id, n, action, line }));
    return this.about;
  }
  last() { return this.about.end.n; }
  state(n) { return this.again(() => this.get(`state?id=${this.about.id}&n=${n}`)); }
  panel(n, part = "all") { return this.again(() => this.get(`panel?id=${this.about.id}&n=${n}&part=${part}`)); }
  frames(n, count) { return this.again(() => this.get(`frames?id=${this.about.id}&n=${n}&count=${count}`)); }
  stop(n, stops) { return this.again(() => this.get(`stop?id=${this.about.id}&n=${n}&stops=${[...stops].join(",")}`)); }
  saved() { return this.again(async () => (await this.fetch(`save?id=${this.about.id}`)).blob()); }
  examples() { return this.get("examples"); }
  example(name) { return this.get("example?name=" + encodeURIComponent(name)); }
}

class RecordEngine {
  constructor(record) {
    this.live = false;
    this.record = record;
    this.about = record.about;
    const core = [...record.core.replace(/~(.)(\d+);/gs, (all, c, count) => c.repeat(count))];
    let typed = "";
    // Core and typed text before each 500th step.
    this.marks = [{ core: core.join(""), typed }];
    record.frames.forEach((frame, i) => {
      this.apply(core, frame);
      typed += frame[2] || "";
      if ((i + 1) % 500 === 0) this.marks.push({ core: core.join(""), typed });
    });
    this.lit = Object.keys(record.lights).map(Number).sort((a, b) => a - b);
  }
  *cells(frame) { for (let i = 0; i < frame[1].length; i += 2) for (let j = 0; j < frame[1][i + 1].length; j++) yield [frame[1][i] + j, frame[1][i + 1][j]]; }
  apply(core, frame) { for (const [at, c] of this.cells(frame)) core[at] = c; }
  clamp(n) { return Math.max(this.record.first, Math.min(this.record.last, n)); }
  last() { return this.record.last; }
  lightsAt(n) {
    let low = 0, high = this.lit.length;
    while (low < high) { const middle = (low + high) >> 1; if (this.lit[middle] <= n) low = middle + 1; else high = middle; }
    const it = low ? this.record.lights[this.lit[low - 1]] : null, arms = this.armsAt(n);
    if (!it) return { on: {}, ir2: null, arms, why: "not known here" };
    return { on: Object.fromEntries(CODES.map((code, i) => [code, !!(it[0] >> i & 1)])), ir2: it[1], arms, why: "" };
  }
  armsAt(n) { let found = [null, null, null, null]; for (const [at, ...arms] of this.record.arms) if (at <= n) found = arms; return found; }
  async state(n) {
    n = this.clamp(n);
    const { first, last, frames, outs, sectors } = this.record, at = n - first, mark = Math.floor(at / 500), core = [...this.marks[mark].core];
    let typed = this.marks[mark].typed, changed = [];
    for (let i = mark * 500; i < at; i++) {
      if (i === at - 1) changed = [...this.cells(frames[i])].map(([a]) => [a, core[a]]);
      this.apply(core, frames[i]);
      typed += frames[i][2] || "";
    }
    const end = this.about.end, over = n >= end.n, next = frames[at], row = this.row(n);
    return { id: this.about.id, n, ir: next ? next[0] : this.record.ir, was: at ? frames[at - 1][0] : null,
      core: core.join(""), changed, typed, typedLength: typed.length, punched: outs.punched.slice(0, row[3]), punchedCount: row[3], end: over ? end : null,
      sectors: n === last ? sectors : [], used: this.about.acts.filter(a => a !== null && a <= n).length, switches: switchesOf(this.about, n) };
  }
  row(n) { let row = [n, null, 0, 0]; for (const it of this.record.outs.rows) if (it[0] <= n) row = it; return row; }
  async panel(n) { n = this.clamp(n); const row = this.row(n); return { n, lights: this.lightsAt(n), cardsLeft: row[1], keysLeft: row[2] }; }
  async frames(n, count) {
    n = this.clamp(n);
    const at = n - this.record.first, state = await this.state(n);
    return { n, core: state.core, frames: this.record.frames.slice(at, at + count).map(frame => ({ ir: frame[0], cells: [...this.cells(frame)], typed: frame[2] || "" })) };
  }
  async stop(n, stops) {
    const places = new Set([...stops].map(s => view.addressOf.get(s))), { first, last, frames, ir } = this.record;
    for (let i = n - first + 1; i <= frames.length; i++) {
      const at = i < frames.length ? frames[i][0] : ir;
      if (places.has(at)) return { n: i + first, statement: view.statementAt.get(at) };
    }
    return { n: last, statement: null };
  }
}

function switchesOf(about, n) {
  const found = { 1: false, 2: false, 3: false, 4: false, overflow: false, io: false };
  about.script.forEach((line, i) => {
    const at = about.acts[i], turned = line.match(/SWITCH (\d) (ON|OFF)$/), check = line.match(/(OVERFLOW|IO) (STOP|PROGRAM)$/);
    if (at === null || at > n) return;
    if (turned) found[turned[1]] = turned[2] === "ON";
    if (check) found[check[1].toLowerCase()] = check[2] === "STOP";
  });
  return found;
}
