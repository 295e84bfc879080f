"use strict";
// Cells and instructions, as they stand in the core that the program has shown. Nothing here makes a step.

const WITHOUT = "0123456789|@}", FLAGGED = "]JKLMNOPQR!*\"", VALUES = [0, 1, 2, 3, 4, 5, 6, 7, 8, 9, 10, 12, 15];
const CODES = [6, 7, 9, 11, 12, 14, 16, 17, 36, 37, 38];
const INDICATORS = { 6: "read chk", 7: "write chk", 9: "last card", 11: "high / +", 12: "equal / 0", 14: "overflow", 16: "parity even", 17: "parity odd",
  36: "disk addr", 37: "disk len", 38: "cylinder" };

// The lines of a table that stands in the page, behind its words: share/operations.txt or share/characters.txt.
function tableOf(id) {
  const lines = document.getElementById(id).textContent.split("\n");
  return lines.slice(lines.indexOf("", 1) + 1).filter(Boolean);
}

// The instructions by their opcodes: the name, the name in words, whether it is a branch, the operands, and the cells of core that it is about. And the
// declaratives.
const OPERATIONS = {}, DECLARATIVES = new Set();
(() => {
  let kind = "";
  for (const line of tableOf("operations")) {
    const [code, name, operands, cells, ...words] = line.split(/ +/);
    if (code === "--") DECLARATIVES.add(name);
    else if (!/^\d\d$/.test(code)) kind = line;
    else if (cells) OPERATIONS[Number(code)] = { name, long: words.join(" "), branches: kind === "branches", operands, cells };
  }
})();

const five = a => String(a).padStart(5, "0");
const isFlag = c => FLAGGED.includes(c);
const bare = c => isFlag(c) ? WITHOUT[FLAGGED.indexOf(c)] : c;
const valueOf = c => { const i = WITHOUT.indexOf(bare(c)); return i < 0 ? -1 : VALUES[i]; };

const BIT_NAMES = ["C", "F", "8", "4", "2", "1"];

// The bits of a good cell, C first: their count is odd.
function bitsOf(c) {
  const value = valueOf(c);
  if (value < 0) return null;
  const bits = [isFlag(c), value & 8, value & 4, value & 2, value & 1].map(Boolean);
  return [bits.filter(Boolean).length % 2 === 0, ...bits];
}

// Whether the instruction in these cells types digits, so that a letter on the paper is a digit with a flag.
const typesDigits = cells => /^3[58].{6}01/.test([...cells].map(bare).join(""));

// An address whose units digit stands at a cell, along its chain of indirect addresses.
function operand(core, at) {
  const chain = [];
  for (let i = 0; i < 100; i++) {
    if (at < 4 || at >= core.length) return { bad: "an address outside core" };
    let text = "";
    for (let j = at - 4; j <= at; j++) {
      const value = valueOf(core[j]);
      if (value < 0 || value > 9) return { bad: "no decimal digit in an address" };
      text += value;
    }
    const a = Number(text);
    if (a >= core.length) return { bad: "an address outside core", at: a };
    if (!isFlag(core[at])) return { at: a, chain };
    chain.push(a);
    at = a;
  }
  return { bad: "a chain of addresses that goes on" };
}

// A field from its units down to its flag, and a record up to its mark.
function downTo(core, units) {
  let a = units - 1;
  while (a > 0 && units - a < 400 && !isFlag(core[a])) a--;
  return [Math.max(a, 0), units];
}
function upTo(core, a, step) {
  let b = a;
  while (b < core.length - 1 && b - a < 4000 && bare(core[b]) !== "|") b += step;
  return [a, Math.min(b, core.length - 1)];
}

// The instruction at an address: its name, its operands, and the cells of core that they are about.
function decode(core, ir) {
  if (ir === null || ir === undefined) return { bad: "not known", fields: {} };
  if (ir % 2) return { bad: "an odd address", fields: {} };
  if (ir + 12 > core.length) return { bad: "outside core", fields: {} };
  const cells = core.slice(ir, ir + 12), d = [...cells].map(valueOf), op = d[0] * 10 + d[1], known = OPERATIONS[op];
  const it = { cells, op, name: known ? known.name : "?", long: known ? known.long : "no such instruction", fields: {} };
  if (!known) { it.bad = "no such instruction"; return it; }
  const device = d[8] * 10 + d[9];
  if (known.operands !== "none" && !(op === 34 && device === 1)) it.p = operand(core, ir + 6);
  if (known.operands.endsWith(",Q")) it.q = operand(core, ir + 11);
  else if (known.operands.endsWith(",imm")) it.q = { at: ir + 11, chain: [], immediate: true };
  if (op >= 34 && op <= 39) {
    it.device = { 1: "typewriter", 4: "card punch", 5: "card reader", 7: "disk" }[device] || "no device";
    if (device === 1 && (op === 36 || op === 37)) it.device = "keyboard";
  }
  if (op === 46 || op === 47) it.tests = device;
  if (known.branches && it.p) it.branch = it.p.at;
  if (!(it.p && it.p.bad) && !(it.q && it.q.bad)) it.fields = fieldsOf(core, op, device, it.p && it.p.at, it.q && it.q.at);
  return it;
}

function fieldsOf(core, op, device, p, q) {
  const n = core.length - 1, clip = (a, b) => [Math.max(0, a), Math.min(n, b)], f = {}, cells = OPERATIONS[op].cells;
  if (cells === "sum" || cells === "compare") { f.p = downTo(core, p); f.q = downTo(core, q); }
  else if (cells === "cell") { f.p = [p, p]; if (q !== undefined) f.q = [q, q]; }
  else if (cells === "field") { f.q = downTo(core, q); f.p = clip(p - (f.q[1] - f.q[0]), p); }
  else if (cells === "below") { f.q = downTo(core, q); f.p = clip(p - 1 - (f.q[1] - f.q[0]), p - 1); }
  else if (cells === "record") { f.q = upTo(core, q, 1); f.p = clip(p, p + f.q[1] - f.q[0]); }
  else if (cells === "tested") f.q = [q, q];
  else if (cells === "pairs") { f.q = downTo(core, q); f.p = clip(p - 2 * (f.q[1] - f.q[0] + 1) + 1, p); }
  else if ([34, 36, 38].includes(op) && device === 7) {
    f.p = clip(p, p + 13);
    const digits = [...core.slice(p + 6, p + 14)].map(valueOf).join(""), count = Number(digits.slice(0, 3)), from = Number(digits.slice(3));
    if (op !== 34 && count && from <= n) f.q = clip(from, from + 100 * count - 1);
  } else if (op === 38 && device === 1) f.p = upTo(core, p, 1);
  else if (op === 39 && device === 1) f.p = clip(p - 1, upTo(core, p, 2)[1]);
  else if ((op === 36 && device === 5) || (op === 38 && device === 4)) f.p = clip(p, p + 79);
  else if ((op === 37 && device === 5) || (op === 39 && device === 4)) f.p = clip(p - 1, p + 158);
  else if (op === 36) f.p = [p, p];
  else if (op === 37) f.p = clip(p - 1, p);
  else if (op === 35) f.p = [p, n];
  return f;
}

// The cells of the add table that a sum has looked up, worked out over core as it stood before. It is shown only where it agrees with what the machine
// has stored.
function lookedUp(before, after, ir) {
  const it = decode(before, ir);
  if (!it.fields.p || !/^(sum|compare)$/.test(OPERATIONS[it.op].cells)) return null;
  const p = it.p.at, q = it.q.at, core = [...before], compare = OPERATIONS[it.op].cells === "compare", cells = [];
  const minus = isFlag(core[p]) !== isFlag(core[q]), complement = it.op % 10 === 1 ? minus : !minus, length = it.fields.p[1] - it.fields.p[0] + 1;
  const store = (at, digit) => { core[at] = isFlag(core[at]) ? FLAGGED[digit] : WITHOUT[digit]; };
  const cycle = (x, y, c, turned) => {
    let sum = (turned ? 9 - y : y) + c, forced = false;
    if (sum === 10) { sum = 0; forced = true; }
    const at = 300 + 10 * x + sum;
    cells.push(at);
    return [valueOf(core[at]), isFlag(core[at]) || forced ? 1 : 0];
  };
  let carry = complement ? 1 : 0, over = false;
  for (let i = 0; i < length; i++) {
    const x = valueOf(core[p - i]);
    let y = 0;
    if (!over) { y = valueOf(core[q - i]); if (i && isFlag(core[q - i])) over = true; }
    if (x > 9 || y > 9 || x < 0 || y < 0) return null;
    const [digit, next] = cycle(x, y, carry, complement);
    carry = next;
    if (!compare) store(p - i, digit);
  }
  if (!compare && complement && !carry) {
    carry = 1;
    for (let i = 0; i < length; i++) {
      const [digit, next] = cycle(0, valueOf(core[p - i]), carry, true);
      carry = next;
      store(p - i, digit);
    }
    core[p] = isFlag(core[p]) ? bare(core[p]) : FLAGGED[WITHOUT.indexOf(core[p])];
  }
  return { cells, compare, agrees: core.join("") === after };
}
