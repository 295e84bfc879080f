// What the page shows now: the step, the machine there, and its lights.

const view = { n: 0, s: null, panel: null, about: null, name: "", stops: new Set(), statementAt: new Map(), addressOf: new Map(), lines: [], fields: [],
  playing: false, resume: false, asked: 0, history: [], page: "", cells: 0, scriptEdited: false };
let engine;
window.view = view;     // for whoever looks at the page from outside, as its tests do

const $ = id => document.getElementById(id);
const el = (tag, text, kind) => {
  const made = document.createElement(tag);
  if (text !== undefined) made.textContent = text;
  if (kind) made.className = kind;
  return made;
};
const classes = (...names) => names.filter(Boolean).join(" ");
const thousands = n => n.toLocaleString("en");

function say(text, bad) {
  $("say").textContent = text;
  $("say").classList.toggle("bad", !!bad);
}

// Does work that may fail; a failure is said, and comes to nothing.
async function guard(work) {
  try { return await work(); }
  catch (error) { stopPlaying(); say(error.message, true); return undefined; }
}

// The instruction that the lights show: the next one, but at a halt the halt itself, and where the machine stopped or waits the one that it is at.
function shownAt(s) { return s.end && s.end.kind === "HALT" ? s.end.at : s.ir; }
