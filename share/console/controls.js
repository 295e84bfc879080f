// The controls, and the beginning.

const byHandTo = n => { byHand(); return go(n); };
$("first").onclick = () => byHandTo($("with-loading").checked || view.n <= 0 ? -view.about.loading : 0);
$("back").onclick = () => byHandTo(view.n - 1);
$("step").onclick = step;
$("start").onclick = start;
$("stop").onclick = halt;
$("end").onclick = () => byHandTo(engine.last());
$("load").onclick = () => press("LOAD");
$("count").onchange = () => {
  if ($("count").value === "") $("count").value = view.n;
  else byHandTo(Math.trunc(Number($("count").value)));
};
$("pace").onchange = () => { if (view.playing) { stopPlaying(); start(); } };
$("with-loading").onchange = () => draw(true);
$("typing").onchange = () => { typewriter.pace = Number($("typing").value); };
$("sound").onclick = () => { typewriter.hear(!typewriter.sound); $("sound").setAttribute("aria-pressed", !!typewriter.sound); };
let sliding = null;
$("slider").oninput = () => {
  byHand();
  const n = Number($("slider").value);
  $("count").value = n;
  clearTimeout(sliding);
  sliding = setTimeout(() => go(n, true), 40);
};

for (const [form, field, action, word] of [["keyform", "keyline", "KEYS", line => "typed: " + line], ["cardform", "cardline", "CARD", () => "a card more in the hopper"]]) $(form).onsubmit = event => {
  event.preventDefault();
  const line = $(field).value.toUpperCase();
  $(field).value = "";
  press(action, line, word(line));
};
$("flip").onclick = () => {
  const text = $("flip-at").value, at = Number(text), most = view.about.core - 1;
  if (text !== "" && Number.isInteger(at) && at >= 0 && at <= most) { press(`FLIP ${at} ${$("flip-bit").value}`); return; }
  say(`Which cell? Its address is a number from 0 to ${most}; a click into the picture of core names one too.`, true);
  $("flip-at").focus();
};
$("around").onchange = $("map-all").onchange = () => draw(true);
$("at").oninput = () => { $("around").value = "at"; draw(true); };
$("map").onclick = event => {
  const box = $("map").getBoundingClientRect(), size = box.width / view.columns, a = view.columns * Math.floor((event.clientY - box.top) / size) + Math.floor((event.clientX - box.left) / size);
  if (a >= view.s.core.length) return;
  $("at").value = $("flip-at").value = a;
  $("around").value = "at";
  draw(true);
};
$("listing").onkeydown = event => {
  if (!view.rows || view.about.kind === "deck" || !["ArrowUp", "ArrowDown", "Enter", " "].includes(event.key) || event.target !== $("listing")) return;
  event.preventDefault();
  event.stopPropagation();
  if (event.key.startsWith("Arrow")) moveCursor(event.key === "ArrowDown");
  else if (view.cursor) toggleStop(view.cursor);
};

for (const button of $("tabs").children) button.onclick = () => tab(button.dataset.tab);
$("tabs").onkeydown = event => {
  const all = [...$("tabs").children], at = all.indexOf(document.activeElement), by = { ArrowRight: 1, ArrowLeft: -1 }[event.key];
  if (at < 0 || !by) return;
  const button = all[(at + by + all.length) % all.length];
  tab(button.dataset.tab);
  button.focus();
};
function reassemble() {
  const { data = "", keys = "", script = [], pack = null } = view.about || {}, limit = Math.trunc(Number($("limit").value)) || 1000000;
  open({ kind: $("kind").value, text: $("source").value, data, keys, script, pack, core: Number($("size").value), limit: Math.max(1, Math.min(100000000, limit)), about: view.page }, view.name);
}
$("assemble").onclick = reassemble;
$("source").onkeydown = event => { if (event.key === "Enter" && event.ctrlKey) { event.preventDefault(); reassemble(); } };
$("kind").onchange = () => { $("ruler").hidden = $("kind").value === "deck"; };

$("script").oninput = () => { view.scriptEdited = true; };
async function withInputs(inputs, n) {
  const old = view.about, made = await guard(() => engine.inputs(inputs));
  if (!made) { engine.about = old; return false; }
  view.about = made;
  view.scriptEdited = false;
  typewriter.keyed = typewriter.keyed.filter(it => it.step < n);
  await go(n);
  return true;
}
async function withScript(script) {
  const old = view.about, n = view.n;
  remember(n);
  if (!await withInputs(Object.assign({}, old, { script }), n)) view.history.pop();
}
$("use-script").onclick = () => withScript($("script").value.split("\n").filter(Boolean));
$("cut-script").onclick = () => withScript(view.about.script.slice(0, view.s.used));
$("undo").onclick = async () => {
  const was = view.history.pop();
  if (was) await withInputs(Object.assign({}, view.about, was), was.n);
  else say("no key was pressed on this page");
};

$("save").onclick = () => guard(async () => {
  const link = el("a");
  link.href = URL.createObjectURL(await engine.saved());
  link.download = "ibm1620-session.zip";
  link.click();
  setTimeout(() => URL.revokeObjectURL(link.href), 10000);
  say("saved as ibm1620-session.zip; in its folder, " + view.about.command + " replays it");
});
// A file's bytes as a text: a byte that is no UTF-8 stands for itself, and comes back as that byte.
function textOf(bytes) {
  try { return new TextDecoder("utf-8", { fatal: true, ignoreBOM: true }).decode(bytes); }
  catch (error) { return [...bytes].map(b => String.fromCharCode(b < 128 ? b : 0xdc00 + b)).join(""); }
}
$("open").onclick = () => $("file").click();
$("file").onchange = () => guard(async () => {
  const file = $("file").files[0];
  if (!file) return;
  if (file.size > 4000000) throw new Error(`${file.name} has ${thousands(file.size)} bytes; a source has at most 4,000,000`);
  const text = textOf(new Uint8Array(await file.arrayBuffer())), isDeck = /^[0-9\]J-R|!}"@*]{12}/.test(text);
  $("file").value = "";
  await open({ kind: isDeck ? "deck" : "source", text, data: "", keys: "", script: [], pack: null, core: 20000 }, file.name);
});
$("large").onclick = () => $("large").setAttribute("aria-pressed", document.documentElement.classList.toggle("large"));
$("keys").onclick = () => { $("help").hidden = !$("help").hidden; $("keys").setAttribute("aria-expanded", !$("help").hidden); };
async function openExample(name) {
  const found = await guard(() => engine.example(name));
  if (found) await open(found, name);
}
$("examples").onchange = () => { if ($("examples").value) openExample($("examples").value); };

// Keys of one letter act in the machine's part of the page alone, while it has the focus, and not if the user has turned them off.
const machine = $("console");
machine.addEventListener("keydown", event => {
  const target = event.target;
  if (/^(INPUT|TEXTAREA|SELECT)$/.test(target.tagName) && target.id !== "slider" || event.ctrlKey || event.altKey || event.metaKey || !view.s || !$("letters").checked) return;
  if (event.key === " " && /^(BUTTON|SUMMARY)$/.test(target.tagName)) return;
  const todo = { s: step, b: () => byHandTo(view.n - 1), e: () => $("end").click(), Home: () => $("first").click(), " ": () => view.playing ? halt() : start(), k: () => $("keyline").focus(),
    l: () => { const number = view.statementAt.get(view.s.ir); if (number) toggleStop(number); } }[event.key];
  if (todo) { event.preventDefault(); todo(); }
  else if (/^[1-4]$/.test(event.key) && engine.live) { event.preventDefault(); press(`SWITCH ${event.key} ${view.s.switches[event.key] ? "OFF" : "ON"}`); }
});
matchMedia("(prefers-color-scheme: dark)").addEventListener("change", () => { colours.kept = null; draw(); });

async function beginRecord(record) {
  document.documentElement.classList.add("record");
  engine = new RecordEngine(record);
  view.about = engine.about;
  for (const part of document.querySelectorAll(".live")) for (const control of part.matches("button,input,select") ? [part] : part.querySelectorAll("button,input,select")) control.disabled = true;
  $("recorded").hidden = false;
  $("recorded").textContent = `A record of ${thousands(record.last)} steps: it can be looked at step by step, and needs no server.`;
  $("source").readOnly = $("script").readOnly = true;
  $("about").textContent = aboutRun(view.about);
  showInputs();
  newListing();
  tab("listing");
  machine.focus({ preventScroll: true });
  await go(Math.min(0, engine.last()));
}
async function begin() {
  drawWords();
  const record = $("record").textContent.trim();
  if (record) { await beginRecord(JSON.parse(record)); return; }
  engine = new ServerEngine();
  tab("listing");
  machine.focus({ preventScroll: true });
  const list = await guard(() => engine.examples());
  if (!list) return;
  for (const name of list.names) { const option = el("option", name); option.value = name; $("examples").append(option); }
  if (list.first) await open(list.first, "");
  else if (list.names.length) {
    const name = list.names.includes("first-source") ? "first-source" : list.names[0];
    $("examples").value = name;
    await openExample(name);
  }
}
begin();
