"""The page in real browsers: what users do, and what has to be seen then."""

import io
import json
import os
import shutil
import statistics
import subprocess
import tempfile
import time
import zipfile
from pathlib import Path

import visiting
from browsers import Chromium, Firefox, Slip
from harness import EXAMPLES, LOOP, TOP, Console, call, is_left_clean, run_console


def read(*path):
    return EXAMPLES.joinpath(*path).read_text(encoding="latin-1")


def check_chromium(checks, shots):
    console = Console()
    try:
        for part in (steps, breakpoints, cards, dialogue, stops, sources, decks, read_marks, own_table, disk, long_runs, by_keyboard, looks, drawn_cards, two_pages,
                     safety):
            part_in(checks, console, part, shots)
    finally:
        checks.want("nothing is left of the console", is_left_clean(console), True)
    visiting.check(checks, CONTRAST, shots)
    records(checks, shots)
    long_record(checks)


def part_in(checks, console, part, shots):
    """A part of the checks, in a browser of its own. A browser that answers otherwise than it should fails the part, and the next one goes on."""
    browser = Chromium()
    try:
        browser.get(console.address)
        browser.at(0)
        part(checks, console, browser, shots or browser.folder)
        checks.want(f"{part.__name__}: the browser has nothing against the page",
                    [line for line in browser.complaints() if "the server responded with a status of" not in line], [])
    except Slip as why:
        checks.want(part.__name__, str(why), "no slip")
    finally:
        browser.close()


def steps(checks, _, b, shots):
    """Single steps, and what is typed."""
    b.example("first-source")
    checks.want("the next statement is marked", b.text("tr[aria-current=step]"), lambda text: "START CF" in text and "\u25B6" in text)
    for n in (1, 2):
        b.click("step")
        b.at(n)
    checks.want("42 is typed, and stands on the paper", (b.view("s.typed"), b.paper()), ("42", "42"))
    b.click("step")
    b.at(3)
    b.click("step")
    b.at(4)
    checks.want("at the halt the lights show the halt", (b.text("lamp"), b.text(".now"), b.text("next").startswith("HALT 00438 STEPS 4"), b.view("s.ir")),
                ("HALT", "00438  Hhalt", True, 450))
    b.click("back")
    b.at(3)
    checks.want("back", b.text("lamp"), "MANUAL")
    b.go(1)
    checks.want("a step back moves the paper back", b.paper(), "")
    b.click("first")
    b.at(0)
    b.click("first")
    b.at(-137)
    checks.want("the deck loads itself", "loading itself" in b.text("of"), True)
    b.js("document.getElementById('slider').value = 2; document.getElementById('slider').dispatchEvent(new Event('input'))")
    b.at(2)
    checks.want("the slider", b.view("s.typed"), "42")
    b.choose("count", "1000000")
    b.at(4)


def breakpoints(checks, _, b, shots):
    """Running at a pace, breakpoints, core, fields and add table."""
    b.example("programs/squares")
    b.choose("pace", "10")
    b.click("start")
    b.wait("s.n > 5")
    b.click("stop")
    b.wait("!view.playing && view.panel && view.panel.n === s.n")
    checks.want("it ran, and stands still", 5 < b.view("s.n") < 278, True)
    b.go(0)
    b.click("[aria-label='breakpoint at statement 5']")
    b.choose("pace", "0")
    for n in (1, 15):
        b.click("start")
        b.at(n)
    checks.want("at the breakpoint", (b.view("s.ir"), b.text("say")), (414, "breakpoint at statement 5, step 15"))
    b.choose("pace", "100")
    b.click("start")
    b.at(29)
    checks.want("and at a pace too", b.view("s.ir"), 414)
    b.go(1)
    checks.want("the cells of the add table that the sum looked up", b.js("return [...document.querySelectorAll('#addtable .lit')].map(c => c.title)"),
                ["00300", "00301"])
    b.shot(os.path.join(shots, "console.png"))
    b.go(129)
    checks.want("fields by their labels", b.js("return [...document.querySelectorAll('#fields tr')].slice(1).map(r => [...r.cells].map(c => c.textContent).join(' '))"),
                ["NUMBER 00583 10 10", "ODD 00585 19 19", "SQUARE 00588 100 100", "NUMOUT 00590 10 10", "SQOUT 00594 081 81"])
    b.go(1)
    b.choose("around", "p")
    checks.want("the instruction, its fields and what changed are marked",
                b.js("return ['.ir', '.fp', '.fq'].map(k => document.querySelectorAll('#rows ' + k).length > 0)"), [True, True, True])
    b.js("document.getElementById('map-all').click()")
    checks.want("all of core", b.text("map-note"), "00000 to 19999, 200 cells in a row")


def cards(checks, _, b, shots):
    """Payroll: the hopper, the punch, the last card, and a card more."""
    b.example("payroll")
    checks.want("two cards are in the hopper", b.text("hopper-title"), "Hopper: 2 of 41 cards left")
    b.go(14)
    checks.want("the last card is read", (b.view("view.panel.lights.on[9]"), b.text("hopper-title")), (True, "Hopper: 0 of 41 cards left"))
    b.shot(os.path.join(shots, "console-cards.png"))
    b.click("end")
    b.at(28)
    checks.want("typed and punched", (b.view("s.typed"), b.view("s.punched")),
                ("00020500\n", [card.ljust(80, "0") for card in ("0012300000010000", "0012400000010500")]))
    b.type("cardline", "00125010000000100\n")
    b.wait("s.n === 28 && !s.end && view.panel")
    checks.want("a card more changes the past, and the page says so", "changed what came before" in b.text("say"), True)


def dialogue(checks, _, b, shots):
    """A talk by the page alone; what is saved is replayed by the program."""
    text, typed = read("programs", "dialogue", "source.txt"), read("programs", "dialogue", "typed.txt")
    b.open("source", text)
    b.click("end")
    b.wait("s.end && s.end.kind === 'NEED KEYS'")
    checks.want("it waits for the keyboard, which has the focus", (b.text("lamp"), b.js("return document.activeElement.id")),
                ("KEYBOARD: TYPE A LINE", "keyline"))
    for name, halted in (("ada", "GOOD DAY, ADA\n"), ("grace hopper", "GOOD DAY, GRACE HOPPER\n")):
        b.type("keyline", name + "\n")
        b.wait("!s.end && view.panel")
        b.click("end")
        b.wait("s.end && s.end.kind === 'HALT'")
        checks.want("greeted", b.view("s.typed").endswith(halted), True)
        if name == "ada":
            b.click("start")
            b.wait("s.end && s.end.kind === 'NEED KEYS'")
    b.click("[data-key='1']")
    b.wait("s.switches['1'] && view.panel")
    checks.want("switch 1 is on", b.js("return document.querySelector(`[data-key='1']`).getAttribute('aria-checked')"), "true")
    b.click("start")
    b.wait("s.end && s.end.kind === 'HALT' && s.typed.includes('GOODBYE')")
    checks.want("the whole talk", b.view("s.typed"), typed)
    checks.want("the script is what the operator did", b.view("view.about.script"), ["HALT START", "HALT SWITCH 1 ON", "HALT START"])
    b.click("save")
    saved = Path(b.folder, "Downloads", "ibm1620-session.zip")
    until = time.monotonic() + 30
    while not saved.exists() and time.monotonic() < until:
        time.sleep(.1)
    with tempfile.TemporaryDirectory() as folder:
        zipfile.ZipFile(io.BytesIO(saved.read_bytes())).extractall(folder)
        done = call(*Path(folder, "replay.txt").read_text().split()[1:], folder=folder)
        checks.want("replayed by the program itself", (done.stdout.decode(), done.returncode), (typed + "HALT 00558 STEPS 24\n", 0))
    # A visitor who lets it run and types: the machine goes on by itself.
    b.open("source", text)
    b.choose("pace", "100")
    b.click("start")
    b.wait("s.end && s.end.kind === 'NEED KEYS'")
    b.type("keyline", "linus\n")
    b.wait("s.end && s.end.kind === 'HALT'")
    checks.want("it ran on behind the line", b.view("s.typed"), "WHO ARE YOU.\nGOOD DAY, LINUS\n")
    b.click("start")
    b.wait("s.end && s.end.kind === 'NEED KEYS' && view.about.script.length")
    b.click("tab-script")
    b.click("undo")
    b.wait("view.about.script.length === 0 && s.end && s.end.kind === 'HALT'")
    b.js("document.getElementById('script').value = 'AT 1 JUMP'; document.getElementById('script').dispatchEvent(new Event('input'))")
    b.click("use-script")
    b.wait("document.getElementById('say').className === 'bad'")
    checks.want("a line of the script that is none", (b.text("say"), b.view("view.about.script")), ("line 1 of the script is none: AT 1 JUMP", []))


def stops(checks, _, b, shots):
    """A check stop, and a bit that fails."""
    b.open("source", read("payroll", "source.txt"), "0012300|000001000\n")
    b.click("end")
    b.wait("s.end && view.panel")
    checks.want("check 3", (b.text("lamp"), "CHECK 03 00450 STEPS 5" in b.text("next"), "no decimal digit" in b.text("next")), ("CHECK 03", True, True))
    about = b.js("view.s.end.about = view.s.end.about || 'The check is about P.'; draw(); return view.s.end.about")
    checks.want("the part that the check is about stands in the line of what comes next", about in b.text("next"), True)
    checks.want("nothing starts it again", b.js("return ['start', 'step'].map(id => document.getElementById(id).disabled)"), [True, True])
    b.open("deck", read("one-card", "deck.txt"))
    b.go(1)
    b.js("document.getElementById('flip-at').value = 12")
    b.click("flip")
    b.wait("view.about.script.length === 1 && s.core[12] === '?' && view.panel")
    b.click("step")
    b.wait("s.end && s.n === 2 && view.panel")
    checks.want("a bit that fails: check 4, and indicator 16", (b.view("s.end.line"), b.view("view.panel.lights.on[16]"), b.view("view.about.script")),
                ("CHECK 04 00012 STEPS 2", True, ["AT 1 FLIP 12 0"]))


def sources(checks, _, b, shots):
    """A source that is refused, mended, and one of a file."""
    broken = read("broken-statement", "source.txt")
    b.js("open(arguments[0], 'test')", {"kind": "source", "text": broken, "data": "", "keys": "", "script": [], "pack": None, "core": 20000})
    b.wait("!document.getElementById('refusal').hidden")
    checks.want("the refusal", "REFUSED 00003 08 UndefinedSymbol ANSWR-1" in b.text("refusal"), True)
    checks.want("its part is selected", b.js("const t = document.getElementById('source'); return t.value.slice(t.selectionStart, t.selectionEnd)"),
                "ANSWR-1")
    checks.want("and the console keeps the run before", (b.view("view.name"), "still shows the run before" in b.text("say")), ("first-source", True))
    b.js("view.s = null; document.getElementById('source').value = arguments[0]", broken.replace("ANSWR", "ANSWER"))
    b.click("assemble")
    b.at(0)
    checks.want("mended and loaded", b.js("return document.getElementById('refusal').hidden"), True)
    b.js("view.s = null")
    b.type("file", str(EXAMPLES / "programs" / "reverse" / "source.txt"))
    b.at(0)
    checks.want("a file", (b.view("view.name"), b.view("view.about.kind"), b.view("view.about.text")),
                ("source.txt", "source", read("programs", "reverse", "source.txt")))
    latin = Path(b.folder, "latin.txt")
    latin.write_bytes(b"     CAF\xe9  H\n           DEND400\n")
    b.type("file", str(latin))
    b.wait("!document.getElementById('refusal').hidden")
    checks.want("a byte that is no UTF-8", "REFUSED 00001 01" in b.text("refusal"), True)


def decks(checks, _, b, shots):
    b.example("one-card")
    checks.want("core of a deck", b.view("s.core.slice(0, 42)"), "38000360010048000000000000000000000012345|")
    b.click("step")
    b.at(1)
    checks.want("typed", b.view("s.typed"), "12345")
    b.js("view.s = null")
    b.type("file", str(EXAMPLES / "add-two" / "deck.txt"))
    b.at(0)
    checks.want("a file is seen to be a deck", b.view("view.about.kind"), "deck")
    b.example("add-two with the tables")
    b.click("end")
    b.at(12)
    checks.want("the sum", (b.view("s.typed"), b.text("lamp")), ("0523\n", "HALT"))


def read_marks(checks, _, b, shots):
    """A read from the keyboard marks the cells that it will write."""
    b.open("source", "     START RATY501\n           RNTY600\n           H\n           DENDSTART\n", "", "ABC\n12\n")
    for n, wanted in ((0, [500, 505]), (1, [600, 601])):
        b.go(n)
        checks.want(f"what the read at step {n} will write", b.view("withLine(decode(s.core, s.ir), s).fields.p"), wanted)


def own_table(checks, _, b, shots):
    """A program that changes its add table: by examples/programs/table, 3 + 4 and 4 + 3 come to another digit."""
    b.example("programs/table")
    odd = "return [...document.querySelectorAll('#addtable .odd')].map(c => c.title.slice(0, 5))"
    for n in range(5, b.view("view.about.end.n")):
        b.go(n)
        if len(b.js(odd)) == 2:
            break
    checks.want("two cells are not standard", b.js(odd), ["00357", "00374"])


def disk(checks, _, b, shots):
    b.example("programs/records")
    b.click("end")
    b.wait("s.end && view.panel")
    checks.want("sectors", "written by this run" in b.text("disk"), True)


def long_runs(checks, _, b, shots):
    """Far steps, and the limit."""
    b.open("source", LOOP)
    for n in (1000, 100000):
        b.go(n)
        b.click("step")
        b.at(n + 1)
    checks.want("the sum behind 100,000 steps", b.view("s.core.includes('L3334')"), True)
    b.click("end")
    b.at(1000000)
    checks.want("the limit", b.text("lamp"), "LIMIT")


def by_keyboard(checks, _, b, shots):
    """Keys alone, names, and what is said to a screen reader."""
    b.example("first-source")
    checks.want("each control has a name", b.js("return [...document.querySelectorAll('button,input,select,textarea')].filter(e => e.offsetParent && !(e.textContent.trim() || "
                "e.getAttribute('aria-label') || e.title || e.labels && e.labels.length)).map(e => e.outerHTML)"), [])
    b.js("document.activeElement.blur()")
    b.tap("s")
    checks.want("no key acts where the machine has not the focus", b.view("s.n"), 0)
    b.js("document.getElementById('console').focus()")
    b.js("document.getElementById('letters').checked = false")
    b.tap("s")
    checks.want("no key acts if the user has turned them off", b.view("s.n"), 0)
    b.js("document.getElementById('letters').checked = true")
    b.tap("s")
    b.at(1)
    checks.want("the step is said",
                (b.text("live").startswith("step 1. Next: 00414"), b.js("return document.getElementById('live').getAttribute('aria-live')")), (True, "polite"))
    b.tap("s")
    b.at(2)
    checks.want("and what is typed", "typed: 42" in b.text("live"), True)
    b.tap("b")
    b.at(1)
    b.tap("1")
    b.wait("s.switches['1'] && view.panel")
    b.tap("l")
    checks.want("a breakpoint by l", b.view("[...view.stops]"), [3])
    b.tap("e")
    b.wait("s.end && view.panel")
    b.tap("home")
    b.at(0)
    b.js("document.getElementById('listing').focus()")
    b.tap("down", "enter")
    checks.want("a breakpoint by the arrow keys", b.view("[...view.stops]"), [])
    b.tap("k") if b.js("document.getElementById('console').focus()") is None else None
    checks.want("k goes to the keyboard", b.js("return document.activeElement.id"), "keyline")
    b.tap("s")
    checks.want("in a field a key is a letter", (b.js("return document.getElementById('keyline').value"), b.view("s.n")), ("s", 0))
    b.js("document.getElementById('tab-listing').focus()")
    b.tap("right", "enter")
    checks.want("the tabs", b.js("return document.activeElement.id"), "tab-source")
    reached = b.js("return [...document.querySelectorAll('button,input,select,textarea,[tabindex=\"0\"]')].filter(e => e.offsetParent && !e.disabled && e.tabIndex < 0 && !e.classList.contains('break') && e.getAttribute('role') !== 'tab').map(e => e.id)")
    checks.want("each control is reached by Tab", reached, [])
    checks.want("breakpoints are large enough, and each table has a name",
                (b.js("return [...document.querySelectorAll('.break')].filter(e => e.offsetParent && (e.offsetWidth < 24 || e.offsetHeight < 24)).length"),
                 b.js("return [...document.querySelectorAll('table')].filter(e => !e.getAttribute('aria-label')).length")), (0, 0))


CONTRAST = """
const light = c => { const v = c.map(x => x / 255).map(x => x <= .03928 ? x / 12.92 : ((x + .055) / 1.055) ** 2.4); return .2126 * v[0] + .7152 * v[1] + .0722 * v[2]; };
const rgb = text => { const m = text.match(/[\\d.]+/g).map(Number); return text.startsWith('color(srgb') ? [m[0] * 255, m[1] * 255, m[2] * 255, m[3] === undefined ? 1 : m[3]] : [m[0], m[1], m[2], m[3] === undefined ? 1 : m[3]]; };
const behind = e => { let made = [255, 255, 255], all = []; for (; e; e = e.parentElement) all.unshift(rgb(getComputedStyle(e).backgroundColor)); for (const c of all) made = made.map((v, i) => v + (c[i] - v) * c[3]); return made; };
const low = [];
for (const e of document.querySelectorAll('body *')) {
  if (!e.offsetParent || e.disabled || !([...e.childNodes].some(n => n.nodeType === 3 && n.textContent.trim()))) continue;
  const style = getComputedStyle(e), a = light(rgb(style.color)), b = light(behind(e)), ratio = (Math.max(a, b) + .05) / (Math.min(a, b) + .05);
  if (ratio < 4.5) low.push([e.id || e.className || e.tagName, ratio.toFixed(2), style.color, e.textContent.slice(0, 20)].join(' '));
}
return [...new Set(low)];
"""


def looks(checks, console, _, shots):
    """Light and dark, a small window, a projector: nothing stands out to the right, and letters are seen on what is behind them."""
    for what, width, height, dark, large, name in (("light", 1400, 1500, False, False, None), ("dark", 1400, 1500, True, False, "console-dark.png"),
                                                   ("a small window", 420, 2200, False, False, None), ("a projector", 1920, 1080, False, True, None)):
        b = Chromium(width, height, dark, reduced=True)
        try:
            b.get(console.address)
            b.at(0)
            b.example("payroll")
            b.go(6)
            if large:
                b.click("large")
            b.js("document.querySelector('#source').focus()")
            checks.want(f"{what}: nothing stands out to the right",
                        b.js("return document.documentElement.scrollWidth <= document.documentElement.clientWidth + 1"), True)
            checks.want(f"{what}: contrast", b.js(CONTRAST), [])
            checks.want(f"{what}: nothing moves by itself where that is not wanted",
                        b.js("return [...document.querySelectorAll('.glass, .sheet, .bat')].every(e => getComputedStyle(e).transitionDuration === '0s')"), True)
            checks.want(f"{what}: dark is dark", b.js("return matchMedia('(prefers-color-scheme: dark)').matches"), dark)
            if name:
                b.shot(os.path.join(shots, name))
        finally:
            b.close()


def drawn_cards(checks, _, b, shots):
    """A card is drawn as bin/cards draws it."""
    for text in (read("one-card", "deck.txt").rstrip("\n"), "AJS/1-+]!|}\"@*=.$,)(  Z9R<&>?", "0123456789ABCDEFGHI]JKLMNOPQR/STUVWXYZ", ""):
        done = subprocess.run([TOP / "bin" / "cards", "--svg", "-"], input=text + "\n", capture_output=True, text=True, check=False)
        checks.want(f"the card {text[:20]!r}", b.js("return cardPicture(arguments[0])", text), done.stdout)


def two_pages(checks, console, b, shots):
    """Two pages at once have a machine each; a run that the server has dropped is sent again."""
    b.example("payroll")
    first, second = b.window()
    b.switch(second)
    b.get(console.address)
    b.at(0)
    b.example("programs/squares")
    b.go(100)
    b.switch(first)
    b.go(5)
    b.click("[data-key='2']")
    b.wait("s.switches['2'] && view.panel")
    b.switch(second)
    b.go(101)
    checks.want("the second page", b.view("[s.n, s.switches['2']]"), [101, False])
    b.switch(first)
    for number in range(45):
        console.ask("inputs", {"kind": "source", "text": LOOP.replace("5,1", f"5,{number + 2}"), "limit": 100})
    b.go(6)
    checks.want("the first page, whose run was dropped", b.view("[s.n, s.switches['2']]"), [6, True])


def safety(checks, console, b, shots):
    """What another page can do: nothing. And a console that has ended is told."""
    other = Path(b.folder, "other.html")
    other.write_text("<p>another page</p>")
    b.get("file://" + str(other))
    ask = "const done = arguments[arguments.length - 1]; fetch(arguments[0], arguments[1]).then(r => r.text().then(t => done([r.type, r.status, t.length])), e => done('refused'))"
    for what, options in (("a GET", {}), ("a GET that is not read", {"mode": "no-cors"}), ("a form", {"method": "POST", "mode": "no-cors", "body": "{}"}),
                          ("JSON", {"method": "POST", "headers": {"Content-Type": "application/json"}, "body": "{}"})):
        checks.want(f"another page: {what}", b.execute_async(ask, console.address + "api/examples", options),
                    lambda found: found == "refused" or found[0] == "opaque" and found[2] == 0)
    b.get(console.address)
    b.at(0)
    checks.want("a script of elsewhere does not run in the page",
                b.js("const s = document.createElement('script'); s.textContent = 'window.hit = 1'; document.body.append(s); return window.hit || 0"), 0)
    ended = Console()
    b.get(ended.address)
    b.at(0)
    ended.end()
    os.rmdir(ended.temporary)
    b.click("step")
    b.wait("document.getElementById('say').className === 'bad'")
    checks.want("the console has ended", "does not answer: start" in b.text("say"), True)
    b.complaints()


def records(checks, shots):
    """Records, opened from the disk."""
    with tempfile.TemporaryDirectory() as folder:
        for name, typed, end in (("programs/dialogue", read("programs", "dialogue", "typed.txt"), "HALT 00558 STEPS 24"),
                                 ("one-card", "12345", "HALT 00012 STEPS 2")):
            words = [word for part in ("source", "deck", "data", "keys", "script",
                                       "pack") if (EXAMPLES / name / (part + ".txt")).exists() for word in ("--" + part, EXAMPLES / name / (part + ".txt"))]
            run_console(*words, "--record", Path(folder, "record.html"))
            b = Chromium()
            try:
                b.get("file://" + folder + "/record.html")
                b.at(0)
                b.click("end")
                b.wait("s.end && view.panel")
                checks.want(f"a record of {name}", (b.view("s.typed"), b.view("s.end.line"), "needs no server" in b.text("recorded")), (typed, end, True))
                b.click("back")
                b.wait("!s.end && view.panel")
                b.click("first")
                b.at(0)
                b.choose("pace", "100")
                b.click("start")
                b.wait("s.end && !view.playing")
                checks.want("it runs at a pace", b.view("s.typed"), typed)
                checks.want("its keys are hidden",
                            b.js("return ['keyform', 'flip', 'save'].map(id => document.getElementById(id).offsetParent === null)"), [True, True, True])
                b.tap("1")
                checks.want("the browser has nothing against it", b.complaints(), [])
            except Slip as why:
                checks.want(f"a record of {name}", str(why), "no slip")
            finally:
                b.close()


def long_record(checks):
    """A record that ends before its run: breakpoints at its last place, why it ends there, and what About says."""
    with tempfile.TemporaryDirectory() as folder:
        source, out = Path(folder, "loop.txt"), Path(folder, "record.html")
        source.write_text(LOOP)
        run_console("--source", source, "--record", out, seconds=600)
        b = Chromium()
        try:
            b.get("file://" + str(out))
            b.at(0)
            last = b.js("return engine.last()")
            b.choose("pace", "0")
            b.go(last)
            checks.want("the last place of a cut record has its instruction, and the page says why the record ends",
                        (last, "?" in b.js("return document.querySelector('.now').textContent"), b.text("say").startswith("The record ends here")), (10000, False, True))
            number = b.js("return view.statementAt.get(view.s.ir)")
            b.go(0)
            b.js(f"toggleStop({number})")
            for _ in range(2):
                before = b.view("s.n")
                b.click("start")
                b.wait(f"s.n > {before} && !view.playing && view.panel")
                checks.want("a breakpoint of a long record", b.js("return view.statementAt.get(view.s.ir)"), number)
            b.go(last - 1)
            b.click("start")
            b.at(last)
            checks.want("a breakpoint at its last place", b.text("say").startswith(f"breakpoint at statement {number}"), True)
            checks.want("About", b.text("about"), lambda text: "The run ends by LIMIT" in text and "Replay: ibm1620 run" in text)
        except Slip as why:
            checks.want("a long record", str(why), "no slip")
        finally:
            b.close()


def check_firefox(checks):
    """The page, and a record, in Firefox."""
    console = Console()
    b = Firefox()
    try:
        b.get(console.address)
        b.at(0)
        for n in (1, 2):
            b.click("step")
            b.at(n)
        checks.want("Firefox: typed", b.view("s.typed"), "42")
        b.example("programs/dialogue")
        b.choose("pace", "10")
        b.click("start")
        b.wait("s.end && !view.playing")
        checks.want("Firefox: the dialogue runs", (b.view("s.typed"), b.view("s.end.line")),
                    (read("programs", "dialogue", "typed.txt"), "HALT 00558 STEPS 24"))
        b.open("source", read("payroll", "source.txt"), read("payroll", "data.txt"))
        b.go(14)
        checks.want("Firefox: the last card", (b.view("view.panel.lights.on[9]"), b.text("hopper-title")), (True, "Hopper: 0 of 41 cards left"))
        b.click("[data-key='1']")
        b.wait("s.switches['1'] && view.panel")
        b.type("cardline", "123\n")
        b.wait("view.about.data.endsWith('123\\n') && view.panel")
        checks.want("Firefox: contrast", b.js(CONTRAST), [])
        checks.want("Firefox: nothing stands out to the right",
                    b.js("return document.documentElement.scrollWidth <= document.documentElement.clientWidth + 1"), True)
        with tempfile.TemporaryDirectory() as folder:
            run_console("--source", EXAMPLES / "payroll" / "source.txt", "--data", EXAMPLES / "payroll" / "data.txt", "--record",
                        Path(folder, "record.html"))
            b.get("file://" + folder + "/record.html")
            b.at(0)
            b.click("end")
            b.wait("s.end && view.panel")
            checks.want("Firefox: a record", (b.view("s.typed"), b.view("s.end.line")), ("00020500\n", "HALT 00582 STEPS 28"))
    except Slip as why:
        checks.want("Firefox", str(why), "no slip")
    finally:
        b.close()
        checks.want("Firefox: nothing is left of the console", is_left_clean(console), True)
