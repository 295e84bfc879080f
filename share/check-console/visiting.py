"""The exhibit in a browser: what visitors do, what stands there for them, and what becomes of it when they go."""

import os
import signal
import socket
import tempfile
from pathlib import Path

from browsers import Chromium, Firefox, Slip
from connections import started
from harness import Console, is_left_clean

SIZES = (("a laptop", 1366, 768), ("a hall", 1920, 1080), ("a phone", 390, 844))
ENDS = "!visit.playing && s && s.end && s.end.kind === '{}'"
SMALL = """return [...document.querySelectorAll('button, input')].filter(e => e.offsetParent).map(e => [e.id || e.textContent, e.getBoundingClientRect()])
    .filter(([name, box]) => box.width < 44 || box.height < 44).map(([name]) => name)"""
SEEN = """return ['say', 'panel', 'paper', 'keyline', 'start', 'release', 'reset'].filter(id => { const box = document.getElementById(id).getBoundingClientRect();
    return !(box.height > 0 && box.top >= 0 && box.left >= 0 && box.bottom <= innerHeight && box.right <= innerWidth); })"""

LAMPS = "return Math.min(...[...document.querySelectorAll('.registers circle')].map(e => e.getBoundingClientRect().width)) > 9"


def check(checks, contrast, shots):
    console = Console("--exhibit", "--idle", "300", "--pace", "200")
    try:
        for what, width, height in SIZES:
            in_size(checks, console, what, width, height, shots)
        for what, dark in (("light", False), ("dark", True)):
            looks(checks, console, what, dark, contrast)
        guided(checks, console)
    finally:
        checks.want("nothing is left of the exhibit", is_left_clean(console), True)
    goes_away(checks)
    comes_back(checks, Chromium)


def check_firefox(checks):
    """The first guided minute in the other browser."""
    console = Console("--exhibit", "--pace", "200")
    b = Firefox(1366, 900)
    try:
        b.get(console.address)
        b.wait("s && visit.mode === 'attract'")
        b.click("attract")
        begin(b, "guides", 0, "dialogue")
        checks.want("Firefox: the lamps can be seen", b.js(LAMPS), True)
        b.click("start")
        b.wait(ENDS.format("NEED KEYS"))
        b.type("keyline", "ada")
        b.click("release")
        b.wait(ENDS.format("HALT"))
        checks.want("Firefox: what stands on the paper", b.paper(), "WHO ARE YOU.\nADA\nGOOD DAY, ADA")
    except Slip as why:
        checks.want("the exhibit in Firefox", str(why), "no slip")
    finally:
        b.close()
        checks.want("nothing is left of the exhibit", is_left_clean(console), True)
    comes_back(checks, Firefox)


def browser_at(console, width=1366, height=768, dark=False):
    b = Chromium(width, height, dark, reduced=True)
    b.ask("POST", b.session + "/goog/cdp/execute", {"cmd": "Emulation.setDeviceMetricsOverride",
                                                    "params": {"width": width, "height": height, "deviceScaleFactor": 1, "mobile": width < 500}})
    b.get(console.address)
    b.wait("s && visit.mode === 'attract'")
    b.js("settings.steps = 500")
    return b


def in_size(checks, console, what, width, height, shots):
    b = browser_at(console, width, height)
    try:
        b.click("attract")
        b.wait("document.getElementById('chooser').open")
        checks.want(f"{what}: what is touched in the list is large enough", b.js(SMALL), [])
        b.js("document.querySelector('#guides .card').click()")
        b.wait("s.n === 0 && visit.guide")
        checks.want(f"{what}: panel, typewriter and keys stand in one screen", b.js(SEEN), [])
        checks.want(f"{what}: what is touched is large enough, and so are the lamps", (b.js(SMALL), b.js(LAMPS)), ([], True))
        checks.want(f"{what}: nothing stands out to the right", b.js("return document.documentElement.scrollWidth <= innerWidth"), True)
        if shots:
            b.click("start")
            b.wait(ENDS.format("NEED KEYS"))
            b.type("keyline", "ada")
            b.shot(os.path.join(shots, f"exhibit-{width}.png"))
    except Slip as why:
        checks.want(what, str(why), "no slip")
    finally:
        b.close()


def looks(checks, console, what, dark, contrast):
    b = browser_at(console, dark=dark)
    try:
        b.click("attract")
        b.js("document.getElementById('chooser').close()")
        b.wait("s.n === 0 && !visit.failed && !visit.playing")
        checks.want(f"the exhibit, {what}: nothing moves by itself where that is not wanted",
                    b.js("return [...document.querySelectorAll('.glass, .sheet, #attract strong')].every(e => getComputedStyle(e).transitionDuration === '0s' && getComputedStyle(e).animationName === 'none')"), True)
        checks.want(f"the exhibit, {what}: contrast", b.js(contrast), [])
    except Slip as why:
        checks.want(what, str(why), "no slip")
    finally:
        b.close()


def guided(checks, console):
    """The three guided minutes, the end of a program, and a visitor who goes away."""
    b = browser_at(console)
    try:
        b.click("attract")
        name(checks, b)
        bit(checks, b)
        table(checks, b)
        begin(b, "list", 1, "squares")
        b.click("start")
        b.wait(ENDS.format("HALT"))
        checks.want("at the end of the program", (b.text("say"), b.js("return document.getElementById('sie').disabled")), ("The program has done its work. START runs it again; Programs has other ones.", True))
        b.click("start")
        b.wait("visit.playing && s.n > 0 && s.n < 278")
        checks.want("START begins it again, and runs not into data", b.view("view.about.script"), [])
        b.click("stop")
        b.js("typewriter.clear(); typewriter.type('1K]', true)")
        b.wait("document.querySelectorAll('.flag').length === 2")
        checks.want("a flag is a bar over the digit, and the letter is told", b.js("return [...document.querySelectorAll('.flag')].map(e => [e.textContent, e.title])"),
                    [["2", "flagged 2; as a letter: K"], ["0", "flagged 0; as a letter: ]"]])
        begin(b, "list", 3, "zones")
        checks.want("three cards are in the reader", (b.text("reader-count"), b.js("return document.querySelector('#hopper img').alt.slice(0, 27)")),
                    ("Card reader: 3 left", "the next card: ADA LOVELACE"))
        b.click("start")
        b.wait(ENDS.format("HALT"))
        checks.want("a program with cards", (b.text("reader-count"), b.js("return document.querySelectorAll('#hopper img').length"), b.paper().split("\n")[-1]),
                    ("Card reader: 0 left", 0, "KONRAD ZUSE         000070"))
        checks.want("the browser has nothing against the exhibit", b.complaints(), [])
    except Slip as why:
        checks.want("the guided minutes", str(why), "no slip")
    finally:
        b.close()


def goes_away(checks):
    """A visitor who goes away in another language."""
    console = Console("--exhibit", "--idle", "5")
    b = browser_at(console)
    try:
        b.click("attract")
        b.js("document.getElementById('chooser').close()")
        b.click("#languages button")
        checks.want("another language", (b.js("return document.documentElement.lang"), b.text("programs")), ("de", "Programme"))
        b.wait("visit.mode === 'attract'")
        checks.want("after a visitor has gone it begins again, in the first language", b.js("return document.documentElement.lang"), "en")
    except Slip as why:
        checks.want("a visitor who goes away", str(why), "no slip")
    finally:
        b.close()
        checks.want("nothing is left of the exhibit", is_left_clean(console), True)


def comes_back(checks, browser):
    """The file of --address opens the page, and the page finds the next console."""
    with tempfile.TemporaryDirectory() as folder, tempfile.TemporaryDirectory() as temporary:
        path = Path(folder, "at.html")
        with socket.socket() as free:
            free.bind(("127.0.0.1", 0))
            port = str(free.getsockname()[1])
        console = started(path, temporary, "--exhibit", "--port", port)
        b = browser(1366, 768)
        try:
            b.get("file://" + str(path))
            b.wait("s && visit.mode === 'attract'")
            checks.want(f"{browser.__name__}: the file of the address opens the page", b.js("return location.port"), port)
            checks.want("the address is in no list of processes", [line for line in command_lines() if console.token.encode() in line], [])
            b.click("attract")
            b.js("document.getElementById('chooser').close()")
            console.end(signal.SIGKILL)
            b.js("document.getElementById('reset').click()")
            b.wait("visit.isGone")
            checks.want("the console has ended", b.text("say").startswith("The exhibit is out of order"), True)
            console = started(path, temporary, "--exhibit", "--port", port)
            b.wait("s && visit.mode === 'attract' && !visit.isGone")
            checks.want(f"{browser.__name__}: the page finds the next console", b.text("say").startswith("A computer of 1959"), True)
        except Slip as why:
            checks.want("a console that comes back", str(why), "no slip")
        finally:
            b.close()
            checks.want("nothing is left of it", console.end()[1], [])


def command_lines():
    """The command lines of all processes, as everybody sees them."""
    for path in Path("/proc").glob("[0-9]*/cmdline"):
        try:
            yield path.read_bytes()
        except OSError:
            pass


def begin(b, kind, number, program):
    b.js("if (!document.getElementById('chooser').open) document.getElementById('programs').click()")
    b.js(f"document.querySelectorAll('#{kind} .card')[{number}].click()")
    b.wait(f"s.n === 0 && !s.end && visit.name === 'programs/{program}' && !document.getElementById('start').disabled")


def name(checks, b):
    begin(b, "guides", 0, "dialogue")
    b.click("start")
    b.wait(ENDS.format("NEED KEYS"))
    checks.want("the keyboard has the focus", b.js("return document.activeElement.id"), "keyline")
    b.type("keyline", "J\u00fcrgen \u00c9.")
    b.click("release")
    b.wait(ENDS.format("HALT"))
    checks.want("the guide goes on", b.text("say").startswith("3 of 4"), True)
    b.click(".toggle")
    b.wait("s.switches['1']")
    b.click("start")
    b.wait(ENDS.format("HALT") + " && s.typed.includes('GOODBYE')")
    checks.want("what stands on the paper is what was typed", b.paper(),
                "WHO ARE YOU.\nJUERGEN E.\nGOOD DAY, JUERGEN E.\nGOODBYE, JUERGEN E.")


def bit(checks, b):
    begin(b, "guides", 1, "squares")
    b.click("#more .chip")
    b.wait("visit.guideState.bits && s.core[407] === '?'")
    b.click("start")
    b.wait(ENDS.format("CHECK"))
    b.wait("document.querySelector('[aria-label=\"PARITY ODD: on\"]')")
    checks.want("a bit has failed, and the machine stops",
                (b.text("say").startswith("3 of 3"), b.view("s.end.line"), b.js("return document.querySelectorAll('[aria-label=\"CHECK STOP: on\"]').length")), (True, "CHECK 04 00402 STEPS 1", 1))
    b.click("reset")
    b.wait("s.n === 0 && !s.end && s.core[407] !== '?'")


def table(checks, b):
    begin(b, "guides", 2, "twos")
    b.click("start")
    b.wait(ENDS.format("HALT"))
    b.js("document.querySelectorAll('.chips .chip')[7].click()")
    b.wait("visit.guideState.changed === 'set' && s.core[322] === '7'")
    b.click("start")
    b.wait(ENDS.format("HALT") + " && visit.guideState.changed === 'run'")
    checks.want("2 + 2 is what the table has", b.paper(), "2 + 2 = 4\n2 + 2 = 7")
