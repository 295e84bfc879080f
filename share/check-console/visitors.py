"""Visitors for some time: they type, walk away, and press everything. After each of them the exhibit has to begin again by itself, without an error of
the page, and neither the console nor the page may grow."""

import os
import random
import time
from pathlib import Path

from browsers import Chromium, Slip
from harness import Console, is_left_clean

IDLE, PATIENCE = 6, 400     # seconds: until the exhibit begins again, and until that counts as a failure: a long run is waited for up to 300
GROWTH_MOST = 30            # MB that the console, and the page, may have more in the last third of the time than in the first
ODD_LINES = ("ada lovelace", "J\u00fcrgen \u00c9.", "", " ", "!!!!", "071969", "999999", "X" * 200, "1+1=2?", "\u4f60\u597d", "<b>&amp;</b>")
TOUCHED = """return [...document.querySelectorAll('button, input')].filter(e => e.offsetParent && !e.disabled
    && (!document.getElementById('chooser').open || document.getElementById('chooser').contains(e)))"""


def choose(b, chance):
    """A visitor touches the screen, and chooses."""
    b.click("attract")
    b.wait("document.getElementById('chooser').open", seconds=PATIENCE)
    b.js(f"const all = [...document.querySelectorAll('.card')]; all[{chance.randrange(1000)} % all.length].click()")
    b.wait("s && s.n === 0 && !s.end", seconds=PATIENCE)


def types(b, chance):
    """Starts a program, and answers it three times if it asks."""
    choose(b, chance)
    b.js("document.getElementById('start').click()")
    for _ in range(3):
        until = time.monotonic() + 10
        while time.monotonic() < until and not b.view("s && s.end && !visit.playing"):
            time.sleep(.1)
        if not b.view("s && s.end && s.end.kind === 'NEED KEYS'"):
            return
        b.js("document.getElementById('keyline').value = arguments[0]; document.getElementById('release').click()", chance.choice(ODD_LINES))


def walks_away(b, chance):
    """Starts a program, and goes."""
    choose(b, chance)
    b.js("document.getElementById('start').click()")


def presses_everything(b, chance):
    """Presses whatever can be pressed, for some ten seconds."""
    choose(b, chance)
    for _ in range(80):
        b.js(TOUCHED.replace("return ", "const all = ") + f"; const one = all[{chance.randrange(1000)} % all.length]; if (!one) return; "
             "one.dispatchEvent(new PointerEvent('pointerdown', { bubbles: true, pointerType: arguments[0] })); one.click(); "
             "if (one.id === 'keyline') one.value = arguments[1]", chance.choice(("touch", "mouse")), chance.choice(ODD_LINES))
        time.sleep(chance.uniform(0, .2))


def megabytes(pid):
    """The memory that a process has in use."""
    return int(next(line for line in Path(f"/proc/{pid}/status").read_text().splitlines() if line.startswith("VmRSS")).split()[1]) / 1024


def heap(b):
    """The memory of the page, after it has been tidied."""
    b.ask("POST", b.session + "/goog/cdp/execute", {"cmd": "HeapProfiler.collectGarbage", "params": {}})
    found = b.ask("POST", b.session + "/goog/cdp/execute", {"cmd": "Performance.getMetrics", "params": {}})["metrics"]
    return next(metric["value"] for metric in found if metric["name"] == "JSHeapUsedSize") / 1e6


def check(checks, minutes, seed=1):
    chance, console = random.Random(seed), Console("--exhibit", "--idle", str(IDLE), "--pace", "60")
    b = Chromium(1366, 768)
    rows, failures = [], []
    try:
        b.ask("POST", b.session + "/goog/cdp/execute", {"cmd": "Performance.enable", "params": {}})
        b.get(console.address)
        b.wait("settings.programs.length")
        b.js("settings.steps = 100")        # a second, so that more visitors come
        until = time.monotonic() + 60 * minutes
        while time.monotonic() < until:
            b.wait("s && visit.mode === 'attract'", seconds=PATIENCE)
            visitor = chance.choice((types, walks_away, presses_everything))
            try:
                visitor(b, chance)
                b.wait("visit.mode === 'attract' && s && !visit.failed && !document.getElementById('chooser').open", "a new beginning", PATIENCE)
            except Slip as why:
                failures.append(f"{visitor.__name__}, visitor {len(rows)}: {why}")
                b.get(console.address)
                b.wait("settings.programs.length")
                b.js("settings.steps = 100")
            failures += b.complaints()
            rows.append((megabytes(console.child.pid), heap(b), sum(len(files) for _, _, files in os.walk(console.temporary))))
    except Slip as why:
        failures.append(str(why))
    finally:
        b.close()
        checks.want("nothing is left after the visitors", is_left_clean(console), True)
    checks.want("after each visitor the exhibit begins again, without an error of the page", failures, [])
    tell(checks, rows, minutes)


def tell(checks, rows, minutes):
    """The figures, and whether they are bounded."""
    third = max(1, len(rows) // 3)
    for what, column in (("console", 0), ("page", 1)):
        found = [row[column] for row in rows]
        first, last = max(found[:third]), max(found[-third:])
        print(f"console: {len(rows)} visitors in {minutes} minutes; the {what} has at most {first:.0f} MB in the first third and {last:.0f} MB in the last")
        checks.want(f"the {what} does not grow", last - first < GROWTH_MOST, True)
    print(f"console: at most {max(row[2] for row in rows)} files in its folder")
