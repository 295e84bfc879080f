"""Figures of the console, measured in Chromium: its times, sizes and memory."""

import re
import statistics
import tempfile
import time
from pathlib import Path

from browsers import Chromium
from harness import LOOP, Console, run_console

CLICKS = """
const [begin, many, done] = arguments, times = [];
(async () => {
  for (let n = begin + 1; n <= begin + many; n++) {
    const clicked = performance.now();
    document.getElementById('step').click();
    await new Promise(drawn => { const look = () => view.s && view.s.n === n ? requestAnimationFrame(() => drawn()) : setTimeout(look, 1); look(); });
    times.push(performance.now() - clicked);
    await new Promise(ready => { const look = () => view.panel && view.panel.n === n ? setTimeout(ready, 50) : setTimeout(look, 1); look(); });
  }
  done(times);
})();
"""


def resident(pid):
    """The memory of a process, in MB."""
    return int(re.search(r"VmRSS:\s+(\d+)", Path(f"/proc/{pid}/status").read_text())[1]) / 1000


def measure(clicks=30):
    console, b = Console(), Chromium()
    try:
        b.get(console.address)
        b.at(0)
        b.open("source", LOOP)
        for n in (1000, 100000, 999000):
            b.go(n)
            times = b.execute_async(CLICKS, n, clicks)
            print(f"a click at step {n}: median {statistics.median(times):.0f} ms, greatest {max(times):.0f} ms, of {clicks}", flush=True)
        for pace in (10, 100):
            b.go(1000)
            b.choose("pace", str(pace))
            b.click("start")
            time.sleep(2)
            began, first = time.perf_counter(), b.view("s.n")
            time.sleep(6)
            last, passed = b.view("s.n"), time.perf_counter() - began
            print(f"pace {pace}: {(last - first) / passed:.1f} steps a second", flush=True)
            b.click("stop")
            b.wait("!view.playing && view.panel")
        memory(console, b)
    finally:
        b.close()
        console.end()
    sizes()


def memory(console, b):
    run = console.make("source", LOOP)
    heap = "return Math.round(performance.memory.usedJSHeapSize / 1e6)"
    print(f"memory at first: server {resident(console.child.pid):.0f} MB, page {b.js(heap)} MB", flush=True)
    for number in range(1500):
        console.state(run, number * 37 % 30000)
        if number % 5 == 0:
            b.js("go(arguments[0], true)", number * 31 % 30000)
            b.wait(f"s.n === {number * 31 % 30000}")
        if number % 500 == 499:
            print(f"memory behind {number + 1} places and {number // 5 + 1} clicks: server {resident(console.child.pid):.0f} MB, page {b.js(heap)} MB",
                  flush=True)


def sizes():
    with tempfile.TemporaryDirectory() as folder:
        source = Path(folder, "loop.txt")
        source.write_text(LOOP)
        for steps in (1000, 10000):
            out = Path(folder, "out.html")
            began = time.perf_counter()
            run_console("--source", source, "--record", out, "--steps", steps, seconds=1200)
            print(f"a record of {steps} steps with lights: {time.perf_counter() - began:.1f} s, {out.stat().st_size} bytes", flush=True)
