"""Records by their data: each step against the console's states, and the end against `run`."""

import json
import os
import re
import stat
import subprocess
import tempfile
import time
from pathlib import Path

from harness import CONSOLE, EXAMPLES, LOOP, Console, is_left_clean, program, run_console


def data_of(path):
    """The record that stands in a page."""
    text = Path(path).read_text(encoding="utf-8")
    return json.loads(re.search(r'<script type="application/json" id="record">(.*?)</script>', text, re.S)[1]), len(text.encode())


def core_of(text):
    return list(re.sub(r"~(.)(\d+);", lambda found: found[1] * int(found[2]), text))


def walk(record):
    """Each count of a record with IR, core and the text that was typed by then; IR is missing at the last."""
    core, typed = core_of(record["core"]), ""
    for n, frame in enumerate([*record["frames"], None], record["first"]):
        yield n, frame and frame[0], "".join(core), typed
        if frame:
            for at, text in zip(frame[1][::2], frame[1][1::2]):
                core[at:at + len(text)] = text
            typed += frame[2] if len(frame) > 2 else ""


def words_of(name):
    """The words by which the console is given an example."""
    kind = next(kind for kind in ("source", "deck") if (EXAMPLES / name / (kind + ".txt")).exists())
    parts = [kind, *(part for part in ("data", "keys", "script", "pack") if (EXAMPLES / name / (part + ".txt")).exists())]
    return [word for part in parts for word in ("--" + part, EXAMPLES / name / (part + ".txt"))]


def check(checks, names=("programs/dialogue", "one-card"), every=9):
    console = Console()
    with tempfile.TemporaryDirectory() as folder:
        out = Path(folder, "out.html")
        for name in names:
            done = run_console(*words_of(name), "--record", out)
            checks.want(f"a record of {name}", (done.returncode, done.stderr), (0, ""))
            if not done.returncode:
                same(checks, console, name, data_of(out)[0], every)
        cut(checks, console, out)
        failures(checks, folder)
        sizes(checks, folder)
    checks.want("nothing is left", is_left_clean(console), True)


def cut(checks, console, out):
    """A record that ends before its run knows where the next instruction stands."""
    done = run_console("--source", EXAMPLES / "programs" / "squares" / "source.txt", "--record", out, "--steps", 5)
    record, _ = data_of(out)
    run = console.make("source", record["about"]["text"])
    checks.want("a record of the first steps, and IR at its last", (done.returncode, record["last"], record["ir"]), (0, 5, console.state(run, 5)["ir"]))


def same(checks, console, name, record, every):
    """Each so many steps of a record are the states and lights of the console's answers; so is its end."""
    about = record["about"]
    run = console.make(*(about[part] for part in ("kind", "text", "data", "keys", "script", "pack", "core", "limit")))
    codes, lit, row, arms, differing = (6, 7, 9, 11, 12, 14, 16, 17, 36, 37, 38), None, None, None, []
    rows = {entry[0]: entry for entry in record["outs"]["rows"]}
    for n, ir, core, typed in walk(record):
        lit, row = record["lights"].get(str(n), lit), rows.get(n, row)
        arms = next((list(arms) for at, *arms in record["arms"] if at == n), arms)
        if (n - record["first"]) % every and n != record["last"]:
            continue
        state, panel = console.state(run, n), console.panel(run, n)
        on = sum(1 << place for place, code in enumerate(codes) if panel["lights"]["on"].get(str(code)))
        found = [state["core"] == core, state["typed"] == typed, ir in (None, state["ir"]), lit == [on, panel["lights"]["ir2"]],
                 row[1:] == [panel["cardsLeft"], panel["keysLeft"], state["punchedCount"]], arms == panel["lights"]["arms"]]
        if not all(found):
            differing.append((n, found, lit, panel, row))
    checks.want(f"the record of {name}: core, typed, IR, lights, counts and arms at steps", differing, [])
    typed = EXAMPLES / name / "typed.txt"
    if typed.exists() and record["last"] == about["end"]["n"]:
        checks.want(f"the record of {name}: its typed text", list(walk(record))[-1][3], typed.read_text())


def failures(checks, folder):
    one_card = EXAMPLES / "one-card" / "deck.txt"
    old, link = Path(folder, "old.html"), Path(folder, "link.html")
    old.write_text("old")
    for what, words, wanted in (("into no folder", ["--deck", one_card, "--record", folder + "/none/x.html"], "No such file or directory"),
                                ("onto a full device", ["--deck", one_card, "--record", "/dev/full"], "No space left"),
                                ("onto a folder", ["--deck", one_card, "--record", folder], "Is a directory"),
                                ("over its own input", ["--source", old, "--record", old], "another option")):
        done = run_console(*words)
        checks.want(f"a record {what}", (done.returncode, wanted in done.stderr), (7, True))
    done = run_console("--source", EXAMPLES / "broken-statement" / "source.txt", "--record", old)
    checks.want("a record of a source that is refused", (done.returncode, "REFUSED 00003 08" in done.stderr, old.read_text()), (1, True, "old"))
    link.symlink_to(old)
    old.chmod(0o640)
    done = run_console("--deck", one_card, "--record", link)
    checks.want("a record over an old file, by a link",
                (done.returncode, link.is_symlink(), stat.S_IMODE(old.stat().st_mode), "12345" in old.read_text()), (0, True, 0o640, True))
    done = run_console("--deck", one_card, "--record", "/dev/stdout")
    checks.want("a record to the standard output", (done.returncode, "<!DOCTYPE html>" in done.stdout), (0, True))
    old.write_text("old")
    source = Path(folder, "loop.txt")
    source.write_text(LOOP)
    with tempfile.TemporaryDirectory() as temporary:
        child = subprocess.Popen([CONSOLE, "--source", source, "--record", old, "--steps", "100000"], stdout=subprocess.DEVNULL, stderr=subprocess.DEVNULL,
                                 env=dict(os.environ, IBM1620=program(), TMPDIR=temporary))
        while not os.listdir(temporary):
            time.sleep(.05)
        time.sleep(.3)
        child.terminate()
        checks.want("a record that is stopped", (child.wait(), old.read_text(), os.listdir(temporary), sorted(os.listdir(folder))),
                    (143, "old", [], sorted(os.listdir(folder))))


def sizes(checks, folder):
    source, out = Path(folder, "loop.txt"), Path(folder, "loop.html")
    source.write_text(LOOP)
    for steps, most in ((1000, 300_000), (10_000, 3_000_000)):
        done = run_console("--source", source, "--record", out, "--steps", steps)
        record, size = data_of(out)
        checks.want(f"{steps} steps", (done.returncode, done.stderr, record["last"], size <= most), (0, "", steps, True))
