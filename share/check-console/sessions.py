"""Random sessions: keys, cards and lines at random steps; each session is saved, done again by the program, and compared with what the page had."""

import io
import random
import shutil
import tempfile
import zipfile
from pathlib import Path

from harness import EXAMPLES, Console, call, is_left_clean

PROGRAMS = ("payroll", "programs/dialogue", "programs/records", "programs/squares", "start-again", "two-cards", "one-card", "disk", "programs/reverse",
            "clear-core")
KEYS = ("START", "LOAD", "SWITCH 1 ON", "SWITCH 1 OFF", "SWITCH 4 ON", "OVERFLOW STOP", "IO STOP", "IO PROGRAM", "FLIP 402 0", "FLIP 12 5", "CARD", "KEYS")


def check(checks, many, seed=1620):
    chance = random.Random(seed)
    console = Console()
    for number in range(many):
        session(checks, console, chance, number)
    checks.want("nothing is left", is_left_clean(console), True)


def session(checks, console, chance, number):
    name = PROGRAMS[number % len(PROGRAMS)]
    if not (EXAMPLES / name).exists():
        return
    example = console.example(name)
    run = console.make(*(example[part] for part in ("kind", "text", "data", "keys", "script", "pack", "core")), limit=2000)
    for _ in range(chance.randint(1, 4)):
        n = chance.choice((run["end"]["n"], run["end"]["n"], chance.randint(0, run["end"]["n"])))
        action = chance.choice(KEYS)
        line = "".join(chance.choice("0123456789AJ |") for _ in range(chance.randint(1, 20)))
        status, found = console.ask("act", {"id": run["id"], "n": n, "action": action, "line": line})
        if status == 200:
            run = found
    n = run["end"]["n"]
    state = console.state(run, n)
    _, data, _ = console.raw("GET", f"/{console.token}/api/save?id={run['id']}")
    with tempfile.TemporaryDirectory() as folder:
        zipfile.ZipFile(io.BytesIO(data)).extractall(folder)
        words = Path(folder, "replay.txt").read_text().split()
        if run["pack"]:     # a run writes to its pack
            shutil.copy(Path(folder, "pack.txt"), Path(folder, "pack"))
        done = call(*words[1:], "--typed", "typed", "--punched", "punched", folder=folder)
        typed, punched = Path(folder, "typed").read_bytes(), Path(folder, "punched").read_text(encoding="latin-1").splitlines()
        replayed = done.stdout.decode().strip(), typed.decode("utf-8", "surrogateescape")[-20000:], len(punched), punched[-200:]
        checks.want(f"session {number}: {name} with {run['script']} {run['data'][-60:]!r} {run['keys'][-60:]!r}",
                    (run["end"]["line"], state["typed"], state["punchedCount"], state["punched"]), replayed)
        if run["kind"] == "source":
            checks.want(f"session {number}: core at its end", core_by_session(folder, run) if n >= 0 else state["core"], state["core"])


def core_by_session(folder, run):
    """Core at the end of a saved session, by the debugger; its counts are from the Load key on."""
    names = [word for name in ("data", "keys") if Path(folder, name + ".txt").exists() for word in ("--" + name, name + ".txt")]
    names += ["--pack", "pack"] if run["pack"] else []
    script = [" ".join([*line.split(" ")[:1], str(int(line.split(" ")[1]) + run["loading"]),
                        *line.split(" ")[2:]]) if line.startswith("AT ") else line for line in run["script"]]
    Path(folder, "script").write_text("".join(line + "\n" for line in script))
    Path(folder, "commands").write_text("GO\n" + "".join(f"SHOW {at} 1000\n" for at in range(0, 20000, 1000)))
    out = call("debug", "--source", "source.txt", "--commands", "commands", "--script", "script", "--typed", "/dev/null", "--limit",
               2000 + run["loading"], *names, folder=folder).stdout
    return "".join(line[6:] for line in out.decode("latin-1").split("\n") if len(line) == 1006)
