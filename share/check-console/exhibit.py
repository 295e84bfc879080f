"""The exhibit by HTTP: what visitors may ask for, and its words."""

import json
import re

from harness import TOP, Console, is_left_clean, run_console

FILES = TOP / "share" / "console"


def check(checks):
    words(checks)
    console = Console("--exhibit", "--idle", "30")
    try:
        visits(checks, console)
    finally:
        checks.want("the exhibit leaves nothing behind", is_left_clean(console), True)


def words(checks):
    """Each language has each word, with the same parts to be filled in, and each program."""
    def parts(value):
        if isinstance(value, dict):
            return {key: parts(part) for key, part in value.items()}
        return len(value) if isinstance(value, list) else sorted(re.findall(r"\{\w+\}", value))
    english, settings = json.loads((FILES / "words-en.json").read_text()), json.loads((FILES / "exhibit.json").read_text())
    for path in sorted(FILES.glob("words-*.json")):
        found = json.loads(path.read_text(encoding="utf-8"))
        checks.want(f"{path.name} has each word", parts({**found, "operations": {}}), parts({**english, "operations": {}}))
        checks.want(f"{path.name}: the programs and the guided minutes", (sorted(found["programs"]), sorted(found["guides"])),
                    (sorted(it["name"] for it in settings["programs"]), sorted(settings["guides"])))
    used = set(re.findall(r'word\("(\w+)"|data-word(?:-label)?="(\w+)"', "".join((FILES / name).read_text() for name in ("visit.js", "panel.js", "typewriter.js", "exhibit.html"))))
    checks.want("no word is missing", sorted({one or two for one, two in used} - set(english) - {"name", "bit", "table"}), [])
    for given in (["--exhibit", "--source", "x"], ["--idle", "5"], ["--exhibit", "--record", "x"], ["--exhibit", "--idle", "1"], ["--exhibit", "--exhibit"]):
        checks.want(f"wrong words {given}", run_console(*given).returncode, 2)


def visits(checks, console):
    names = [it["name"] for it in console.ask("examples")[1]["programs"]]
    checks.want("the list of programs", names, [it["name"] for it in json.loads((FILES / "exhibit.json").read_text())["programs"]])
    text = console.raw("GET", f"/{console.token}/")[1].decode()
    checks.want("the page can open, save and change nothing", [name for name in ("textarea", 'type="file"', "api/save") if f"<{name}" in text or f'{name}"' in text], [])

    def inputs(**more):
        return console.ask("inputs", more)
    for what, found, wanted in (
            ("a program that is not in the list", inputs(name="payroll")[0], 404), ("a source of the visitor's own", inputs(kind="source", text="     START H\n")[0], 404),
            ("an example that is not in the list", console.ask("example?name=payroll")[0], 404),
            ("too many keys", inputs(name=names[0], keys="A" * 5000)[0], 400), ("too long a script", inputs(name=names[0], script=["AT 0 START"] * 500)[0], 400)):
        checks.want(what, found, wanted)
    status, run = inputs(name="programs/dialogue", text="     START H\n           DENDSTART\n", limit=5)
    checks.want("the text is that of the list, whatever comes with the name", (status, run["end"]["kind"], run["limit"]), (200, "NEED KEYS", 1_000_000))

    def act(action, line=None):
        return console.ask("act", {"id": run["id"], "n": run["end"]["n"], "action": action, "line": line})
    checks.want("no Load key", act("LOAD")[0], 400)
    checks.want("nothing is saved", console.ask("save?id=" + run["id"])[0], 404)
    run = act("KEYS", "ADA")[1]
    checks.want("an answer", (run["end"]["kind"], console.state(run, run["end"]["n"])["typed"]), ("HALT", "WHO ARE YOU.\nGOOD DAY, ADA\n"))
    run = inputs(name="programs/twos")[1]
    for action in ("FLIP 322 5", "FLIP 322 0", "START"):
        run = act(action)[1]
    checks.want("2 + 2 by a table that a visitor has changed", console.state(run, run["end"]["n"])["typed"], "2 + 2 = 4\n2 + 2 = 5\n")
