"""The server by HTTP: what it answers, what it refuses, and what it leaves."""

import base64
import hashlib
import io
import os
import re
import shutil
import signal
import socket
import subprocess
import tempfile
import zipfile
from contextlib import suppress
from pathlib import Path

from harness import CONSOLE, EXAMPLES, LOOP, Console, call, is_left_clean, program, run_console

# What the indicators are behind each step, by docs/machine.md: a sum over 0, one of 0, one over 0 with a carry, a test of 14, a comparison of
# equals, one with a greater P, a pair of digits that no character has.
INDICATORS = """     START A   SUM,ONE
           S   SUM,ONE
           AM  BIG,2,10
           BV  *+12
           C   SUM,SUM
           C   ONE,SUM
           WATYBAD
           H
     SUM   DC  5,0
     ONE   DC  5,1
     BIG   DC  2,99
     BAD   DAS 1
           DC  2,9
           DSC 2,0@
           DENDSTART
"""

# Where the arms stand behind each step, by docs/machine.md: seeks of sectors 19999, 400, 200, 20000, 2345 and 199; a sector of a cylinder where the arm
# does not stand is written; 36 is tested; and a seek on a drive that is not there.
ARMS = """     START SK  ONE
           SK  TWO
           SK  FOUR
           SK  BEYOND
           SK  THREE
           SK  HOME
           WDN TWO
           BI  *+12,3600
           SK  NONE
           H
     ONE   DDA 1,19999,1,1000
     TWO   DDA 2,400,1,1000
     THREE DDA 3,2345,1,1000
     FOUR  DDA 4,200,1,1000
     BEYONDDDA 1,20000,1,1000
     HOME  DDA 1,199,1,1000
     NONE  DDA 5,0,1,1000
           DENDSTART
"""


def check(checks):
    console = Console()
    try:
        page(checks, console)
        states(checks, console)
        lights(checks, console)
        keys(checks, console)
        hostile(checks, console)
        bad_input(checks, console)
        saves(checks, console)
        dropped(checks, console)
    finally:
        checks.want("nothing is left behind SIGTERM", is_left_clean(console), True)
    words(checks)


def page(checks, console):
    status, text, headers = console.raw("GET", f"/{console.token}/")
    rule = headers["Content-Security-Policy"]
    checks.want("the page", (status, headers["Content-Type"]), (200, "text/html; charset=utf-8"))
    for tag in ("script", "style"):
        part = re.search(rf"<{tag}>(.*?)</{tag}>".encode(), text, re.S)[1]
        name = base64.b64encode(hashlib.sha256(part).digest()).decode()
        checks.want(f"the page's own {tag} is allowed by its hash, and no other", f"{tag}-src 'sha256-{name}'" in rule and "unsafe" not in rule, True)
    checks.want("nothing of the page comes from elsewhere", re.findall(rb"(?:src|href)=\"?(?:https?:)?//", text), [])
    checks.want("the page stands in no frame", (headers["X-Frame-Options"], "frame-ancestors 'none'" in rule), ("DENY", True))
    checks.want("HEAD", console.raw("HEAD", f"/{console.token}/")[:2], (200, b""))


def states(checks, console):
    """Core, IR and typed text at steps against the debugger's own session and `run`."""
    for name, counts in (("payroll", (-153, -150, 0, 1, 12, 28)), ("programs/squares", (0, 7, 278))):
        example = console.example(name)
        run = console.make(**{part: example[part] for part in ("kind", "text", "data", "keys", "script", "pack", "core")})
        for n in counts:
            state = console.state(run, n)
            ir, core = by_session(example, n + run["loading"], n == run["end"]["n"])
            checks.want(f"{name} at {n}: IR and core are the debugger's", (state["ir"], state["core"]), (ir if ir is not None else state["ir"], core))
        done = run_of(example)
        state = console.state(run, run["end"]["n"])
        checks.want(f"{name}: typed, punched and end are those of run",
                    (state["typed"], [card + "\n" for card in state["punched"]], run["end"]["line"]), done)
    deck = (EXAMPLES / "tables" / "deck.txt").read_text() + (EXAMPLES / "add-two" / "deck.txt").read_text()
    run = console.make("deck", deck)
    state = console.state(run, 12)
    checks.want("a deck's end", (state["typed"], state["end"]["line"], run["loading"]), ("0523\n", "HALT 00048 STEPS 12", 0))
    first = console.state(console.make("deck", (EXAMPLES / "one-card" / "deck.txt").read_text()), 0)
    checks.want("a deck's core behind the Load key: the card, and zeros", (first["core"], first["ir"]),
                ("38000360010048" + "0" * 22 + "12345|" + "0" * 19958, 0))


def by_session(example, count, is_end):
    with tempfile.TemporaryDirectory() as folder:
        names = []
        for name in ("data", "keys", "pack"):
            if example[name]:
                Path(folder, name).write_text(example[name])
                names += [f"--{name}", name]
        shows = "".join(f"SHOW {at} 1000\n" for at in range(0, 20000, 1000))
        Path(folder, "source").write_text(example["text"])
        Path(folder, "commands").write_text((f"STEP {count}\n" if count else "") + shows + ("" if is_end else "STEP 1\n"))
        out = call("debug", "--source", "source", "--commands", "commands", "--typed", "/dev/null", *names,
                   folder=folder).stdout.decode("latin-1").split("\n")
        core = [line[6:] for line in out if re.match(r"\d{5} .{1000}$", line)]
        last = [re.match(r"AT (\d+) ", line) for line in out]
        return None if is_end else int([found for found in last if found][-1][1]), "".join(core)


def run_of(example):
    with tempfile.TemporaryDirectory() as folder:
        names = []
        for name in ("source", "data", "keys", "pack"):
            text = example["text"] if name == "source" else example[name]
            if text:
                Path(folder, name).write_text(text)
                names += [f"--{name}", name]
        done = call("run", *names, "--typed", "typed", "--punched", "punched", folder=folder)
        return Path(folder, "typed").read_text(), Path(folder, "punched").read_text().splitlines(True), done.stdout.decode().strip()


def lights(checks, console):
    run = console.make("source", INDICATORS)
    wanted = [{9}, {9, 11}, {9, 12}, {9, 11, 14}, {9, 11}, {9, 12}, {9, 11}, {7, 9, 11}]
    found = [{int(code) for code, on in console.panel(run, n)["lights"]["on"].items() if on} for n in range(len(wanted))]
    checks.want("the indicators behind each step", found, wanted)
    run = console.make("source", "     START BTM BACK,5\n           H\n           DS  1\n     BACK  BB\n           DENDSTART\n")
    checks.want("IR-2 behind a branch and transmit", [console.panel(run, n)["lights"]["ir2"] for n in (0, 1)], [0, 414])
    run = console.make("source", ARMS)
    checks.want("the arms behind each step", [console.panel(run, n)["lights"]["arms"] for n in range(10)],
                [[0, 0, 0, 0], [99, 0, 0, 0], [99, 2, 0, 0], [99, 2, 0, 1], [99, 2, 0, 1], [99, 2, 11, 1], *[[0, 2, 11, 1]] * 4])
    checks.want("and 36 is as the program has it", [console.panel(run, n)["lights"]["on"]["36"] for n in range(10)], [False] * 4 + [True] * 4 + [False] * 2)
    deck = (EXAMPLES / "disk" / "deck.txt").read_text()
    run = console.make("deck", deck.replace("100005001", "112345001"))
    checks.want("the arms of a deck", [console.panel(run, n)["lights"]["arms"] for n in (0, run["end"]["n"])], lambda found: found == [[0, 0, 0, 0], [61, 0, 0, 0]])
    example = console.example("payroll")
    run = console.make("source", example["text"], example["data"])
    checks.want("cards that are left", [console.panel(run, n)["cardsLeft"] for n in (-153, 0, 1, 13)], [40, 2, 1, 0])
    stops(checks, console)


def stops(checks, console):
    """The lights, and what is left, where no instruction can be carried out: behind a stop, and before one."""
    def on(run, n):
        lights = console.panel(run, n)["lights"]
        return {int(code) for code, on in lights["on"].items() if on}, lights["ir2"], lights["arms"], lights["why"]
    run = console.make("source", INDICATORS, script=["AT 0 OVERFLOW STOP"])
    checks.want("the indicators at an overflow stop", (run["end"]["line"], on(run, 3)), ("CHECK 10 00426 STEPS 3", ({9, 11, 14}, 0, [0] * 4, "")))
    checks.want("and the check switch", console.state(run, 3)["switches"], {"1": False, "2": False, "3": False, "4": False, "overflow": True, "io": False})
    run = console.make("source", LOOP, script=["AT 4 FLIP 431 0"])
    checks.want("the indicators where the next instruction has a bad cell, and behind its stop", (on(run, 5), on(run, 6)),
                (({9, 11}, 0, [0] * 4, ""), ({9, 11, 17}, 0, [0] * 4, "")))
    run = console.make("source", "     START BTM 403,5\n           DENDSTART\n")
    checks.want("IR-2 behind a branch and transmit to an odd address, and behind its stop", (run["end"]["line"], on(run, 1)[1], on(run, 2)[1]),
                ("CHECK 01 00403 STEPS 2", 414, 414))
    run = console.make("source", "     START B   403\n           DENDSTART\n")
    checks.want("the indicators before an instruction at an odd address, and behind its stop", [on(run, n) for n in (1, 2)], [({9}, 0, [0] * 4, "")] * 2)
    run = console.make("source", "     START RNCD19990\n           H\n           DENDSTART\n", "1\n2\n")
    checks.want("a card whose digits have no place is taken", (run["end"]["kind"], console.panel(run, 1)["cardsLeft"]), ("CHECK", 1))
    for name, read, fed in (("cardsLeft", "RNCD", {"data": "1\n2\n" + "0" * 81 + "\n3\n"}), ("keysLeft", "RNTY", {"keys": "1\n2\n" + "0" * 81 + "\n3\n"})):
        run = console.make("source", f"     START {read}500\n           B   START\n           DENDSTART\n", **fed)
        checks.want(f"{name} before a jam, and at it", [console.panel(run, n)[name] for n in range(6)], [4, 3, 3, ["jam", 2], ["jam", 2], ["jam", 2]])
        checks.want("and IR at the jam", (run["end"]["kind"], console.state(run, 5)["ir"]), ("JAM", 402))


def keys(checks, console):
    """Each key is a line of the inputs."""
    example = console.example("programs/dialogue")
    run = console.make("source", example["text"])

    def act(n, action, line=None):
        return console.ask("act", {"id": run["id"], "n": n, "action": action, "line": line})
    checks.want("a program that wants a line", run["end"]["line"].split(" STEPS")[0], lambda line: line.startswith("NEED KEYS"))
    n = run["end"]["n"]
    checks.want("no key starts a machine that waits", act(n, "START")[0], 400)
    for action, line, wanted in (("KEYS", "ADA", "HALT"), ("START", None, "NEED KEYS"), ("KEYS", "GRACE HOPPER", "HALT"), ("SWITCH 1 ON", None, "HALT"),
                                 ("START", None, "HALT")):
        status, run = act(run["end"]["n"], action, line)
        checks.want(f"{action} leads to {wanted}", (status, run["end"]["kind"], run["past"]), (200, wanted, True))
    checks.want("the script is what the operator did", run["script"], ["HALT START", "HALT SWITCH 1 ON", "HALT START"])
    checks.want("and the talk is that of the example", console.state(run, run["end"]["n"])["typed"],
                (EXAMPLES / "programs" / "dialogue" / "typed.txt").read_text())
    run = console.make("source", LOOP)
    status, found = act(-1, "START")
    checks.want("a key while the deck loads", (status, "from the program's first step on" in found["error"]), (400, True))
    run = act(5, "SWITCH 3 ON")[1]
    run = act(9, "FLIP 402 0")[1]
    checks.want("keys at a step are lines with counts", (run["script"], run["acts"]), (["AT 5 SWITCH 3 ON", "AT 9 FLIP 402 0"], [5, 9]))
    checks.want("the switch is turned from there on", [console.state(run, n)["switches"]["3"] for n in (4, 5)], [False, True])
    checks.want("the bad cell is shown, and stops", (console.state(run, 9)["core"][402], run["end"]["line"]), ("?", "CHECK 04 00402 STEPS 10"))
    many = console.make("source", LOOP, script=["AT 5 FLIP 19000 0"] * 1000)
    checks.want("a step at which a thousand lines act", [console.state(many, n).get("used") for n in (4, 5)], [0, 1000])
    status, found = act(10, "LOAD")
    checks.want("no key behind a stop", (status, "go back" in found["error"]), (400, True))
    checks.want("a parity stop turns on 16", console.panel(run, 10)["lights"]["on"]["16"], True)
    example = console.example("payroll")
    run = console.make("source", example["text"], example["data"])
    status, run = act(28, "CARD", "00125010000000100")
    checks.want("a card behind the last one changes the past, and it is told", (status, run["past"]), (200, False))


def hostile(checks, console):
    """Requests that no page of ours makes."""
    token, json = console.token, {"Content-Type": "application/json"}
    ask = f"/{token}/api/examples"
    for what, method, path, headers, body, wanted in (
            ("no token", "GET", "/", {}, None, 404), ("a wrong token", "GET", f"/{'0' * 24}/api/examples", {}, None, 404),
            ("a part of the token", "GET", f"/{token[:-1]}/", {}, None, 404), ("another host", "GET", ask, {"Host": "evil.example"}, None, 403),
            ("another port", "GET", ask, {"Host": "127.0.0.1:1"}, None, 403), ("another page's GET", "GET", ask, {"Origin": "http://evil.example"},
                                                                               None, 403),
            ("a page without an origin", "GET", ask, {"Origin": "null"}, None, 403), ("a page of another site", "GET", ask,
                                                                                      {"Sec-Fetch-Site": "cross-site"}, None, 403),
            ("a page of another port", "GET", ask, {"Sec-Fetch-Site": "same-site"}, None, 403),
            ("another page's POST", "POST", f"/{token}/api/inputs", {"Origin": "http://evil.example", **json}, b"{}", 403),
            ("a form of another page", "POST", f"/{token}/api/inputs", {"Content-Type": "text/plain"}, b"{}", 415),
            ("no kind of content", "POST", f"/{token}/api/inputs", {}, b"{}", 415), ("a deletion", "DELETE", ask, {}, None, 405),
            ("a POST where nothing is posted", "POST", ask, json, b"{}", 404), ("a GET of what is posted", "GET", f"/{token}/api/inputs", {}, None, 404),
            ("a path upwards", "GET", f"/{token}/../etc/passwd", {}, None, 404), ("one that is written otherwise", "GET",
                                                                                  f"/{token}/..%2f..%2fetc/passwd", {}, None, 404),
            ("one within", "GET", f"/{token}/api/../../x", {}, None, 404), ("a file's name", "GET", f"/{token}/page.html", {}, None, 404),
            ("two slashes", "GET", f"/{token}//etc/passwd", {}, None, 404), ("no JSON", "POST", f"/{token}/api/inputs", json, b"{", 400),
            ("a list", "POST", f"/{token}/api/inputs", json, b"[]", 400), ("a deep one", "POST", f"/{token}/api/inputs", json, b"[" * 100000, 400),
            ("too long a body", "POST", f"/{token}/api/inputs", {**json, "Content-Length": "99999999999"}, b"{}", 413),
            ("no length", "POST", f"/{token}/api/inputs", {**json, "Content-Length": "-1"}, b"{}", 400),
            ("pieces", "POST", f"/{token}/api/inputs", {**json, "Transfer-Encoding": "chunked"}, b"2\r\n{}\r\n0\r\n\r\n", 501),
            ("too long a head", "GET", ask, {"X": "x" * 20000}, None, 431), ("a query of many parts", "GET", ask + "?" + "&".join(f"a{i}=1" for i in range(50)), {}, None, 400)):
        checks.want(what, console.raw(method, path, headers, body)[0], wanted)
    for name in ("../../../etc/passwd", "/etc/passwd", ""):
        checks.want(f"an example by the name {name!r}", console.ask("example?name=" + name)[0], 404)
    for text in (b"GET / HTTP/1.1\r\n\r\n", b"\r\n\r\n", b"\0" * 100 + b"\r\n\r\n", b"GET /\r\n\r\n", b"GET / HTTP/1.1\r\nHost: a\r\nHost: b\r\n\r\n"):
        with socket.create_connection(("127.0.0.1", console.port), 60) as raw:
            raw.sendall(text)
            checks.want(f"{text[:30]!r}", raw.recv(100).split(b" ")[1:2], lambda found: found in ([b"400"], [b"403"]))
    made = [socket.create_connection(("127.0.0.1", console.port), 60) for _ in range(40)]
    for connection in made:
        connection.close()
    checks.want("many connections that say nothing, and then a request", console.ask("examples")[0], 200)
    with socket.socket() as other:
        other.settimeout(5)
        name = socket.gethostbyname(socket.gethostname())
        if not name.startswith("127."):
            checks.want("another address of this machine", other.connect_ex((name, console.port)) != 0, True)


def bad_input(checks, console):
    run = console.make("source", LOOP)

    def inputs(**more):
        return console.ask("inputs", {"kind": "source", "text": LOOP, **more})

    def act(**more):
        return console.ask("act", {"id": run["id"], "n": 1, **more})[0]
    for what, found, wanted in (
            ("no such run", console.ask("state?id=nothing&n=0")[0], 410), ("no number", console.ask(f"state?id={run['id']}&n=x")[0], 400),
            ("a step far outside", console.state(run, 999999999999)["n"], 1000000), ("a step far before", console.state(run, -999999999999)["n"],
                                                                                     -run["loading"]),
            ("no key of the console", act(action="START\nAT 0 LOAD"), 400), ("no action", act(action=7), 400), ("a card of 81 columns",
                                                                                                                act(action="CARD", line="1" * 81), 400),
            ("a line end in a card", act(action="CARD", line="1\n2"), 400), ("no line", act(action="KEYS"), 400), ("a cell outside core",
                                                                                                                   act(action="FLIP 20000 0"), 400),
            ("a core that is none", inputs(core=30000)[0], 400), ("a limit that is none", inputs(limit=-1)[0], 400), ("a limit that is no number",
                                                                                                                      inputs(limit="9")[0], 400),
            ("a kind that is none", inputs(kind="tape")[0], 400), ("a text that is none", inputs(text=[])[0], 400), ("a script that is none",
                                                                                                                     inputs(script="x")[0], 400),
            ("a character that no file has", inputs(text="\ud800")[0], 400), ("one byte too many", inputs(text="X" * 4_000_001)[0], 413)):
        checks.want(what, found, wanted)
    status, found = inputs(script=["AT 1 SWITCH 1 ON", "AT 1 JUMP"])
    checks.want("a line of the script that is none", (status, found.get("error")), (400, "line 2 of the script is none: AT 1 JUMP"))
    checks.want("a count below 0 is no way around", inputs(script=["AT -5 LOAD"])[0], 400)
    found = inputs(text=(EXAMPLES / "broken-statement" / "source.txt").read_text())[1]["refusal"]
    checks.want("a refusal", (found["line"], found["statement"], found["column"], found["width"]), ("REFUSED 00003 08 UndefinedSymbol ANSWR-1", 3, 16, 7))
    found = inputs(text=("     *" + "C" * 73 + "\n") * 21_000)[1]["refusal"]
    checks.want("too many statements", found["name"], "TooManyStatements")
    found = inputs(text="     START H\n" + ("     *" + "C" * 69 + "\n") * 19_998 + "           DENDSTART\n")[1]
    checks.want("20,000 statements", (found["refusal"], found["end"]["line"]), (None, "HALT 00402 STEPS 1"))
    status, found = inputs(text="     START DNTY0\n           B   START\n           DENDSTART\n")
    checks.want("a run that types without end", (status, "smaller limit" in found.get("error", "")), lambda found: found[0] in (413, 504) and found[1])
    text = "     START H\n     CAF\udce9  DS  1\n           DENDSTART\n"
    checks.want("a byte that is no UTF-8 comes back as that byte", inputs(text=text)[1]["text"], text)


def dropped(checks, console):
    """The console forgets what was not asked for lately; a page sends its inputs again."""
    first = console.make("source", LOOP, limit=100)
    for number in range(45):
        other = console.make("source", LOOP.replace("5,1", f"5,{number + 2}"), limit=100)
    checks.want("a run that was dropped", console.ask(f"state?id={first['id']}&n=5")[0], 410)
    again = console.make("source", LOOP, limit=100)
    checks.want("and sent again", (again["id"], console.state(again, 5)["n"], console.panel(again, 5)["n"]), (first["id"], 5, 5))
    checks.want("the last one is kept", console.state(other, 7)["n"], 7)


def saves(checks, console):
    """A session is saved as files that the program replays."""
    example = console.example("programs/dialogue")
    run = console.make("source", example["text"], "", example["keys"], example["script"])
    status, data, headers = console.raw("GET", f"/{console.token}/api/save?id={run['id']}")
    checks.want("a session is saved", (status, headers["Content-Type"]), (200, "application/zip"))
    with tempfile.TemporaryDirectory() as folder:
        zipfile.ZipFile(io.BytesIO(data)).extractall(folder)
        words = Path(folder, "replay.txt").read_text().split()
        done = call(*words[1:], folder=folder)
        state = console.state(run, run["end"]["n"])
        checks.want("and replayed", done.stdout.decode(), state["typed"] + run["end"]["line"] + "\n")


def first_line():
    """The first line of a console that is started without --port."""
    with subprocess.Popen([CONSOLE], stdin=subprocess.DEVNULL, stdout=subprocess.PIPE, text=True, env=dict(os.environ, IBM1620=program())) as child:
        line = child.stdout.readline()
        child.send_signal(signal.SIGTERM)
    return line


def words(checks):
    """The words, and what fails at the start."""
    usage = run_console("--help")
    checks.want("--help", (usage.returncode, usage.stdout.startswith("usage: console ["), usage.stderr), (0, True, ""))
    one_card = EXAMPLES / "one-card" / "deck.txt"
    for given in (["--deck"], ["--deck", one_card, "--deck", one_card], ["--deck", one_card, "--source", one_card], ["--data", one_card], ["--steps", "3"],
                  ["--port", "x"], ["--port", "70000"], ["--deck", one_card, "--core", "30000"], ["--deck", one_card, "--limit", "0"], ["file"],
                  ["--deck", one_card, "--record", "x", "--port", "1"], ["--record", "x"],
                  ["--deck", "--data"], ["--deck", "-x"]):
        done = run_console(*given)
        checks.want(f"the words {' '.join(map(str, given))}", (done.returncode, "usage: console" in done.stderr), (2, True))
    done = run_console("--source", "/nowhere/source.txt")
    checks.want("no such file", (done.returncode, done.stderr), (7, "console: --source /nowhere/source.txt: No such file or directory\n"))
    done = run_console(env=dict(os.environ, IBM1620="/nowhere/ibm1620"))
    checks.want("no program", (done.returncode, "no program" in done.stderr), (126, True))
    with socket.socket() as busy:
        busy.bind(("127.0.0.1", 0))
        busy.listen()
        done = run_console("--port", busy.getsockname()[1])
        checks.want("a port in use", (done.returncode, "--port can name another one" in done.stderr), (7, True))
    with socket.socket() as busy:
        with suppress(OSError):     # else another one has the port already
            busy.bind(("127.0.0.1", 1620))
            busy.listen()
        checks.want("no --port, and 1620 in use", re.fullmatch(r"The console is at http://127\.0\.0\.1:(?!1620/)\d+/\w+/\n", first_line()) is not None, True)
    done = run_console("--port", "0", env=dict(os.environ, IBM1620=program(), TMPDIR="/nowhere"))
    checks.want("no folder for its files", (done.returncode, "TMPDIR" in done.stderr), (7, True))
    done = subprocess.run(f"exec {CONSOLE} --port 0 >&-", shell=True, capture_output=True, text=True, env=dict(os.environ, IBM1620=program()),
                          timeout=60, check=False)
    checks.want("the standard output is closed", (done.returncode, done.stderr), (7, "console: the standard output can't be written: it is closed\n"))
    done = subprocess.run(f"exec {CONSOLE} --port 0 > /dev/full", shell=True, capture_output=True, text=True, env=dict(os.environ, IBM1620=program()),
                          timeout=60, check=False)
    checks.want("the standard output is full", (done.returncode, "No space left" in done.stderr), (7, True))
    for number in (signal.SIGINT, signal.SIGHUP):
        console = Console()
        code, left = console.end(number)
        checks.want(f"signal {number}", (code, left), (0 if number == signal.SIGINT else 128 + number, []))
        os.rmdir(console.temporary)
    with tempfile.TemporaryDirectory() as folder:
        copy = Path(folder, "ibm1620")
        shutil.copy(program(), copy)
        console = Console(program_path=str(copy))
        run = console.make("source", LOOP)
        copy.unlink()
        checks.want("the program is gone", console.ask(f"state?id={run['id']}&n=5"),
                    lambda found: found[0] == 503 and "does not start" in found[1]["error"])
        copy.write_text("#!/bin/sh\nkill -9 $$\n")
        copy.chmod(0o755)
        checks.want("the program is killed", console.ask(f"state?id={run['id']}&n=6")[0], 503)
        shutil.copy(program(), copy)
        checks.want("and the console goes on once it is back", console.state(run, 7)["n"], 7)
        checks.want("nothing is left", is_left_clean(console), True)
    full_disk(checks)


def full_disk(checks):
    """A small disk, where this user may mount one."""
    small = tempfile.mkdtemp()
    if subprocess.run(["mount", "-t", "tmpfs", "-o", "size=300k", "tmpfs", small], capture_output=True, check=False).returncode:
        os.rmdir(small)
        print("console: no disk can be mounted here: a full one was not tried")
        return
    try:
        console = Console(temporary=small)
        checks.want("a little disk is enough for a little source", console.ask("inputs", {"kind": "source", "text": LOOP})[0], 200)
        status, found = console.ask("inputs", {"kind": "source", "text": "     *" + "C" * 500_000})
        checks.want("the disk is full", (status, "no room" in found["error"]), (507, True))
        run = console.make("source", LOOP.replace("5,1", "5,3"))
        checks.want("and afterwards the console goes on", console.ask(f"state?id={run['id']}&n=3")[0], lambda status: status in (200, 507))
        checks.want("nothing is left on it", console.end()[1], [])
    finally:
        subprocess.run(["umount", small], check=True)
        os.rmdir(small)
