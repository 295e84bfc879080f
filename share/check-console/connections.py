"""Who gets in: connections that say nothing, the file that leads to the address, and what a killed console leaves."""

import os
import re
import shutil
import signal
import socket
import stat
import subprocess
import tempfile
import time
from pathlib import Path

from harness import CONSOLE, LOOP, Console, is_left_clean, program, run_console

MOST_SECONDS = 1        # that silent connections may delay a request; twice as long on a machine that is busy


def check(checks):
    console = Console()
    try:
        silent(checks, console)
        slow(checks, console)
        for name in (7, None, ["x"], {"x": 1}):
            checks.want(f"a run with the id {name}", console.ask("act", {"id": name, "n": 0, "action": "START"})[0], 400)
    finally:
        checks.want("nothing is left after silent connections", is_left_clean(console), True)
    address(checks)
    killed(checks)


def silent(checks, console):
    """Connections that say nothing keep nobody out, and neither do connections that were refused and stay open."""
    for what, said in (("silent", b""), ("refused", b"GET / HTTP/1.1\r\nHost: elsewhere\r\n\r\n"), ("half a head", b"GET / HT")):
        opened = [socket.create_connection(("127.0.0.1", console.port), 60) for _ in range(34)]
        for connection in opened:
            try:
                connection.sendall(said)
            except OSError:     # the console has ended the oldest ones already
                pass
        time.sleep(.3)
        begun = time.monotonic()
        status = console.ask("examples")[0]
        seconds = time.monotonic() - begun
        checks.want(f"a request while 34 connections are {what}", (status, seconds < 2 * MOST_SECONDS), (200, True))
        for connection in opened:
            connection.close()


def slow(checks, console):
    """A first head has some seconds, however slowly it comes."""
    with socket.create_connection(("127.0.0.1", console.port), 60) as connection:
        begun = time.monotonic()
        try:
            for letter in b"GET /" + b"x" * 100:
                connection.sendall(bytes([letter]))
                time.sleep(.25)
        except OSError:
            pass
        checks.want("a head that comes letter by letter", 3 < time.monotonic() - begun < 15, True)


def started(path, temporary, *words):
    """A console whose address is in a file, as a `Console`."""
    child = subprocess.Popen([CONSOLE, "--address", path, *(words or ("--port", "0"))], stdin=subprocess.DEVNULL, stdout=subprocess.PIPE,
                             stderr=subprocess.STDOUT, env=dict(os.environ, IBM1620=program(), TMPDIR=temporary))
    console = Console.__new__(Console)
    console.child, console.temporary, console.said = child, temporary, child.stdout.readline().decode()
    console.port, console.token = re.search(r"url=http://127\.0\.0\.1:(\d+)/(\w+)/", path.read_text()).groups()
    return console


def address(checks):
    """The file that leads to the address: for its owner alone. The next console keeps the address, so that a page that is open finds it."""
    with tempfile.TemporaryDirectory() as folder, tempfile.TemporaryDirectory() as temporary:
        path = Path(folder, "at.html")
        console = started(path, temporary)
        checks.want("the address is in the file alone, for its owner",
                    (console.token in console.said, str(path) in console.said, stat.S_IMODE(path.stat().st_mode)), (False, True, 0o600))
        checks.want("and in no list of processes", console.token.encode() in Path(f"/proc/{console.child.pid}/cmdline").read_bytes(), False)
        opened = {"Sec-Fetch-Site": "cross-site", "Sec-Fetch-Mode": "navigate", "Sec-Fetch-Dest": "document"}
        for what, tail, headers, wanted in (
                ("the page, opened by the file", "", opened, 200), ("the page in a frame", "", {**opened, "Sec-Fetch-Dest": "iframe"}, 403),
                ("the page, fetched by another page", "", {**opened, "Sec-Fetch-Mode": "no-cors"}, 403),
                ("the page as an object", "", {**opened, "Sec-Fetch-Dest": "object"}, 403),
                ("the page, with the origin of another page", "", {**opened, "Origin": "http://elsewhere"}, 403),
                ("more than the page", "api/examples", opened, 403), ("a save", "api/save?id=x", opened, 403)):
            checks.want(what, console.raw("GET", f"/{console.token}/{tail}", headers)[0], wanted)
        checks.want("a form of another page", console.raw("POST", f"/{console.token}/", opened, b"x")[0], 403)
        checks.want("a tab without the token", console.raw("GET", "/x/", opened)[0], 404)
        token = console.token
        console.end()
        again = started(path, temporary)
        checks.want("the next console has the same token", again.token, token)
        again.end()
        path.chmod(0o644)
        another = started(path, temporary)
        checks.want("a file that others could read has a new token", (another.token != token, stat.S_IMODE(path.stat().st_mode)), (True, 0o600))
        another.end()
        path.write_text("a page of the user")
        done = run_console("--port", "0", "--address", path)
        checks.want("a file that no console wrote stays", (done.returncode, "no console wrote it" in done.stderr, path.read_text()),
                    (7, True, "a page of the user"))
    for name in ("/nowhere/at.html", "/dev/full"):
        done = run_console("--port", "0", "--address", name)
        checks.want(f"the address in {name}", (done.returncode, name in done.stderr), (7, True))


def killed(checks):
    """The folder of a console that was killed goes at the next start, and the folder of one that runs stays."""
    temporary = tempfile.mkdtemp(prefix="check-console-")
    first, runs = Console(temporary=temporary), Console(temporary=temporary)
    for console in (first, runs):
        console.make("source", LOOP, limit=100)
    checks.want("two folders", len(os.listdir(temporary)), 2)
    first.end(signal.SIGKILL)
    next_one = Console(temporary=temporary)
    checks.want("after a kill the next console clears up", len(os.listdir(temporary)), 2)
    checks.want("and the other one goes on", runs.state(runs.make("source", LOOP, limit=100), 5)["n"], 5)
    runs.end()
    checks.want("nothing is left", next_one.end(), (143, []))
    shutil.rmtree(temporary)
