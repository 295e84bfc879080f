"""What all checks of the console use: counting, a console that runs, requests to it, and the program itself."""

import atexit
import http.client
import json
import os
import re
import signal
import subprocess
import tempfile
from pathlib import Path

TOP = Path(__file__).resolve().parent.parent.parent
CONSOLE = TOP / "bin" / "console"
EXAMPLES = TOP / "examples"

LOOP = "     START A   SUM,ONE\n           C   SUM,ONE\n           B   START\n     SUM   DC  5,0\n     ONE   DC  5,1\n           DENDSTART\n"


class Checks:
    """Counts what is as it should be, and says what is not."""

    def __init__(self):
        self.passed = self.failed = 0

    def want(self, what, found, wanted):
        """Whether something is as wanted; what is wanted may be a question to what was found."""
        is_right = bool(wanted(found)) if callable(wanted) else found == wanted
        self.passed += is_right
        self.failed += not is_right
        if not is_right:
            wish = "otherwise" if callable(wanted) else repr(wanted)[:600]
            print(f"console: {what}\n--- wanted\n{wish}\n--- and there came\n{repr(found)[:1200]}\n---", flush=True)


def program():
    """The built program, which IBM1620 names, or that of this repository."""
    return os.path.realpath(os.environ.get("IBM1620") or TOP / "crates" / "ibm1620" / "out" / "ibm1620")


def call(*words, folder=None, data=None):
    """Runs the program itself."""
    return subprocess.run([program(), *map(str, words)], cwd=folder, input=data, capture_output=True, check=False)


def run_console(*words, seconds=120, **more):
    """Runs the console to its end."""
    return subprocess.run([CONSOLE, *map(str, words)], capture_output=True, text=True, timeout=seconds, stdin=subprocess.DEVNULL, check=False,
                          **{"env": dict(os.environ, IBM1620=program()), **more})


class Console:
    """A console that runs, at a free port, with a folder for its files."""

    def __init__(self, *words, program_path=None, temporary=None):
        self.temporary = temporary or tempfile.mkdtemp(prefix="check-console-")
        environment = dict(os.environ, IBM1620=program_path or program(), TMPDIR=self.temporary)
        self.child = subprocess.Popen([CONSOLE, "--port", "0", *map(str, words)], stdin=subprocess.DEVNULL, stdout=subprocess.PIPE,
                                      stderr=subprocess.STDOUT, env=environment)
        atexit.register(self.child.kill)        # does nothing to one that has ended
        line = self.child.stdout.readline().decode()
        found = re.search(r"http://127\.0\.0\.1:(\d+)/(\w+)/", line)
        if not found:
            raise SystemExit("check-console: the console does not start: " + line + self.child.stdout.read().decode())
        self.address, self.port, self.token = found[0], int(found[1]), found[2]

    def raw(self, method, path, headers=None, body=None):
        """The status and the bytes of an answer, and its headers."""
        connection = http.client.HTTPConnection("127.0.0.1", self.port, timeout=120)
        try:
            connection.putrequest(method, path, skip_host="Host" in (headers or {}))
            for name, value in (headers or {}).items():
                connection.putheader(name, value)
            if body is not None and "Content-Length" not in (headers or {}):
                connection.putheader("Content-Length", str(len(body)))
            connection.endheaders()
            if body:
                try:
                    connection.send(body)
                except OSError:
                    pass
            reply = connection.getresponse()
            return reply.status, reply.read(), reply.headers
        finally:
            connection.close()

    def ask(self, path, body=None):
        """The status of an answer of the page's requests, and its values."""
        data = None if body is None else json.dumps(body).encode()
        status, text, _ = self.raw("GET" if body is None else "POST", f"/{self.token}/api/{path}", {"Content-Type": "application/json"}, data)
        return status, json.loads(text)

    def make(self, kind, text, data="", keys="", script=(), pack=None, core=20000, limit=1000000):
        """The run over these inputs, as the console tells of it."""
        inputs = {"kind": kind, "text": text, "data": data, "keys": keys, "script": list(script), "pack": pack, "core": core, "limit": limit}
        status, found = self.ask("inputs", inputs)
        if status != 200:
            raise SystemExit(f"check-console: no run: {status} {found}")
        return found

    def example(self, name):
        return self.ask("example?name=" + name)[1]

    def state(self, run, n):
        return self.ask(f"state?id={run['id']}&n={n}")[1]

    def panel(self, run, n):
        return self.ask(f"panel?id={run['id']}&n={n}")[1]

    def end(self, number=signal.SIGTERM):
        """Ends it by a signal; returns the code, and what is left in its folder."""
        self.child.send_signal(number)
        code = self.child.wait(60)
        self.child.stdout.close()
        return code, os.listdir(self.temporary)


def is_left_clean(console):
    """Ends a console, and says whether it has left nothing behind."""
    _, left = console.end()
    if not left:
        os.rmdir(console.temporary)
    return left == []
