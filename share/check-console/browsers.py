"""Two browsers, driven without a library: Chromium by its driver, over HTTP, and Firefox by its own port."""

import base64
import json
import os
import re
import shutil
import socket
import subprocess
import tempfile
import time
import urllib.error
import urllib.request

ELEMENT = "element-6066-11e4-a52e-4f735466cecf"
PATIENCE = int(os.environ.get("PATIENCE", "120"))       # seconds; a machine that is at other work too may need more
KEYS = {"enter": "\ue007", "home": "\ue011", "tab": "\ue004", "down": "\ue015", "right": "\ue014"}


class Slip(Exception):
    """The browser answers otherwise than it should."""


class Browser:
    """What both browsers can do. A control is named by its id, or by a selector of CSS."""

    def js(self, text, *words):
        """What a script in the page returns."""
        return self.execute(text, words)

    def view(self, expression):
        """A value of the page: `s` is the state that it shows, `view` all that it knows."""
        return self.js("const s = view.s; return " + expression)

    def wait(self, expression, what=None, seconds=PATIENCE):
        """Waits until an expression of the page is true; else ends with what it says."""
        until = time.monotonic() + seconds
        while time.monotonic() < until:
            try:
                if self.view("!!(" + expression + ")"):
                    return
            except Slip:
                pass
            time.sleep(.02)
        raise Slip(f"waited in vain for {what or expression}; the page says {self.js('return document.getElementById(`say`).textContent')!r}")

    def at(self, n):
        """Waits until the page shows a step with its lights."""
        self.wait(f"s && s.n === {n} && view.panel && view.panel.n === {n} && !view.playing", f"step {n}")

    def click(self, control):
        self.click_element(self.find(control))

    def type(self, control, text):
        self.send(self.find(control), text.replace("\n", KEYS["enter"]))

    def text(self, control):
        return self.js("return document.querySelector(arguments[0]).textContent", self.selector(control))

    def paper(self):
        """What is on the paper of the typewriter."""
        return self.js("return document.querySelector('.sheet').innerText.trim()")

    def choose(self, control, value):
        self.js("const s = document.querySelector(arguments[0]); s.value = arguments[1]; s.dispatchEvent(new Event('change'))",
                self.selector(control), value)

    def go(self, n):
        """By the field of the step number."""
        self.choose("count", n)
        self.at(n)

    def example(self, name):
        self.js("view.s = null")
        self.choose("examples", name)
        self.wait(f"s && view.panel && view.name === {json.dumps(name)}", "example " + name)

    def open(self, kind, text, data="", keys="", script=(), pack=None, core=20000):
        """Opens inputs as a file would be opened, with others besides."""
        self.js("view.s = null; open(arguments[0], 'test')",
                {"kind": kind, "text": text, "data": data, "keys": keys, "script": list(script), "pack": pack, "core": core})
        self.wait("s && view.panel || !document.getElementById('refusal').hidden", "the inputs")

    @staticmethod
    def selector(control):
        return control if re.search(r"[^a-z0-9-]", control) else "#" + control


class Chromium(Browser):
    """A Chromium without a window, in a folder of its own."""

    def __init__(self, width=1400, height=1500, dark=False, reduced=False):
        self.folder = tempfile.mkdtemp(prefix="check-console-")
        self.driver = subprocess.Popen(["chromedriver", "--port=0"], stdin=subprocess.DEVNULL, stdout=subprocess.PIPE, stderr=subprocess.DEVNULL,
                                       env=dict(os.environ, HOME=self.folder))
        self.session = None
        try:
            self.base = "http://127.0.0.1:" + self.port()
            words = ["--headless=new", "--no-sandbox", "--disable-gpu", "--disable-dev-shm-usage", f"--window-size={width},{height}",
                     f"--user-data-dir={self.folder}/profile"]
            words += ["--blink-settings=preferredColorScheme=0"] if dark else []
            words += ["--force-prefers-reduced-motion"] if reduced else []
            options = {"args": words}
            wanted = {"browserName": "chrome", "goog:chromeOptions": options, "goog:loggingPrefs": {"browser": "ALL"}}
            found = self.ask("POST", "/session", {"capabilities": {"alwaysMatch": wanted}})
            self.session = "/session/" + found["sessionId"]
            self.ask("POST", self.session + "/timeouts", {"script": PATIENCE * 1000, "pageLoad": PATIENCE * 1000})
        except BaseException:
            self.close()
            raise

    def port(self):
        for line in self.driver.stdout:
            found = re.search(rb"started successfully on port (\d+)", line)
            if found:
                return found[1].decode()
        raise Slip("chromedriver does not start")

    def ask(self, method, path, body=None):
        data = None if body is None else json.dumps(body).encode()
        request = urllib.request.Request(self.base + path, method=method, data=data, headers={"Content-Type": "application/json"})
        try:
            with urllib.request.urlopen(request, timeout=2 * PATIENCE) as reply:
                return json.loads(reply.read())["value"]
        except urllib.error.HTTPError as error:
            raise Slip(json.loads(error.read())["value"]["message"]) from None

    def get(self, address):
        self.ask("POST", self.session + "/url", {"url": address})

    def execute(self, text, words):
        return self.ask("POST", self.session + "/execute/sync", {"script": text, "args": words})

    def execute_async(self, text, *words):
        """What a script in the page gives to the function that is its last argument."""
        return self.ask("POST", self.session + "/execute/async", {"script": text, "args": words})

    def find(self, control):
        return self.ask("POST", self.session + "/element", {"using": "css selector", "value": self.selector(control)})[ELEMENT]

    def click_element(self, element):
        """Clicks on an element. If the line that stays at the top hides it, the page is scrolled first, as a user scrolls it."""
        try:
            self.ask("POST", f"{self.session}/element/{element}/click", {})
        except Slip as why:
            if "click intercepted" not in str(why):
                raise
            self.execute("arguments[0].scrollIntoView({block: 'center'})", [{ELEMENT: element}])
            self.ask("POST", f"{self.session}/element/{element}/click", {})

    def send(self, element, text):
        self.ask("POST", f"{self.session}/element/{element}/value", {"text": text})

    def tap(self, *keys):
        """Keys, as on the keyboard, to whatever has the focus."""
        actions = [{"type": kind, "value": KEYS.get(key, key)} for key in keys for kind in ("keyDown", "keyUp")]
        self.ask("POST", self.session + "/actions", {"actions": [{"type": "key", "id": "keys", "actions": actions}]})

    def shot(self, path):
        with open(path, "wb") as file:
            file.write(base64.b64decode(self.ask("GET", self.session + "/screenshot")))

    def complaints(self):
        """What the browser has against the page."""
        return [entry["message"] for entry in self.ask("POST", self.session + "/se/log", {"type": "browser"})]

    def window(self):
        """Another window, and the name of this one."""
        here = self.ask("GET", self.session + "/window")
        return here, self.ask("POST", self.session + "/window/new", {"type": "window"})["handle"]

    def switch(self, window):
        self.ask("POST", self.session + "/window", {"handle": window})

    def close(self):
        try:
            if self.session:
                self.ask("DELETE", self.session)
        except (Slip, OSError):
            pass
        self.driver.terminate()
        self.driver.wait()
        shutil.rmtree(self.folder, ignore_errors=True)


class Firefox(Browser):
    """A Firefox without a window, in a folder of its own, by its port for tests (Marionette)."""

    def __init__(self, width=1400, height=1300):
        self.folder = tempfile.mkdtemp(prefix="check-console-")
        with socket.socket() as free:
            free.bind(("127.0.0.1", 0))
            port = free.getsockname()[1]
        with open(os.path.join(self.folder, "user.js"), "w", encoding="ascii") as file:
            file.write(f'user_pref("marionette.port", {port});\nuser_pref("app.update.enabled", false);\n')
        words = ["firefox-esr", "--headless", "--marionette", "--profile", self.folder, "--width", str(width), "--height", str(height)]
        self.child = subprocess.Popen(words, env=dict(os.environ, HOME=self.folder), stdin=subprocess.DEVNULL, stdout=subprocess.DEVNULL,
                                      stderr=subprocess.DEVNULL)
        self.number, self.held, self.socket = 0, b"", None
        until = time.monotonic() + 2 * PATIENCE
        while not self.socket:
            try:
                self.socket = socket.create_connection(("127.0.0.1", port), 1)
            except OSError:
                if time.monotonic() > until or self.child.poll() is not None:
                    self.close()
                    raise Slip("Firefox does not start") from None
                time.sleep(.2)
        self.socket.settimeout(2 * PATIENCE)
        self.receive()
        self.ask("WebDriver:NewSession", capabilities={})

    def receive(self):
        while b":" not in self.held:
            self.held += self.socket.recv(65536)
        size, _, self.held = self.held.partition(b":")
        while len(self.held) < int(size):
            self.held += self.socket.recv(1 << 20)
        text, self.held = self.held[:int(size)], self.held[int(size):]
        return json.loads(text)

    def ask(self, name, **words):
        self.number += 1
        text = json.dumps([0, self.number, name, words]).encode()
        self.socket.sendall(b"%d:%s" % (len(text), text))
        _, _, error, found = self.receive()
        if error:
            raise Slip(error.get("message"))
        return found

    def get(self, address):
        self.ask("WebDriver:Navigate", url=address)

    def execute(self, text, words):
        # The page's own names are those of the page alone where the script runs within it.
        return self.ask("WebDriver:ExecuteScript", script=text, args=list(words), sandbox=None).get("value")

    def find(self, control):
        return self.ask("WebDriver:FindElement", using="css selector", value=self.selector(control))["value"][ELEMENT]

    def click_element(self, element):
        self.ask("WebDriver:ElementClick", id=element)

    def send(self, element, text):
        self.ask("WebDriver:ElementSendKeys", id=element, text=text)

    def shot(self, path):
        with open(path, "wb") as file:
            file.write(base64.b64decode(self.ask("WebDriver:TakeScreenshot", full=False)["value"]))

    def close(self):
        try:
            if self.socket:
                self.ask("Marionette:Quit", flags=["eForceQuit"])
        except (Slip, OSError, ValueError):
            pass
        try:
            self.child.wait(20)
        except subprocess.TimeoutExpired:
            self.child.kill()
            self.child.wait()
        shutil.rmtree(self.folder, ignore_errors=True)
