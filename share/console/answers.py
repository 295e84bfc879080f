"""What the page asks for, apart from HTTP: each request comes to a table of values, or is refused in words for the user."""

import io
import os
import re
import zipfile

from frames import frames
from panels import panel
from runs import Inputs
from signs import Refused, joined, lines_of, script_of, to_bytes, to_text
from states import place, state, stop_at
from store import LIMIT_MOST, PACK_MOST, SCRIPT_MOST, SOURCE_MOST

FIRST = ("one-card", "first-source", "lessons/sums", "programs/squares", "payroll", "programs/dialogue")
FILES = {"data": SOURCE_MOST, "keys": SOURCE_MOST, "script": SCRIPT_MOST, "pack": PACK_MOST}
LIMIT = 1_000_000


def find_examples(folder):
    """The menu: each folder of examples with a source or a deck, by its name. No other file can be asked for."""
    found = {}
    for root, folders, files in os.walk(folder):
        folders.sort()
        name = os.path.relpath(root, folder)
        kind = next((kind for kind in ("source", "deck") if kind + ".txt" in files), None)
        if kind:
            found[name] = {"kind": kind, "text": [os.path.join(root, kind + ".txt")]}
            found[name].update((part, os.path.join(root, part + ".txt")) for part in (*FILES, "about") if part + ".txt" in files)
        elif name == "lessons":
            for file in sorted(files):
                if file.endswith(".txt") and file != "about.txt":
                    found["lessons/" + file[:-4]] = {"kind": "source", "text": [os.path.join(root, file)]}
    if "add-two" in found and "tables" in found:
        found["add-two with the tables"] = dict(found["add-two"], text=found["tables"]["text"] + found["add-two"]["text"])
    if "large-core" in found:
        found["large-core"]["core"] = 40000
    return {name: found[name] for name in (*(name for name in FIRST if name in found), *sorted(name for name in found if name not in FIRST))}


def read_file(path, most):
    """The bytes of a file, which may have so many."""
    with open(path, "rb") as file:
        data = file.read(most + 1)
    if len(data) > most:
        raise Refused(f"{path} has more than {most:,} bytes", 413)
    return data


def command(run):
    """The command that does this run again, over the files of `saved`."""
    inputs = run.inputs
    words = ["ibm1620", "run" if run.kind == "source" else "load", f"--{run.kind}", f"{run.kind}.txt"]
    for name, value in (("data", inputs.data), ("keys", inputs.keys), ("script", inputs.script), ("pack", inputs.pack)):
        words += [f"--{name}", f"{name}.txt"] if value else []
    words += ["--core", str(inputs.core)] if inputs.core != 20000 else []
    words += ["--limit", str(inputs.limit)] if inputs.limit != LIMIT else []
    return " ".join(words)


def saved(run):
    """All files of a session, and the command that does it again, as a zip."""
    inputs, made = run.inputs, io.BytesIO()
    with zipfile.ZipFile(made, "w", zipfile.ZIP_DEFLATED) as file:
        for name, value in ((run.kind, inputs.text), ("data", inputs.data), ("keys", inputs.keys), ("script", joined(inputs.script)),
                            ("pack", inputs.pack)):
            if value or name == run.kind:
                file.writestr(name + ".txt", value)
        file.writestr("replay.txt", command(run) + "\n")
    return made.getvalue()


async def describe(run):
    """What is known of a run as a whole."""
    inputs = run.inputs
    made = {"id": run.id, "kind": run.kind, "text": to_text(inputs.text), "data": to_text(inputs.data), "keys": to_text(inputs.keys),
            "script": list(inputs.script), "pack": to_text(inputs.pack) if inputs.pack else None, "core": inputs.core, "limit": inputs.limit,
            "refusal": run.refusal}
    if not run.refusal:
        made.update(listing=run.listing, loading=run.loading, deck=lines_of(run.deck), end=await run.end(), acts=await run.acted(), command=command(run))
    return made


class Answers:
    """The requests of the page, by their names."""

    saves = True

    def __init__(self, store, examples, first):
        self.store, self.examples, self.first = store, examples, first
        self.is_ahead = False

    async def get(self, name, query):
        if name == "examples":
            return {"names": list(self.examples), "first": self.first}
        if name == "example":
            return self.example(query.get("name"))
        run = self.store.find(query.get("id"))
        if run.refusal:
            raise Refused("the source is refused: " + run.refusal["line"])
        n = number(query, "n")
        if name == "state":
            return await state(run, n)
        if name == "panel":
            found = await panel(run, n, query.get("part") != "lights")
            self.look_ahead(run, found["n"] + 1)
            return found
        if name == "frames":
            return await frames(run, n, number(query, "count"))
        if name == "stop":
            return await stop_at(run, n, [int(stop) for stop in re.findall(r"\d{1,5}", query.get("stops", ""))[:1000]])
        raise Refused("no such thing here", 404)

    async def post(self, name, body):
        if name == "inputs":
            return await describe(await self.store.make(self.inputs(body)))
        if name == "act":
            return await self.act(body)
        raise Refused("no such thing here", 404)

    def look_ahead(self, run, n):
        """Works out the next step before it is asked for, where nothing else is to be done."""
        async def work():
            try:
                if n <= (await run.end())["n"]:
                    await state(run, n)
                    await panel(run, n)
            except Refused:
                pass
            finally:
                self.is_ahead = False
        if not self.is_ahead and self.store.program.is_idle():
            self.is_ahead = True
            self.store.loop.start(work())

    @staticmethod
    def inputs(body):
        def text(name):
            value = body.get(name)
            if value is not None and not isinstance(value, str):
                raise Refused(f"{name} is no text")
            return to_bytes(value or "")
        script = body.get("script") or []
        if not isinstance(script, list) or not all(isinstance(line, str) and "\n" not in line for line in script):
            raise Refused("the script is a list of lines")
        limit, core = body.get("limit") or LIMIT, body.get("core", 20000)
        if type(limit) is not int or not 0 < limit <= LIMIT_MOST:
            raise Refused(f"the limit is a number of steps up to {LIMIT_MOST:,}")
        if type(core) is not int:
            raise Refused("core is a number")
        return Inputs(str(body.get("kind")), text("text"), text("data"), text("keys"), tuple(line for line in script if line), text("pack") or None, core,
                      limit)

    def example(self, name):
        found = self.examples.get(name)
        if found is None:
            raise Refused("no such example", 404)
        try:
            parts = {part: read_file(found[part], most) for part, most in FILES.items() if part in found}
            text = b"".join(read_file(path, SOURCE_MOST) for path in found["text"])
            about = read_file(found["about"], 100_000) if "about" in found else b""
        except OSError as error:
            raise Refused(f"{error.filename}: {error.strerror}", 404) from None
        return {"kind": found["kind"], "text": to_text(text), "data": to_text(parts.get("data", b"")), "keys": to_text(parts.get("keys", b"")),
                "script": list(script_of(parts.get("script", b""))), "pack": to_text(parts["pack"]) if "pack" in parts else None, "about": to_text(about),
                "core": found.get("core", 20000)}

    async def act(self, body):
        """A key that is pressed at count n is a line of the script, of the keyboard or of the data more. `past` says whether all is as it was up to n."""
        run = self.store.find(body.get("id"))
        n, action = body.get("n"), body.get("action")
        if type(n) is not int or not isinstance(action, str):
            raise Refused("a key has a count and a name")
        if run.refusal:
            raise Refused("the source is refused: " + run.refusal["line"])
        inputs = run.inputs
        if action in ("CARD", "KEYS"):
            name = "data" if action == "CARD" else "keys"
            inputs = inputs._replace(**{name: longer(getattr(inputs, name), body.get("line"), name)})
        else:
            inputs = inputs._replace(script=await run.insert(n, action))
        made = await self.store.make(inputs)
        is_same = action not in ("CARD", "KEYS") or made is run or await is_same_past(run, made, n)
        return dict(await describe(made), past=is_same)


def number(query, name):
    value = query.get(name, "0")
    if not re.fullmatch(r"-?\d{1,15}", value):
        raise Refused(f"{name} is no number")
    return int(value)


def longer(old, line, name):
    """Cards or lines of the keyboard with one more behind them."""
    if not isinstance(line, str) or "\n" in line or "\r" in line or len(to_bytes(line)) > 80:
        raise Refused("a card has 80 columns" if name == "data" else "a line of the keyboard has at most 80 characters")
    return old + (b"\n" if old and not old.endswith(b"\n") else b"") + to_bytes(line) + b"\n"


async def is_same_past(run, made, n):
    """Whether the run with a card or a line more stands at count n as the run without it. A card more can make an earlier one the last but one."""
    end = await run.end()
    n = max(run.first, min(n, end["n"] - end["kind"].startswith("NEED")))
    if (await made.end())["n"] < n or (await run.is_open(n) and not await made.is_open(n)):
        return False
    old, new = await place(run, n), await place(made, n)
    return (old.ir, old.core, old.outputs.typed) == (new.ir, new.core, new.outputs.typed)
