"""The exhibit: the requests of visitors. Of the inputs they choose the program, from a list, and what is keyed; no text of a source comes from them."""

import json
import os

from answers import Answers
from runs import Inputs
from signs import Refused, to_bytes

KEYS_MOST, SCRIPT_MOST, LIMIT = 2000, 200, 1_000_000       # bytes that a visitor keys, keys of the panel, steps
ACTIONS = ("KEYS", "START", "SWITCH", "OVERFLOW", "IO", "FLIP")


def read_settings(folder):
    """The programs that visitors see, in their order, and the guided minutes."""
    with open(os.path.join(folder, "exhibit.json"), encoding="utf-8") as file:
        return json.load(file)


def read_languages(folder, first):
    """The words of the exhibit in each language, and the language at the beginning; KeyError if that one is not there."""
    found = {}
    for name in sorted(os.listdir(folder)):
        if name.startswith("words-") and name.endswith(".json"):
            with open(os.path.join(folder, name), encoding="utf-8") as file:
                found[name[6:-5]] = json.load(file)
    if first not in found:
        raise KeyError(first)
    return {"first": first, "all": found}


class Visits(Answers):
    """The requests of the exhibit's page. Nothing is saved, and no program is there but those of the list."""

    saves = False

    def __init__(self, store, examples, settings, idle, pace):
        programs = [it for it in settings["programs"] if it["name"] in examples]
        super().__init__(store, {it["name"]: examples[it["name"]] for it in programs}, None)
        guides = {name: guide for name, guide in settings["guides"].items() if guide["program"] in self.examples}
        self.told = {"programs": programs, "guides": guides, "idle": idle, "pace": pace}

    async def get(self, name, query):
        return self.told if name == "examples" else await super().get(name, query)

    async def act(self, body):
        if str(body.get("action")).split(" ")[0] not in ACTIONS or len(self.store.find(body.get("id")).script) >= SCRIPT_MOST:
            raise Refused("no key of the exhibit")
        if body["action"] == "KEYS" and len(self.store.find(body.get("id")).inputs.keys) > KEYS_MOST:
            raise Refused("too much was keyed; begin again")
        return await super().act(body)

    def inputs(self, body):
        keys, script = body.get("keys") or "", body.get("script") or []
        if not isinstance(keys, str) or len(keys) > 2 * KEYS_MOST or not isinstance(script, list) or len(script) > SCRIPT_MOST or not all(
                isinstance(line, str) and "\n" not in line for line in script):
            raise Refused("what was keyed is no text")
        found = self.example(body.get("name"))
        return Inputs(found["kind"], to_bytes(found["text"]), to_bytes(found["data"]), to_bytes(keys), tuple(filter(None, script)),
                      to_bytes(found["pack"]) if found["pack"] else None, found["core"], LIMIT)
