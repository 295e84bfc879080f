"""A run: its inputs, and what is found out about it by calls of the program. It never changes; other inputs are another run.

Counts: n counts from the first step of a source's program, or from the Load key of a deck. The steps by which an object deck loads itself stand
before the program's first one and have counts below 0. `load` and the debugger count from the Load key on: there a source's count is higher by
the deck's steps, `run.loading`. The debugger takes no deck; how it is given one all the same, with counts that are higher by `run.offset`, says
`blank.py`.
"""

import collections
import hashlib
import re

from signs import Refused, joined, lines_of, to_text
from told import about

Inputs = collections.namedtuple("Inputs", "kind text data keys script pack core limit")

LINE = re.compile(r"(AT|HALT) (?:(\d{1,15}) )?(.*)$")
ENDING = re.compile(rb"(HALT|CHECK \d\d|NEED CARDS|NEED KEYS|LIMIT|JAM [A-Z]+ \d+)(?: (\d{5,}))?(?: STEPS (\d+))?$")
UNITS = {"data": "data cards", "keys": "keyboard"}
KEY = re.compile(r"START|LOAD|SWITCH [1-4] (ON|OFF)|(OVERFLOW|IO) (STOP|PROGRAM)|FLIP \d{1,5} [0-5]")


def name_of(*parts):
    """A name for these bytes, which other bytes do not have."""
    made = hashlib.sha256()
    for part in parts:
        made.update(len(part).to_bytes(8, "big") + part)
    return made.hexdigest()[:24]


def for_page(said):
    """What the program says of a run's end, without words for a command line: a page has no options, and its limit does not count the loading; and
    without what the page has by a sentence of its own, which part of an instruction a check is about."""
    made = [re.sub(r"^--(\w+): line (\d+) is", lambda found: f"line {found[2]} of the {UNITS.get(found[1], found[1])} is", line) for line in said]
    return [line for line in made if "--" not in line and not re.match(r"the limit of|it is about |P is \d", line)]


class Run:
    """One run. `base` names its inputs without the script: what was read of them is kept for all scripts over them."""

    def __init__(self, store, inputs):
        self.store, self.program, self.inputs = store, store.program, inputs
        self.kind, self.script, self.core = inputs.kind, inputs.script, inputs.core
        number = [str(value).encode() for value in (inputs.core, inputs.limit)]
        self.base = name_of(inputs.kind.encode(), inputs.text, inputs.data, inputs.keys, inputs.pack or b"", *number)
        self.id = name_of(self.base.encode(), joined(inputs.script))

    def __getattr__(self, name):
        """What `prepare.py` has found out of the inputs: refusal, listing, loading, offset, prefix, deck, hopper, paths."""
        try:
            return self.__dict__["prepared"][name]
        except KeyError:
            raise AttributeError(name) from None

    # The operator's lines

    @staticmethod
    def moved(lines, by):
        """The lines with counts that are higher by so many."""
        made = []
        for line in lines:
            found = LINE.match(line)
            if found and found[1] == "AT" and found[2]:
                line = f"AT {int(found[2]) + by} {found[3]}"
            made.append(line)
        return made

    async def load(self, lines, n, outputs=(), limit=None, more=()):
        """The deck by `load` up to count n, or to a limit from the Load key on, under these lines and more of them whose counts are from the Load
        key on. Returns the result and its last line."""
        inputs = {name: self.paths[name] for name in ("deck", "data", "keys")}
        if lines or more:
            inputs["script"] = joined([*self.moved(lines, self.loading), *more])
        if "pack" in outputs or self.inputs.pack:
            inputs["pack"] = self.inputs.pack or b""
        words = ["--limit", n + self.loading if limit is None else limit, "--core", self.core]
        if "typed" not in outputs:
            words += ["--typed", "/dev/null"]
        done = await self.program.call("load", inputs, words, [*outputs, "report"])
        found = self.ending(done)
        self.program.look_at(done.told)
        return done, found

    def ending(self, done):
        """What the last line of a run says: kind, address, count from the Load key on, and what was said besides."""
        line = done.files["report"].strip()
        text = to_text(line)
        found = ENDING.match(line)
        if not found:
            if text.startswith("BAD SCRIPT"):
                number = int(text.split()[-1])
                raise Refused(f"line {number} of the script is none: {self.script[number - 1] if number <= len(self.script) else ''}")
            raise Refused("the program says " + (text or "; ".join(done.said)))
        kind = to_text(found[1])
        steps = int(found[3]) if found[3] else None
        return {"line": text, "kind": kind if kind.startswith("NEED") else kind.split()[0], "at": int(found[2]) if found[2] else None, "steps": steps,
                "n": None if steps is None else steps - self.loading, "about": about(done.told), "said": for_page(done.said)}

    async def end(self):
        """How the run ends under its whole script, up to the limit."""
        return (await self.ended())[0]

    async def ended(self):
        """The same, and the console's line there."""
        return await self.store.once(("end", self.id), self.find_end)

    async def find_end(self):
        limit = self.inputs.limit + self.loading
        done, found = await self.load(self.script, None, ("typed",), limit)
        if found["steps"] is None:      # a jam's line has no count: the least limit that is not reached is one more than the steps before it
            low, high = 0, limit
            while low < high:
                middle = (low + high + 1) // 2
                _, tried = await self.load(self.script, None, (), middle)
                low, high = (middle, high) if tried["kind"] == "LIMIT" else (low, middle - 1)
            found["n"] = low + 1 - self.loading
        elif self.kind == "source":     # as `run` counts
            found["line"] = re.sub(r"STEPS \d+$", f"STEPS {found['n']}", found["line"]) if found["n"] >= 0 else found["line"]
        return found, done.told

    async def acted(self):
        """For each line of the script the count at which it acts, or None where it never does. A line waits for those before it."""
        return await self.store.once(("acted", self.id), self.find_acted)

    async def find_acted(self):
        acts, now = [], 0
        place, script = 0, self.script
        while place < len(script):
            found = LINE.match(script[place])
            if not found:
                break
            if found[1] == "HALT":
                # Behind a key that leaves the machine halted the next line acts at once.
                before = script[place - 1] if place else ""
                if not (before.startswith("HALT ") and not before.endswith((" START", " LOAD"))):
                    end = await self.end_under(script[:place], self.inputs.limit)
                    if end["kind"] != "HALT":
                        break
                    now = end["n"]
                acts.append(now)
                place += 1
                continue
            # Lines with counts, one behind the other: where the run under them gets to the last one's count, each has acted at its own.
            group = []
            latest = now
            while place < len(script) and (found := LINE.match(script[place])) and found[1] == "AT" and found[2]:
                latest = max(latest, int(found[2]))
                group.append(latest)
                place += 1
            if not group:
                break
            end = await self.end_under(script[:place - 1], min(latest, self.inputs.limit))
            reached = end["n"] if end["kind"] in ("HALT", "LIMIT") else -1 if end["n"] is None else end["n"] - 1
            alive = [at for at in group if at <= reached]
            # A Load key may be what has ended the run, and a jam's line has no count: so the next ones are looked at one by one.
            for at in group[len(alive):]:
                if end["n"] not in (None, at):
                    break
                under = await self.end_under(script[:place - len(group) + len(alive)], at)
                if under["n"] != at or under["kind"] not in ("HALT", "LIMIT"):
                    break
                alive.append(at)
            acts += alive
            if len(alive) < len(group):
                break
            now = latest
        return acts + [None] * (len(script) - len(acts))

    async def end_under(self, lines, n):
        """How the run stands at count n, under these lines."""
        return (await self.under(lines, n))[0]

    async def under(self, lines, n):
        """The same, and the console's line there."""
        async def find():
            done, found = await self.load(lines, n)
            return found, done.told
        return await self.store.once(("under", self.base, joined(lines), n), find)

    async def lines_by(self, n):
        """The lines that have acted by count n, and how many acted at n itself."""
        acts = await self.acted()
        used = [place for place, at in enumerate(acts) if at is not None and at <= n]
        return [self.script[place] for place in used], sum(acts[place] == n for place in used)

    # Places of the run

    @property
    def first(self):
        return -self.loading

    async def clamp(self, n):
        return max(self.first, min(n, (await self.end())["n"]))

    async def is_halted(self, n):
        end = await self.end()
        return n >= end["n"] and end["kind"] == "HALT"

    async def is_open(self, n):
        """Whether the machine would go on from here, or a key of the operator is heard."""
        end = await self.end()
        return n < end["n"] or end["kind"] in ("HALT", "LIMIT")

    async def insert(self, n, action):
        """The script with a key more, at count n: behind the lines that have acted by then, before those still to come."""
        n = await self.clamp(n)
        if n < 0:
            raise Refused("the deck is still loading itself: the operator's keys count from the program's first step on")
        if not KEY.fullmatch(action):
            raise Refused("no key of the console")
        if not await self.is_open(n):
            raise Refused("the machine has stopped, and no key of this console starts it again: go back to an earlier step")
        used = len((await self.lines_by(n))[0])
        line = f"HALT {action}" if await self.is_halted(n) and not action.startswith("FLIP") else f"AT {n} {action}"
        return self.script[:used] + (line,) + self.script[used:]

    def fed(self, unit):
        """The cards of deck and data, or the lines of the keyboard."""
        return lines_of(self.deck) + lines_of(self.inputs.data) if unit == "cards" else lines_of(self.inputs.keys)
