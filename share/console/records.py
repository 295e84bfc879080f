"""A record: one file with the page and all steps of a run, for a browser without a server."""

import json
import re

from answers import describe
from batches import Point, lights_of, tested_by
from frames import FRAMES_MOST, frames
from page import RECORD
from panels import left, lights
from signs import Refused, bare, to_bytes
from states import place, sectors
from told import CODES

# The instructions that may change an indicator: sums, comparisons, units, and the branches that test one.
CHANGING = {"11", "12", "14", "17", "21", "22", "24", "27", "34", "35", "36", "37", "38", "39", "46", "47"}
UNITS = {"36": "read ", "37": "read ", "38": "write ", "39": "write ", "35": "dump "}
CALLS = ("17", "27")        # a branch that leaves the address behind it in IR-2
SEEKS_MOST = 500            # behind so many the arms are asked for, one by one; where there are more, a record does not have them


class Steps:
    """The steps of a run from a count on, and core before the first of them."""

    def __init__(self, first, frames, core):
        self.first, self.frames, self.core = first, frames, core
        self.last = first + len(frames)
        self.marks = [core]             # core before each 500th step
        for number, (_, _, _, _) in enumerate(self.walk()):
            if number and number % 500 == 0:
                self.marks.append("".join(self.cells))

    def walk(self):
        """Each step: its count, its frame, the twelve cells of its instruction, and their digits. Core before it stands in `cells`."""
        self.cells = list(self.core)
        for n, frame in enumerate(self.frames, self.first):
            text = "".join(self.cells[frame["ir"]:frame["ir"] + 12])
            yield n, frame, text, bare(text)
            for at, char in frame["cells"]:
                self.cells[at] = char

    def core_at(self, n):
        mark = min((n - self.first) // 500, len(self.marks) - 1)
        cells = list(self.marks[mark])
        for frame in self.frames[500 * mark:n - self.first]:
            for at, char in frame["cells"]:
                cells[at] = char
        return "".join(cells)

    def typed_by(self, n):
        return to_bytes("".join(frame["typed"] for frame in self.frames[:n - self.first]))


async def record(run, most):
    """The record of a run, up to so many steps of the program, as the page reads it; how the run ends; and the count of its last step."""
    if run.refusal:
        raise Refused("\n".join(["the source is refused: " + run.refusal["line"], *run.refusal["said"]]))
    end = await run.end()
    steps = await all_steps(run, run.first, min(end["n"], most))
    acts = [(at, line) for at, line in zip(await run.acted(), run.script) if at is not None]
    made = {"about": await describe(run), "first": steps.first, "last": steps.last, "ir": (await place(run, steps.last)).ir, "core": squeezed(steps.core),
            "frames": [short(frame) for frame in steps.frames], "lights": await all_lights(run, steps, acts),
            "arms": await all_arms(run, steps), "outs": await all_counts(run, steps, acts),
            "sectors": sectors((await place(run, steps.last)).outputs.pack, run.inputs.pack or b"")}
    return made, end, steps.last


async def in_turn(loop, works, many):
    """What these come to, in their order; so many are at work at once."""
    made, started = [], []
    for work in works:
        started.append(loop.start(work))
        if len(started) >= many:
            made.append(await started.pop(0))
    return made + [await promise for promise in started]


async def all_steps(run, first, last):
    """All steps between two counts: sessions for a thousand each."""
    works = (frames(run, begin, min(FRAMES_MOST, last - begin)) for begin in range(first, last, FRAMES_MOST))
    parts = await in_turn(run.store.loop, works, max(2, run.program.free))
    core = parts[0]["core"] if parts else (await place(run, first)).core
    return Steps(first, [frame for part in parts for frame in part["frames"]], core)


async def all_lights(run, steps, acts):
    """The lights, by the counts from which on they are so: a number with a bit for each indicator, and IR-2."""
    ir2 = (await lights(run, steps.first))["ir2"]
    at_acts, loads = {at for at, _ in acts}, {at for at, line in acts if line.endswith(" LOAD")}
    wanted, points, tested, called = {steps.first: ir2}, [], set(), False
    for n, frame, text, digits in steps.walk():
        if n in wanted and n > steps.first and frame["ir"] % 2 == 0 and len(text) == 12 and "?" not in text:
            points.append(Point(n, frame["ir"], text, frozenset(tested)))
            tested.clear()
        tested |= set(CODES) if n + 1 in loads else tested_by(digits)
        called = digits[:2] in CALLS
        ir2 = frame["ir"] + 12 if called else ir2
        if digits[:2] in CHANGING or n + 1 in at_acts:
            wanted[n + 1] = ir2
    found = await lights_of(run, steps, points, acts)

    async def ask(n):
        """What no side run of many questions has said is asked for by itself."""
        lamps = await lights(run, n)
        return [number_of({code for code in CODES if lamps["on"][str(code)]}), lamps["ir2"]]
    others = [n for n in sorted({*wanted, steps.last}) if n not in found]
    made = dict(zip(others, await in_turn(run.store.loop, (ask(n) for n in others), 16)))
    made.update((n, [number_of(on), wanted[n]]) for n, on in found.items())
    end = await lights(run, steps.last)
    if await run.is_open(steps.last) and end["ir2"] != ir2 and not called:
        raise Refused(f"IR-2 is {end['ir2']} at the end, and not {ir2} as was worked out")
    return thinned(made)


def thinned(made):
    """Without those that are as the ones before."""
    found, last = {}, 0
    for n in sorted(made):
        if made[n] != last:
            found[n] = last = made[n]
    return found


async def all_arms(run, steps):
    """Where the arms of the drives stand, by the counts from which on they do: only a seek moves one."""
    counts = [steps.first, *(n + 1 for n, _, _, digits in steps.walk() if digits[:2] == "34" and digits[8:10] == "07")]
    if len(counts) > SEEKS_MOST + 1:
        return []

    async def ask(n):
        return (await lights(run, n))["arms"]
    found = thinned(dict(zip(counts, await in_turn(run.store.loop, (ask(n) for n in counts), 16))))
    return [[n, *arms] for n, arms in found.items()]


def number_of(on):
    return sum(1 << place for place, code in enumerate(CODES) if code in on)


async def all_counts(run, steps, acts):
    """How many cards and lines are left and were punched, by the counts from which on it is so: as the instructions say, where that agrees with the
    counts at the end; else each is asked for."""
    async def now(n):
        punched = len((await place(run, n)).outputs.punched)
        return [n, await left(run, n, "cards"), await left(run, n, "keys"), punched]
    loads, end = {at for at, line in acts if line.endswith(" LOAD")}, await run.end()
    wanting = end["n"] if end["kind"].startswith(("NEED", "JAM")) else None
    rows, asked = [await now(steps.first)], []
    for n, _, _, digits in steps.walk():
        unit = UNITS.get(digits[:2], "") + digits[8:10]
        if n + 1 in loads or unit in ("read 05", "read 01", "write 04", "dump 04"):
            _, cards, keys, punched = rows[-1]
            if isinstance(cards, int) and isinstance(keys, int) and n + 1 != wanting:
                cards, keys = cards - (unit == "read 05") - (n + 1 in loads), keys - (unit == "read 01")
            rows.append([n + 1, cards, keys, punched + (unit == "write 04")])
            asked.append(n + 1)
    found = await now(steps.last)
    known = next((row for row in reversed(rows) if row[0] <= found[0]), rows[0])
    if known[1:] != found[1:] or any(isinstance(value, int) and value < 0 for row in rows for value in row[1:]):
        rows = rows[:1] + await in_turn(run.store.loop, (now(n) for n in asked), 16)
    return {"rows": rows, "punched": (await place(run, steps.last)).outputs.punched}


def short(step):
    """A step as a short list: where it stood, the changed cells as addresses and texts, and what it typed."""
    cells = []
    for at, char in step["cells"]:
        if cells and cells[-2] + len(cells[-1]) == at:
            cells[-1] += char
        else:
            cells += [at, char]
    return [step["ir"], cells] + ([step["typed"]] if step["typed"] else [])


def squeezed(core):
    """Core with each long row of one character as that and its length."""
    return re.sub(r"(.)\1{9,}", lambda found: f"~{found[1]}{len(found[0])};", core)


def as_page(page, rule, made):
    """The page with the record in it. What a browser would take for a mark is written otherwise."""
    text = json.dumps(made, separators=(",", ":")).replace("<", "\\u003c").replace("\u2028", "\\u2028").replace("\u2029", "\\u2029")
    rule = "; ".join(part for part in rule.split("; ") if not part.startswith(("frame-ancestors", "connect-src")))
    page = page.replace('<meta charset="utf-8">', f'<meta charset="utf-8">\n<meta http-equiv="Content-Security-Policy" content="{rule}">', 1)
    return page.replace(RECORD, RECORD.replace("></", ">" + text + "</")).encode()
