"""Lights of many steps at once, for a record: one side run asks at some thousand steps, and the run goes on behind each.

At a step the instruction at IR is made a branch to a row of BI instructions, one for each indicator, in a part of core that the run does not use;
once the branch is made, the instruction is what it was again, and the row ends with a branch back to it. On or off, a BI of the row takes two
steps, so that all counts are known; which way each went is seen by the addresses of the debugger's AT lines.

A BI turns most of the indicators off. So where one of these is on, the side run is not the run from there on, and what it says of later steps is
dropped: the next side run begins there, and does not ask for that indicator until an instruction has tested it. And a side run counts only where
all else was as in the run: each address, what was typed, and core at its end.
"""

import collections
import re

from signs import bits_of, joined
from states import AT, shows
from told import CODES

STAYS = (11, 12, 16, 17)                # a BI leaves these as they are
ROW = 36 * len(CODES)                   # the cells of the row, without the branch back
STEPS = 2 + 2 * len(CODES)              # the steps of a question
SCRIPT_MOST = 950_000
SIDE_RUNS_MOST = 60

Point = collections.namedtuple("Point", "n ir cells tested")


def room(core, changed):
    """Where the row can stand: zeros that no step has changed, as far up as there are any; or None."""
    free = 0
    for at in range(len(core) - 1, 400, -1):
        free = free + 1 if core[at] == "0" and at not in changed else 0
        if free >= ROW + 12 and at % 2 == 0:
            return at
    return None


def turned(address, old, new):
    """The bits, as addresses and numbers, that make the cells from this address on hold another text."""
    for at, (was, char) in enumerate(zip(old, new), address):
        bits = bits_of(was) ^ bits_of(char)
        yield from ((at, bit) for bit in range(6) if bits >> bit & 1)


def row_of(base, held):
    """The instructions of the row; an indicator that is held is not asked for."""
    made = []
    for number, code in enumerate(CODES):
        at = base + 36 * number
        ask = "410000000000" if code in held else f"46{at + 24:05d}0{code:02d}00"
        made.append(ask + f"49{at + 36:05d}00000" + "410000000000")
    return "".join(made)


class Batches:
    """The questions of a record, over its steps, with the operator's lines and the counts at which they act, and the row at a base."""

    def __init__(self, run, steps, lines, base):
        self.run, self.steps, self.lines, self.base = run, steps, lines, base
        self.known = {}

    def flips(self, *change):
        """The words of the lines that make the cells from an address on hold another text. In a loop the same ones come again and again."""
        if change not in self.known:
            self.known[change] = [f"FLIP {at} {bit}" for at, bit in turned(*change)]
        return self.known[change]

    async def ask(self, points, held):
        """The answers at the first of these points, as many as could be had, each a set of the indicators that are on; or None where the side run
        was not as the run."""
        script, points = self.script(points, held)
        last = points[-1]
        count = last.n + self.run.offset + STEPS * len(points)
        done = await self.session(script, count)
        addresses = [int(address) for address, _ in AT.findall(done.out)]
        made = []
        for number, point in enumerate(points):
            begin = point.n + self.run.offset + STEPS * number + 1
            if addresses[begin:begin + 1] != [self.base]:
                return None
            on = {code for place, code in enumerate(CODES) if addresses[begin + 2 * place + 1:begin + 2 * place + 2] == [self.base + 36 * place + 24]}
            made.append(on | held)
            if on - set(STAYS) and number + 1 < len(points):
                # Behind it the side run is another one; so it is done again up to here.
                return await self.ask(points[:number + 1], held)
        return made if len(addresses) == count and self.is_as_run(addresses, points, done, last) else None

    def session(self, script, count):
        prefix = self.run.prefix
        commands = f"STEP {count}\n" + shows(self.run.core)
        inputs = {"source": self.run.paths["source"], "data": self.run.paths["hopper"], "keys": self.run.paths["keys"], "commands": commands.encode(),
                  "script": joined([*prefix, *script])}
        if self.run.inputs.pack:
            inputs["pack"] = self.run.inputs.pack
        limit = self.run.inputs.limit + self.run.offset + count
        return self.run.program.call("debug", inputs, ["--limit", limit, "--core", self.run.core], ["typed"])

    def script(self, points, held):
        """The lines of a side run over as many of these points as a script has room for, and these points."""
        made, size, used = [], len(joined(self.run.prefix)), []
        back, row = "0" * 12, row_of(self.base, held)
        lines = iter([*self.lines, (float("inf"), "")])
        acts, line = next(lines)
        for point in points:
            passed = STEPS * len(used)
            part = []
            while acts <= point.n:
                part.append(self.shifted(line, passed))
                acts, line = next(lines)
            now = point.n + self.run.offset + passed
            if not used:
                part += [f"AT {now} OVERFLOW PROGRAM", f"AT {now} IO PROGRAM"]
                part += [f"AT {now} {flip}" for flip in self.flips(self.base, "0" * ROW, row)]
            come_in = self.flips(point.ir, point.cells, f"49{self.base:05d}")
            part += [f"AT {now} {flip}" for flip in (*come_in, *self.flips(self.base + ROW, back, f"49{point.ir:05d}00000"))]
            part += [f"AT {now + 1} {flip}" for flip in come_in]
            size += len(joined(part))
            if used and size > SCRIPT_MOST:
                break
            back = f"49{point.ir:05d}00000"
            made += part
            used.append(point)
        return made, used

    def shifted(self, line, passed):
        """An operator's line among the questions: where it has a count, this is higher by their steps."""
        found = re.match(r"AT (\d+) (.*)", line)
        return f"AT {int(found[1]) + self.run.offset + passed} {found[2]}" if found else line

    def is_as_run(self, addresses, points, done, last):
        """Whether all but the questions was as in the run."""
        first, frames = self.steps.first, self.steps.frames
        at, before = 0, first
        for point in (*points, None):
            until = point.n if point else last.n
            steps = frames[before - first:until - first]
            start = before + self.run.offset + STEPS * at
            if addresses[start:start + len(steps)] != [frame["ir"] for frame in steps]:
                return False
            before, at = until, at + 1
        lines = done.out[-1007 * (self.run.core // 1000) - len(b"SESSION ENDED\n"):]
        core = b"".join(lines[at + 6:at + 1006] for at in range(0, 1007 * (self.run.core // 1000), 1007)).decode("latin-1")
        wanted, end = self.steps.core_at(last.n), self.base + ROW + 12
        return core[:self.base] == wanted[:self.base] and core[end:] == wanted[end:] and done.files["typed"] == self.steps.typed_by(last.n)


async def lights_of(run, steps, points, lines):
    """The indicators that are on at these points, by their counts, as far as side runs of many questions say it."""
    base = room(steps.core, {at for frame in steps.frames for at, _ in frame["cells"]})
    found, held, place = {}, set(), 0
    # A bit that the operator lets fail may be one of the instruction that is asked at.
    if base is None or any("FLIP" in line for _, line in lines):
        return found
    batches = Batches(run, steps, lines, base)
    for _ in range(SIDE_RUNS_MOST):
        if place == len(points):
            break
        # Where an instruction has tested an indicator that is held, it is asked for again, and a side run begins there.
        held -= points[place].tested
        until = next((number for number in range(place + 1, len(points)) if points[number].tested & held), len(points))
        answers = await batches.ask(points[place:until], frozenset(held))
        if answers is None:
            break
        for point, on in zip(points[place:], answers):
            found[point.n] = on
        held |= answers[-1] - set(STAYS)
        place += len(answers)
    return found


def tested_by(digits):
    """The indicators that an instruction may have turned off: a BI or a BNI does that to the one that it tests."""
    return {int(digits[8:10])} if digits[:2] in ("46", "47") and digits[8:10].isdigit() else set()
