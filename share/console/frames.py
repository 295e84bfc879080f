"""Many steps of a run in a row, by one session of the debugger: where each stood, which cells it changed, what it typed."""

import re

from signs import to_text
from states import AT, debug, differing, place, shows

FRAMES_MOST = 1000      # in one answer: their commands have at most 960,000 bytes, with the largest core
LEAVES_CORE = re.compile(r"(AT \d+|HALT) (START|SWITCH|OVERFLOW|IO)\b")     # what the operator does that changes no cell; all else may


def skipped(count):
    """How many bytes the AT lines of the first so many steps have at least."""
    made = low = 0
    for digits in range(1, 16):
        high = min(count, 10 ** digits)
        made += max(0, high - low) * (16 + digits)
        low = max(low, high)
    return made


async def frames(run, n, count):
    """Core at count n, and up to so many steps from there on."""
    n, end, acts = await run.clamp(n), await run.end(), await run.acted()
    show = shows(run.core)
    count = max(0, min(count, FRAMES_MOST, end["n"] - n))
    if not count:
        return {"id": run.id, "n": n, "core": (await place(run, n)).core, "frames": []}
    offset = n + run.offset
    commands = (f"STEP {offset}\n" if offset else "") + show + ("STEP 1\n" + show) * count
    done = await debug(run, commands, run.script, run.inputs.limit + run.offset)
    # Where the operator has changed core behind a step, core there is looked at by itself: a session shows it as the step has left it. So it is at the
    # first place: there a deck has been loaded by a key of the operator.
    others = {run.first, *(at for at, line in zip(acts, run.script) if at is not None and not LEAVES_CORE.match(line))}
    reader = Reader(run, done.out, skipped(offset))
    begin = core = (await place(run, n)).core if n in others else reader.cells
    made = []
    for number in range(1, count + 1):
        found = reader.step()
        if not found or found[1] != offset + number - 1:
            break
        ir, _, typed, now = found
        now = (await place(run, n + number)).core if n + number in others else now
        if n + number == end["n"]:
            typed = re.sub(rb"((HALT|CHECK \d\d|NEED CARDS|NEED KEYS) \d{5,} STEPS \d+|LIMIT STEPS \d+|JAM [A-Z]+ \d+)\n$", b"", typed)
        made.append({"ir": ir, "cells": [[at, now[at]] for at in differing(core, now)] if now != core else [], "typed": to_text(typed)})
        core = now
    return {"id": run.id, "n": n, "core": begin, "frames": made}


class Reader:
    """Reads what a session prints that steps and shows core in turn. Text that is typed stands among its lines, and need not end a line."""

    def __init__(self, run, out, at):
        self.core, self.out, self.look_at = run.core, out, run.program.look_at
        self.size = 1007 * (run.core // 1000)
        self.first = re.compile(rb"00000 [^\n]{1000}\n01000 ")
        self.shown, self.cells = b"", ""
        found = self.first.search(out, at)
        self.look_at(found)
        self.at = found.start()
        self.block()

    def block(self):
        """The core that is shown from here on."""
        text = self.out[self.at:self.at + self.size]
        if text != self.shown:
            self.shown = text
            self.cells = b"".join(text[at + 6:at + 1006] for at in range(0, self.size, 1007)).decode("latin-1")
        self.at += self.size
        return self.cells

    def step(self):
        """The next step: its address, its count, what it typed, and core behind it; or None where there is none."""
        found = AT.match(self.out, self.at)
        if not found:
            return None
        behind = self.first.search(self.out, found.end())
        self.look_at(behind)
        self.at = behind.start()
        return int(found[1]), int(found[2]), self.out[found.end():self.at], self.block()
