"""The panel at a step of a run, as the console's line has it: the lights, IR-2, the arms of the disk drives, and the cards and lines that are left."""

from states import name_of_place, place
from told import CODES

CARD_MOST = 80      # bytes; a longer line jams


async def panel(run, n, is_whole=True):
    """The lights at count n, and the cards and lines that are left there. A whole panel is asked for where the state is shown too."""
    n = await run.clamp(n)
    if is_whole:
        await place(run, n)
    works = [lights(run, n), *((left(run, n, "cards"), left(run, n, "keys")) if is_whole else ())]
    found = [await promise for promise in [run.store.loop.start(work) for work in works]]
    return {"id": run.id, "n": n, "lights": found[0], **({"cardsLeft": found[1], "keysLeft": found[2]} if is_whole else {})}


async def told_at(run, n):
    """The console's line at count n."""
    end, told = await run.ended()
    if n >= end["n"]:
        return told
    if run.store.has(await name_of_place(run, n)):
        return (await place(run, n)).told
    return (await run.under((await run.lines_by(n))[0], n))[1]


async def lights(run, n):
    """Indicators, IR-2 and arms at count n."""
    told = await told_at(run, n)
    return {"on": {str(code): code in told.on for code in CODES}, "ir2": told.ir2, "arms": list(told.arms), "why": ""}


async def left(run, n, unit):
    """How many cards, or lines of the keyboard, are left at count n: a number, or ["jam", number] before a line that jams."""
    told = await told_at(run, n)
    lines, read = run.fed(unit), told.deck + told.data if unit == "cards" else told.keys
    return ["jam", len(lines) - read] if read < len(lines) and len(lines[read]) > CARD_MOST else len(lines) - read
