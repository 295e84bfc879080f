"""The machine at a step of a run: core, IR, outputs and the console's line, by sessions of the debugger over the run's inputs."""

import collections
import re

from signs import Refused, joined, lines_of, to_text

AT = re.compile(rb"AT (\d{5,}) STEPS (\d+)\n")
BACK_MOST = 1000                        # places that a session goes back

Place = collections.namedtuple("Place", "ir core was before outputs told")
Outputs = collections.namedtuple("Outputs", "typed punched pack")


def shows(core):
    return "".join(f"SHOW {at} 1000\n" for at in range(0, core, 1000))


def block(run, data, at):
    """Core as the lines of `shows` have it that stand from here on, and the place behind them."""
    cells = []
    for address in range(0, run.core, 1000):
        run.program.look_at(data[at:at + 6] == b"%05d " % address)
        cells.append(data[at + 6:at + 1006])
        at += 1007
    return b"".join(cells).decode("latin-1"), at


async def debug(run, commands, lines, limit, words=(), outputs=()):
    """A session over the run, under lines with counts as the page has them. The limit counts from the Load key of the debugger on."""
    inputs = {"source": run.paths["source"], "data": run.paths["hopper"], "keys": run.paths["keys"], "commands": commands.encode()}
    script = run.prefix + run.moved(lines, run.offset)
    if script:
        inputs["script"] = joined(script)
    if run.inputs.pack or "pack" in outputs:
        inputs["pack"] = run.inputs.pack or b""
    done = await run.program.call("debug", inputs, ["--limit", limit, "--core", run.core, *words], outputs)
    if done.code != 12:
        raise Refused("the session was refused: " + to_text(done.out[-200:]).strip() + "; ".join(done.said))
    run.program.look_at(done.told)
    # Behind a source of one halt the cards of a deck are data cards, and those of the source are none of the run's.
    return done._replace(told=done.told._replace(deck=0)) if run.kind == "deck" else done


async def place(run, n):
    """IR, core, outputs and the console's line at count n, and IR and core one step before, which are None at the first place."""
    return await run.store.once(await name_of_place(run, n), lambda: find_place(run, n), weight)


async def is_end(run, n):
    """Whether the run ends at count n, but by its limit."""
    end = await run.end()
    return n >= end["n"] and end["kind"] != "LIMIT"


async def name_of_place(run, n):
    """The name by which a place is kept: it is the same for each script whose lines have acted alike by then."""
    return ("place", run.base, joined((await run.lines_by(n))[0]), n, await is_end(run, n))


def weight(found):
    """About how many bytes a place takes that is kept."""
    return 2 * len(found.core) + len(found.outputs.typed) + len(found.outputs.pack) + 100 * len(found.outputs.punched)


async def find_place(run, n):
    """The place by a session that ends there, so that the console's line and the outputs are those at count n."""
    lines, here = await run.lines_by(n)
    count, is_last, show = n + run.offset, await is_end(run, n), shows(run.core)
    commands = "GO\n" + show + (f"BACK {1 + here}\n" + show + "GO\n" if n > run.first and here < BACK_MOST else "")
    done = await debug(run, commands, lines, count + is_last, (), ("typed", "punched", "pack"))
    line, _, _ = done.out.partition(b"\n")
    if not is_last and line != b"LIMIT STEPS %d" % count:
        raise Refused(f"the session came to {to_text(line)} and not to count {count}")
    core, at = block(run, done.out, len(line) + 1)
    outputs = Outputs(to_text(done.files["typed"]), lines_of(done.files["punched"]), done.files["pack"])
    return Place(done.told.ir, core, *place_before(run, done.out, at, count), outputs, done.told)


def place_before(run, out, at, count):
    """IR and core one step before a count, where a session shows them from here on."""
    found = AT.match(out, at)
    return (int(found[1]), block(run, out, found.end())[0]) if found and int(found[2]) == count - 1 else (None, None)


async def state(run, n):
    """What is shown of the machine at count n, except its panel."""
    n = await run.clamp(n)
    end, acts, found = await run.end(), await run.acted(), await place(run, n)
    changed = [[at, found.before[at]] for at in differing(found.before, found.core)] if found.before else []
    typed, punched = found.outputs.typed, found.outputs.punched
    return {"id": run.id, "n": n, "ir": found.ir, "was": found.was, "core": found.core, "changed": changed, "typed": typed[-20000:],
            "typedLength": len(typed), "punched": punched[-200:], "punchedCount": len(punched), "end": end if n >= end["n"] else None,
            "sectors": sectors(found.outputs.pack, run.inputs.pack or b""), "used": sum(at is not None and at <= n for at in acts),
            "switches": switches_of(found.told)}


def switches_of(told):
    """How the switches stand by the console's line."""
    return {**{str(number): number in told.switches for number in (1, 2, 3, 4)}, "overflow": "OVERFLOW" in told.stops, "io": "IO" in told.stops}


def differing(old, new, size=500):
    """The places at which two texts of one length differ."""
    made = []
    for at in range(0, len(new), size):
        if old[at:at + size] != new[at:at + size]:
            made += [place for place in range(at, min(at + size, len(new))) if old[place] != new[place]]
    return made


def sectors(pack, first, most=40):
    """The sectors that are no zeros, and those that the run has written, up to so many."""
    found, zeros, many = [], b"0" * 100, 10_000
    for begin in range(0, max(len(pack), len(first)), many):
        now, was = pack[begin:begin + many], first[begin:begin + many]
        if now == was and not now.strip(b"0"):
            continue
        for at in range(0, max(len(now), len(was)), 100):
            text, old = now[at:at + 100].ljust(100, b"0"), was[at:at + 100].ljust(100, b"0")
            if text != old or text != zeros:
                number = (begin + at) // 100
                found.append({"drive": number // 20000 + 1, "sector": number % 20000, "text": text.decode("latin-1"), "written": text != old})
                if len(found) == most:
                    return found
    return found


async def stop_at(run, n, statements):
    """The least later count at which the next statement is one of these, as the debugger's GO finds it; else the end."""
    if run.kind != "source":
        raise Refused("a deck has no statements, and so no breakpoints")
    n = await run.clamp(n)
    count = n + run.offset
    commands = (f"STEP {count}\n" if count else "") + "".join(f"BREAK {number}\n" for number in statements) + "GO\n"
    done = await debug(run, commands, run.script, run.inputs.limit + run.offset, ["--typed", "/dev/null"])
    found = re.search(rb"BREAK (\d+) (\d+) STEPS (\d+)\nSESSION ENDED\n$", done.out[-200:])
    if found:
        return {"n": int(found[3]) - run.offset, "statement": int(found[1])}
    return {"n": (await run.end())["n"], "statement": None}
