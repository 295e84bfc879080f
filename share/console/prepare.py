"""What is read once of inputs, for all scripts over them: a source's object deck and listing, and the files of each call.

The debugger takes a source, and no deck. So a deck is run behind a source of one halt: its cards are the data cards, and at the halt the operator
presses the Load key, which reads the first of them as it would from power on. Before that he turns each bit of core that the source has left
there, so that core is all zeros, as `load` begins. From the Load key on the machine is that of `load`.
"""

import os
import re

from signs import Refused, bits_of, lines_of, to_text

HALT_ALONE = b"     START H\n           DENDSTART\n"
PREPARED = ("refusal", "assembled", "listing", "loading", "offset", "prefix", "deck", "paths")


async def prepare(run):
    """Assembles a source; a deck is taken as it is."""
    run.prepared = await run.store.once(("prepared", run.base), lambda: find(run), is_kept=False)


async def find(run):
    inputs = run.inputs
    made = dict.fromkeys(PREPARED)
    made.update(listing=[], loading=0, offset=0, prefix=[], deck=inputs.text)
    files = {"data": inputs.data, "keys": inputs.keys}
    if inputs.kind == "source":
        done = await run.program.call("assemble", {"source": inputs.text}, ["--core", inputs.core], ["object", "listing", "report"])
        line = to_text(done.files["report"]).strip()
        if done.code != 0:
            run.program.look_at(line)
            made["refusal"] = refusal(line, done.said)
            return made
        run.program.look_at(line.startswith("ASSEMBLED "))
        made.update(deck=done.files["object"], listing=to_text(done.files["listing"]).split("\n")[:-1], assembled=line,
                    loading=4 * (int(line.split()[-1]) - 1) + 1)
        made["offset"] = made["loading"]
        files.update(source=inputs.text, hopper=inputs.data)
    else:
        made["offset"], made["prefix"] = await run.store.once(("blank", inputs.core), lambda: blank(run.program, inputs.core))
        end = b"" if not inputs.text or inputs.text.endswith(b"\n") else b"\n"
        files.update(source=HALT_ALONE, hopper=inputs.text + end + inputs.data)
    files["deck"] = made["deck"]
    made["paths"] = write(run.store.folder_of(run.base), files)
    return made


def write(folder, files):
    paths = {}
    try:
        for name, value in files.items():
            paths[name] = os.path.join(folder, name)
            with open(paths[name] + ".new", "wb") as file:
                file.write(value)
            os.replace(paths[name] + ".new", paths[name])       # a call that still reads the file of that name has it whole
    except OSError as error:
        raise Refused(f"there is no room for the files of a run in {folder}: {error.strerror}", 507) from None
    return paths


async def blank(program, core):
    """How many steps the source of one halt takes, and the lines that then clear core and press the Load key."""
    shows = "".join(f"SHOW {at} 1000\n" for at in range(0, core, 1000))
    done = await program.call("debug", {"source": HALT_ALONE, "commands": b"GO\n" + shows.encode()}, ["--core", core])
    lines = lines_of(done.out)
    cells = "".join(line[6:] for line in lines[1:1 + core // 1000])
    program.look_at(done.code == 12 and len(cells) == core)
    turned = [(at, bits_of(char) ^ bits_of("0")) for at, char in enumerate(cells) if char != "0"]
    clear = [f"HALT FLIP {at} {bit}" for at, bits in turned for bit in range(6) if bits >> bit & 1]
    return int(lines[0].split()[-1]), [*clear, "HALT LOAD"]


def refusal(line, said):
    """What a refusal says: the line, the hints, and where the part stands that breaks the rule, counted from 1."""
    found = {"line": line, "said": said}
    match = re.match(r"REFUSED (\d+) (\d+) (\w+)(?: (.*))?", line)
    if match:
        found.update(statement=int(match[1]), rule=int(match[2]), name=match[3], part=match[4] or "")
    marks = [hint for hint in said if hint.strip() and not hint.strip().strip("^")]
    if marks:
        found.update(column=len(marks[-1]) - len(marks[-1].lstrip()) + 1, width=len(marks[-1].strip()))
    return found
