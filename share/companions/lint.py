"""lint: looks through a source or a deck for what breaks no rule and is most often a slip. docs/tools.md says what the warnings mean."""

import os
import re

from common import ME, Failed, Program, check_file, complain, lines_of, read_file, read_words, say, temporary_folder, to_text, usage_line, wrong
from decks import Deck, Slip, look_at_data
from placed import Placed
from refused import look_at_refused
from slips import RA, RN, Slips

USAGE = """usage: {me} SOURCE [--core N] [--data FILE], or: {me} --deck DECK [--data FILE]
  --deck DECK   look through a deck, not through a source
  --core N      the positions of core: 20000, 40000 or 60000 (20000 if it is not given)
  --data FILE   look through the data cards of the program, too
  --help, -h    show these lines
The code is 0 if nothing is found, 1 for a warning or a source that is refused, 2 for wrong words.
"""


def main(words):
    plain, given, _ = read_words(words, USAGE, ("deck", "core", "data"))
    if not plain and "deck" not in given:
        raise Failed(usage_line(USAGE))
    if len(plain) > 1 or plain and "deck" in given:
        raise wrong(USAGE, f"{plain[-1]}: a word too many")
    if "core" in given and ("deck" in given or given["core"] not in ("20000", "40000", "60000")):
        raise wrong(USAGE, f"--core {given['core']}: " + ("a deck has no such option" if "deck" in given else "not 20000, 40000 or 60000"))
    for path in plain + [given[name] for name in ("deck", "data") if name in given]:
        check_file(path)
    path = given.get("deck") or plain[0]
    found, reads_digits = look_at_deck(path) if "deck" in given else look_at_source(path, given.get("core"))
    if "data" in given and reads_digits:
        found += [told(given["data"], *slip) for slip in look_at_data(read_file(given["data"]))]
    say("\n".join(found) or f"{path}: nothing was found")
    return int(bool(found))


def told(path, number, what, text):
    return f"{path}:{number}: {what}\n    {text}"


def look_at_deck(path):
    """What there is to say of a deck, and whether its cards are read as digits, so that a minus in front of a number is a slip."""
    text, found = read_file(path), []
    try:
        Deck(text).follow()
    except Slip as slip:
        found = [f"{path}: {slip}"]
    return found, not re.search("37.{5}005", text)


def look_at_source(path, core):
    """The same of a source."""
    with temporary_folder() as folder:
        listing, image = (os.path.join(folder, name) for name in ("listing", "image"))
        words = ["assemble", "--source", path, "--listing", listing, "--image", image]
        result = Program().run(words + (["--core", core] if core else []), stdin=None)
        if result.code:
            tell_refusal(path, result)
        placed = Placed(read_file(listing), read_file(image), int(core or 20000))
    found = Slips(placed).look()
    lines = [told(path, it.number, what, it.text) for it in placed.statements for what in found.get(it.number, ())]
    return lines, {each.code for each in placed.instructions if each.code in (RN, RA) and each.device == 5} == {RN}


def tell_refusal(path, result):
    """Ends with what the program says, without its advice to call lint, and with what lint can add."""
    report, said = to_text(result.out), lines_of(to_text(result.said))
    if any("this looks like a deck" in line for line in said):
        raise Failed(f"{ME}: {path}: this looks like a deck, and not like a source: {ME} --deck {path} looks through it")
    for line in said:
        if not re.match(r"ibm1620: (bin/|ibm1620-)lint ", line):
            complain(line)
    say(report, end="")
    for line in look_at_refused(read_file(path), report, lambda it, what: told(path, it.number, what, it.text)) if result.code == 1 else ():
        say(line)
    raise Failed("", result.code if result.code > 0 else 128 - result.code)
