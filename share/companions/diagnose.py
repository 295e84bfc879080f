"""Runs the diagnostic decks, each in both forms, here or in the simulator SIMH, and prints a table of what passed and what failed; or writes the decks
for another machine."""

import collections
import difflib
import os
import re
import shutil
import subprocess

import common
from common import Failed, complain, say

USAGE = """usage: {me} [OPTION] [DECK..]
Runs the decks, all if none is named, and shows how many cases of each pass.
  --core N         positions of core: 20000, 40000 or 60000; 20000 without it
  --simh           runs them in SIMH's i1620; the variable I1620 can name another one
  --decks FOLDER   runs nothing, and writes the decks for another machine; FOLDER is made
  --help, -h       this text
"""
ALL = ("tables moves sums branches addresses long cards changes edges typewriter dump console disk drives features core own").split()
TEXTS = ("first", "stops", "differences")       # files of single cards, or of sources: a case is a block of lines
KINDS = ("deck", "script", "keys", "source", "data")
OUTPUTS = ("typed", "punched", "report")
PACKS = {"disk": 1, "drives": 4}        # how many packs a deck needs in SIMH
STEPS, STEPS_OF_BLOCK, SECONDS = "9000000", "1000", 10
NO_STOP = ("", "HALT", "never ends", "the simulator itself fails")

Row = collections.namedtuple("Row", "name cases passed failed cards dense steps wrong", defaults=("-", "-", "-", ()))
Run = collections.namedtuple("Run", "typed punched ended")      # what was typed, the cards that were punched, and how it ended


def folder_of_decks():
    """The decks lie in share/ibm1620 if they are installed, else at the top of the repository."""
    for above in (common.SHARE, common.TOP):
        folder = os.path.join(above, "diagnostics")
        if os.path.isfile(os.path.join(folder, "stops.txt")):
            return folder
    raise Failed(f"{common.ME}: {folder}: the decks are not there; install it again", common.CANNOT)


class Decks:
    """The decks, the program, and a folder for the files of a run."""

    def __init__(self, core, folder):
        self.core, self.folder, self.home = core, folder, folder_of_decks()
        self.program = common.Program()

    def text(self, deck, kind):
        """A text of a deck, or None if it has none."""
        path = os.path.join(self.home, deck, kind + ".txt")
        return common.read_file(path) if os.path.exists(path) else None

    def write(self, name, text):
        return write(os.path.join(self.folder, name), text)

    def blocks(self, name):
        """The blocks of a text: the lines of each kind, and what it shows, as `what`."""
        found = [{}]
        for line in common.lines_of(common.read_file(os.path.join(self.home, name + ".txt"))):
            kind, _, text = line.partition("|")
            if line and not line.startswith("#"):
                found[-1].setdefault("what" if kind in ("first", "stop", "difference") else kind, []).append(text)
            elif not line and found[-1]:
                found.append({})
        return [block for block in found if block]

    def script(self, deck):
        """What the operator does for a deck: the switches that say how large core is, if the deck asks for them, and then the deck's own script."""
        switch = {40000: "AT 0 SWITCH 2 ON\n", 60000: "AT 0 SWITCH 3 ON\n"}.get(self.core, "")
        return (switch if "SWITCHES 2 AND 3 SAY" in self.text(deck, "source") else "") + (self.text(deck, "script") or "")

    def call(self, words, outputs=()):
        """Runs the program, with an output to a file of each name, and gives the texts of these. A file that fails ends it all."""
        line = list(words)
        for name in outputs:
            line += ["--" + name, self.write(name, "")]
        done = self.program.run(line)
        if done.code in (7, 8) or done.code < 0 or not outputs and done.code:
            raise Failed(common.to_text(done.said).rstrip("\n") or f"{common.ME}: {self.program.path}: ended by signal {-done.code}", common.CANNOT)
        return [common.read_file(os.path.join(self.folder, name)) for name in outputs]

    def assemble(self, source, object_deck, *words):
        self.call(["assemble", "--source", source, "--object", object_deck, "--report", os.path.join(self.folder, "report"), *words])

    def source(self, deck):
        return os.path.join(self.home, deck, "source.txt")


def write(path, text):
    try:
        with open(path, "wb") as file:
            file.write(os.fsencode(text))
    except OSError as error:
        raise Failed(f"{common.ME}: {path}: {error.strerror}; make room, or let TMPDIR name another folder", common.CANNOT) from None
    return path


def block_text(block, kind):
    return "".join(line + "\n" for line in block.get(kind, ()))


def stripped(cards):
    return [card.rstrip(" ") for card in common.lines_of(cards or "")]


def count(typed, word):
    """The number that follows a word in the last line with PASSED; 0 if there is none."""
    found = re.findall(rf"^\S+ PASSED .*$", typed, re.MULTILINE)
    number = re.search(rf"\b{word} (\d+)", found[-1]) if found else None
    return int(number[1]) if number else 0


def failures(decks, deck, typed):
    """The lines by which a deck says what failed, each with the words of its case."""
    words = dict(re.findall(r"^     \*(\d{4}) (.*)$", decks.text(deck, "source"), re.MULTILINE))
    for line in common.lines_of(typed):
        case = re.match(r"CASE (\d+) GOT ", line)
        if case or line in ("THE HEAD CANNOT ADD", "THE CHECK DOES NOT SEE"):
            yield "    " + line + (f"  {words[case[1]]}" if case and case[1] in words else "")


def differences(wanted, came, mine, its):
    """The lines that differ, each after one of these words."""
    for line in difflib.unified_diff(wanted, came, lineterm="", n=0):
        if line[:1] in "-+" and line[:3] not in ("---", "+++"):
            yield f"    {mine if line[0] == '-' else its} {line[1:]}"


# Here.

def run_here(decks, deck, form):
    """Runs a deck in a form; gives the object deck and what it types, punches and reports."""
    remove(os.path.join(decks.folder, "pack"))
    words = ["run", "--source", decks.source(deck), "--form", form, "--core", str(decks.core), "--limit", STEPS,
             "--script", decks.write("script", decks.script(deck)), "--pack", os.path.join(decks.folder, "pack")]
    for kind in ("data", "keys"):
        if decks.text(deck, kind) is not None:
            words += ["--" + kind, os.path.join(decks.home, deck, kind + ".txt")]
    return decks.call(words, ("object", *OUTPUTS))


def remove(path):
    if os.path.exists(path):
        os.unlink(path)


def look_at(decks, deck, form, typed, punched, report):
    """What is wrong with a run, as lines; `form` in words."""
    if typed != decks.text(deck, "typed"):
        yield f"    {form}: not all is typed that has to be:"
        sheet = common.lines_of(decks.text(deck, "typed"))
        yield from list(failures(decks, deck, typed)) or differences(sheet, common.lines_of(typed), "the sheet has", "it types     ")
    if punched != (decks.text(deck, "punched") or ""):
        yield f"    {form}: other cards are punched than {deck}/punched.txt has"
    wanted, came = decks.text(deck, "report").rstrip("\n"), report.rstrip("\n")
    if decks.core != 20000:     # the number of steps is for the smallest core
        wanted, came = (line.split(" STEPS ")[0] for line in (wanted, came))
    if came != wanted:
        yield f"    {form}: it reports {came}, and not {wanted}"


def try_deck_here(decks, deck):
    cards, typed, punched, report = run_here(decks, deck, "self")
    wrong = list(look_at(decks, deck, "self-loading cards", typed, punched, report))
    dense, *others = run_here(decks, deck, "dense")
    wrong += look_at(decks, deck, "dense cards", *others)
    return Row(deck, count(decks.text(deck, "typed"), "PASSED"), count(typed, "PASSED"), count(typed, "FAILED"), cards.count("\n"), dense.count("\n"),
               report.rstrip("\n").partition(" STEPS ")[2], wrong)


def do_block_here(decks, name, block):
    """What came of a block: the report for a stop, else what it types and punches, and its end without an address."""
    files = {kind: decks.write(kind, block_text(block, kind)) for kind in KINDS}
    remove(os.path.join(decks.folder, "pack"))
    words = ["run", "--source", files["source"], "--data", files["data"]] if name == "differences" else \
        ["load", "--deck", files["deck"], "--script", files["script"], "--keys", files["keys"]]
    typed, punched, report = decks.call([*words, "--limit", STEPS_OF_BLOCK], OUTPUTS)
    report = report.rstrip("\n")
    if name == "stops":
        return report
    return in_words(typed, stripped(punched), re.sub(r"^(CHECK ..|HALT).*", r"\1", report))


def in_words(typed, punched, ended):
    cards = "\n".join(punched)
    return (typed.rstrip("\n") + " " if typed else "") + (f"punched {cards} " if cards else "") + ended


def wanted_of(name, block, differing="here"):
    kind = {"first": "typed", "stops": "report", "differences": differing}[name]
    return "\n".join(block.get(kind, ())) + (" HALT" if name == "first" else "")


def try_text_here(decks, name):
    blocks, wrong = decks.blocks(name), []
    for block in blocks:
        came, wanted = do_block_here(decks, name, block), wanted_of(name, block)
        if came != wanted:
            wrong.append(f"    {block['what'][0]}: {came}, and not {wanted}")
    cards = sum(len(block.get("deck", ())) for block in blocks)
    return Row(name, len(blocks), len(blocks) - len(wrong), len(wrong), cards or "-", wrong=wrong)


# In SIMH.

def find_simulator():
    named = os.environ.get("I1620") or "i1620"
    found = shutil.which(named)
    if not found:
        raise Failed(f"{common.ME}: {named}: no SIMH is installed; Debian has it in the package simh, and I1620 can name it")
    return os.path.realpath(found)


def commands_of(script, due):
    """The commands of SIMH for what the operator does: the lines of the script that begin with this word."""
    for line in common.lines_of(script):
        word, *rest = line.split(" ")
        act, *values = rest[1:] if word == "AT" else rest
        if word == due:
            yield {"START": "cont", "LOAD": "boot cdr", "SWITCH": "d sw{} {:d}", "OVERFLOW": "d arstop {:d}", "IO": "d iostop {:d}"}[act].format(
                *(value in ("ON", "STOP") if value.isalpha() else value for value in values))


def simulate(decks, simulator, cards, script, packs=0):
    """Lets SIMH run these cards, with the operator of the script and so many packs."""
    for name in ("dp0", "dp1", "dp2", "dp3", "punched"):
        remove(os.path.join(decks.folder, name))
    decks.write("cards", cards)
    lines = ["echo BEGUN", f"set cpu {decks.core // 1000}k", "d arstop 0", "d iostop 0", "d dpstop 0", "attach cdr cards", "attach cdp punched"]
    for drive in range(packs):
        decks.write(f"dp{drive}", pack())
    lines += [f"attach dp{drive} dp{drive}" for drive in range(max(1, packs))]
    lines += [*commands_of(script, "AT"), "boot cdr", *commands_of(script, "HALT"), "exit"]
    decks.write("commands", "".join(line + "\n" for line in lines))
    with common.running([simulator, "-q", "commands"], cwd=decks.folder, stdin=subprocess.DEVNULL, stdout=subprocess.PIPE,
                        stderr=subprocess.STDOUT) as process:
        try:
            typed, ended = parted(common.to_text(process.communicate(timeout=SECONDS)[0]))
            ended = "the simulator itself fails" if process.returncode else ended
        except subprocess.TimeoutExpired:
            typed, ended = "", "never ends"
    path = os.path.join(decks.folder, "punched")
    return Run(typed, common.lines_of(common.read_file(path)) if os.path.exists(path) else [], ended)


def pack():
    """A pack of SIMH: 20,000 sectors, each with its address in five digits and a hundred zeros, a byte for each digit."""
    digits = {ord("0") + digit: digit for digit in range(10)}
    return "".join(f"{sector:05}" + "0" * 100 for sector in range(20000)).translate(digits)


def parted(printed):
    """What was typed, as this program would type it, and how the run ended. SIMH types at once, and keeps what it says of itself to its end: so the
    typed text comes before the mark, and the reasons of all stops after it."""
    typed, _, said = printed.replace("\r", "").partition("BEGUN\n")
    typed = re.sub("`([0-9|])", lambda flagged: "!" if flagged[1] == "|" else common.FLAGGED[int(flagged[1])], typed)
    reasons = re.findall(r"^([A-Z][A-Za-z ]*), PC: ", said, re.MULTILINE)
    ended = reasons[-1] if reasons else ""
    return typed, "HALT" if ended == "HALT instruction" else ended


def try_deck_in_simh(decks, simulator, deck):
    script, has_keys = decks.script(deck), decks.text(deck, "keys") is not None
    if has_keys:    # the keys of SIMH are those of the terminal, and nobody types there: switch 1 stays off
        script = "".join(line + "\n" for line in common.lines_of(script) if "SWITCH 1 ON" not in line)
    if deck == "drives":    # in SIMH the drives are called 1, 3, 5 and 7
        script = "AT 0 SWITCH 4 ON\n" + script
    object_deck = os.path.join(decks.folder, "object")
    decks.assemble(decks.source(deck), object_deck, "--core", str(decks.core))
    cards = common.read_file(object_deck) + (decks.text(deck, "data") or "")
    run = simulate(decks, simulator, cards, script, PACKS.get(deck, 0))
    wrong = list(failures(decks, deck, run.typed))
    # Lines of the sheet that were not typed; those of cases that failed are shown above.
    sheet = common.lines_of(decks.text(deck, "typed"))
    sheet = sheet[:next((place for place, line in enumerate(sheet) if line.startswith("TYPE ")), len(sheet))] if has_keys else sheet[:-1]
    head = [line[:90] for line in common.lines_of(run.typed) if not line.startswith("CASE ")][:len(sheet)]
    wrong += differences(sheet, head, "the sheet has", "SIMH types   ")
    if decks.text(deck, "punched") is not None:
        wrong += differences(stripped(decks.text(deck, "punched")), run.punched, "the cards are", "SIMH punches ")
    wrong += [] if run.ended == "HALT" else [f"    it ends: {run.ended}"]
    return Row(deck, count(decks.text(deck, "typed"), "PASSED"), count(run.typed, "PASSED"), count(run.typed, "FAILED"), cards.count("\n"), wrong=wrong)


def do_block_in_simh(decks, simulator, name, block):
    """What came of a block, in the words of a source that differs."""
    cards = block_text(block, "deck")
    if name == "differences":
        object_deck = os.path.join(decks.folder, "object")
        decks.assemble(decks.write("source", block_text(block, "source")), object_deck)
        cards = common.read_file(object_deck)
    run = simulate(decks, simulator, cards + block_text(block, "data"), block_text(block, "script"))
    if len(run.typed) > 80:
        return in_words("", run.punched, "{} digits, {}".format(len(run.typed.replace("\n", "")), run.ended)), run.ended
    return in_words(run.typed, run.punched, run.ended), run.ended


def try_text_in_simh(decks, simulator, name):
    blocks, wrong = [block for block in decks.blocks(name) if not block["what"][0].endswith("(here alone)")], []
    for block in blocks:
        came, ended = do_block_in_simh(decks, simulator, name, block)
        wanted = wanted_of(name, block, "simh")
        # That it stops counts, not the words by which SIMH says so.
        if came != wanted and not (name == "stops" and ended not in NO_STOP):
            wrong.append(f"    {block['what'][0]}: {came}, and not {wanted}")
    return Row(name, len(blocks), len(blocks) - len(wrong), len(wrong), wrong=wrong)


# The table, and decks for another machine.

def show(*values):
    say("{:<11} {:>6} {:>7} {:>7} {:>6} {:>6} {:>8}".format(*map(str, values)).rstrip(), now=True)


def try_all(names, try_deck, try_text, last_columns, all_passed):
    """Shows the table, and says whether all was as it has to be."""
    show("deck", "cases", "passed", "failed", "cards", *last_columns)
    rows = []
    for name in names:
        row = (try_text if name in TEXTS else try_deck)(name)
        show(*row[:-1])
        for line in row.wrong:
            say(line)
        rows.append(row)
    passed, failed, is_right = sum(row.passed for row in rows), sum(row.failed for row in rows), not any(row.wrong or row.failed for row in rows)
    say(all_passed.format(passed) if is_right and all_passed else f"{passed} passed, {failed} failed")
    return 0 if is_right else 1


def write_decks(decks, names, folder):
    """Writes the decks for another machine into a folder that is made: each in both forms with its data, its image, and the sheets of what has to be
    typed and punched; single cards each by itself. If that fails, the folder goes again."""
    if os.path.lexists(folder):
        raise Failed(f"{common.ME}: {folder}: is there already; name a folder that is not there yet")
    try:
        os.mkdir(folder)
    except OSError as error:
        raise Failed(f"{common.ME}: {folder}: this folder can't be made: {error.strerror}; name another one") from None
    try:
        for name in names:
            if name in ALL:
                write_deck(decks, name, os.path.join(folder, name))
            elif name != "differences":
                for number, block in enumerate(decks.blocks(name), 1):
                    for kind in ("deck", "typed", "report", "keys", "script"):
                        if kind in block:
                            write(os.path.join(folder, f"{name}-{number:02}.{kind}"), block_text(block, kind))
    except BaseException:
        shutil.rmtree(folder, ignore_errors=True)
        raise


def write_deck(decks, deck, path):
    object_deck = os.path.join(decks.folder, "object")
    for form in ("self", "dense"):
        decks.assemble(decks.source(deck), object_deck, "--form", form, "--image", path + ".image")
        write(f"{path}.{form}", common.read_file(object_deck) + (decks.text(deck, "data") or ""))
    for kind in ("typed", "punched", "keys", "script"):
        if decks.text(deck, kind) is not None:
            write(f"{path}.{kind}", decks.text(deck, kind))


def main(words):
    names, given, _ = common.read_words(words, USAGE, ("core", "decks"), ("simh",))
    if given.get("core", "20000") not in ("20000", "40000", "60000"):
        raise common.wrong(USAGE, f"--core {given['core']}: not 20000, 40000 or 60000")
    if "decks" in given and len(given) > 1:
        raise common.wrong(USAGE, "--decks goes with no other option")
    for name in names:
        if name not in (*ALL, *TEXTS):
            raise Failed(f"{common.ME}: {name}: no such deck; the decks are {' '.join(ALL)}, and {' '.join(TEXTS)}")
    names = names or ["first", *ALL, "stops", "differences"]
    simulator = find_simulator() if "simh" in given else None
    with common.temporary_folder() as folder:
        decks = Decks(int(given.get("core", "20000")), folder)
        if "decks" in given:
            return write_decks(decks, names, given["decks"])
        if simulator:
            return try_all(names, lambda deck: try_deck_in_simh(decks, simulator, deck), lambda name: try_text_in_simh(decks, simulator, name),
                           ("", ""), "")
        return try_all(names, lambda deck: try_deck_here(decks, deck), lambda name: try_text_here(decks, name), ("dense", "steps"), "all {} passed")
