"""The rows of crates/job_rows that run the decks and the single cards: what each is given, and what has to come of it.

Each deck is assembled in each form, by a row, and loaded and run by the next one. What has to come is the table's, and of steps and sectors what the
independent machine makes of the deck.
"""

import re

from .sheet import bare
from .single import FIRST, STOPS

MARK = "Diagnostic "
LIMIT = "9000000"
FORMS = (("self", "self-loading cards"), ("dense", "dense cards"))
KINDS = {
    "01": "OddInstruction", "02": "Address", "03": "Digit", "06": "Opcode", "07": "Device", "08": "IndirectLoop", "09": "EvenAlpha", "10": "Overflow",
    "11": "InOut",
}


def block(lines):
    """The lines of a row."""
    return "".join(f"{line}\n" for line in [*lines, ""])


def files(**texts):
    """The lines of the files of a row."""
    return [f"{name}|{line}" for name, lines in texts.items() for line in lines]


def source_of(deck):
    """A deck's source without comments and remarks."""
    return [bare(line) for line in deck.source().splitlines() if not line.startswith("     *")]


def options(deck):
    """The words that name the files which belong to a deck."""
    return "".join(f" --{kind} {kind}" for kind in ("data", "keys", "script") if getattr(deck, kind))


def given(decks):
    """What the rows are given."""
    rows = []
    for deck in decks:
        others = files(data=deck.data, keys=deck.keys, script=deck.script)
        for form, words in FORMS:
            rows.append(block([
                f"row|{MARK}deck {deck.name}, {words}: it is assembled", f"words|assemble --source source --form {form}", "show|report", "room|60000",
                *files(source=source_of(deck)),
            ]))
            rows.append(block([
                f"row|{MARK}deck {deck.name}, {words}: it is loaded and run", f"words|load --deck deck --limit {LIMIT}{options(deck)}",
                "show|punched typed report", "object|", *others,
            ]))
    for what, card, _ in FIRST:
        rows.append(block([f"row|{MARK}card: {what}", "words|load --deck deck", f"deck|{card}"]))
    for what, cards, _, *others in STOPS:
        script, keys = [*others, [], []][:2]
        words = "".join(f" --{kind} {kind}" for kind, lines in (("script", script), ("keys", keys)) if lines)
        rows.append(block([f"row|{MARK}card: {what}", f"words|load --deck deck{words}", *files(deck=cards, script=script, keys=keys)]))
    return "".join(rows)


def escaped(text):
    """A text as rows show it."""
    return re.sub(r"[^ -\\[\]-~]", lambda found: f"\\{ord(found[0]):02x}", text.replace("\\", "\\5c"))


def shown(name, text):
    """The lines that show an output."""
    lines = text.split("\n")
    return [f"{name}|{escaped(line)}" for line in lines[:-1]] + ([f"{name}|{escaped(lines[-1])}\\"] if lines[-1] else [])


def ending(report):
    """The last lines of a row whose job makes this report."""
    words = report.split()
    steps = words[-1]
    if words[0] == "HALT":
        status, code = f"Halted {{ at: {int(words[1])}, steps: {steps} }}", 0
    elif words[0] == "CHECK":
        kind = KINDS.get(words[1]) or {"04": "Parity(12)", "05": "Value(13)"}[words[1]]
        status, code = f"CheckStop {{ kind: {kind}, at: {int(words[2])}, steps: {steps} }}", 3
    elif words[0] == "NEED":
        code = 5 if words[1] == "CARDS" else 6
        status = f"Need{words[1].title()} {{ at: {int(words[2])}, steps: {steps} }}"
    else:
        status, code = f"Jam {{ unit: {words[1].title()}, line: {words[2]} }}", 9
    return [f"report|{report}"], [f"status|{status}", f"code|{code}"]


def wanted(decks, came):
    """What has to come of the rows. `came` has, by the deck and the form, the numbers of digits and of cards, the report, and each sector's text."""
    rows = []
    for deck in decks:
        for form, words in FORMS:
            digits, cards, report, sectors = came[deck.name, form]
            statements = len(source_of(deck))
            assembled = f"statements: {statements}, digits: {digits}, cards: {cards}"
            rows.append(block([
                f"row|{MARK}deck {deck.name}, {words}: it is assembled", f"report|ASSEMBLED STATEMENTS {statements} DIGITS {digits} CARDS {cards}",
                f"status|Assembled {{ {assembled} }}", "code|0",
            ]))
            lines, end = ending(report)
            punched = "".join(f"{line:80}\n" for line in deck.punched)
            rows.append(block([
                f"row|{MARK}deck {deck.name}, {words}: it is loaded and run", *shown("punched", punched), *shown("typed", deck.sheet()), *lines,
                *(f"sector {sector}|{text}\\" for sector, text in sorted(sectors.items()) if text.strip("0")), *end,
            ]))
    for number, (what, _, typed) in enumerate(FIRST):
        lines, end = ending(came["first", number])
        rows.append(block([f"row|{MARK}card: {what}", *shown("typed", typed), *lines, *end]))
    for number, (what, _, report, *_) in enumerate(STOPS):
        lines, end = ending(report)
        rows.append(block([f"row|{MARK}card: {what}", *shown("typed", came["stops", number]), *lines, *end]))
    return "".join(rows)
