"""Turns of phrase that are hard to read: how many each page and the comments of each crate have, and how many they may have, by patterns.txt."""

import re
from collections import defaultdict
from pathlib import Path

from shape import place_of_contents
from texts import SPAN, kinds_of

ALLOWED = Path(__file__).resolve().parent / "patterns.txt"
WORDS = 35
# The name and the form of each. A blank is also an end of a line.
PATTERNS = {name: re.compile(form.replace(" ", r"\s+")) for name, form in {
    "where": r"\b[Ww]here\b(?! to\b)",
    "behind": r"\b[Bb]ehind\b",
    "stands": r"\bst(?:ands?|ood|anding)\b",
    "what": r"\b[Ww]hat\b(?! is this| are the)(?![^.]*\?)",
    "is told": r"\b(?:is|are|was|were|be) (?:told|said|asked|looked at)\b|\b(?:told|said) of\b",
    "comes to": r"\bcomes? (?:to|of|about|along|behind|up)\b|\bcame (?:to|of)\b|\bbecomes? of\b",
    "that of": r"\b(?:that|those) of\b",
    "is none": r"(?<![Tt]here\s)\b(?:is|are|was) (?:none|no [a-z]+)\b(?=[\s,.;:)])",
    "but for": r"\bbut for\b",
    "in the place of": r"\bin (?:the )?place of\b|\bbesides?\b",
    "goes by": r"\bgo(?:es)? by\b|\bgoing by\b|\bso many\b",
    "the one": r"\b[Tt]he ones?\b|\b[Ss]uch (?:a|an|lines|cards|decks)\b|\b[Oo]ne of which\b",
}.items()}
LONG = f"over {WORDS} words"
LINK = re.compile(r"!?\[([^]]*)\]\([^)]*\)")
SENTENCE = re.compile(r"(?<=[.!?])\s+(?=[A-Z0-9`\"(])")
ITEM = re.compile(r"^\s*(?:[-*]|\d+\.) ")
CELLS = re.compile(r"(?<!\\)\|")
NOTE = re.compile(r"\s*(?:--|//[/!]?)(?:\s(.*))?$")


def paragraphs(lines):
    """The paragraphs of some lines, in which every line that is not prose is empty: the number of the first line and the text of each. An item of a
    list is a paragraph, and so is a cell of a table that has more than three words."""
    paragraph, start = [], 0
    for number, line in enumerate([*lines, ""], 1):
        is_alone = not line.strip() or line.startswith(("#", "![", "|"))
        if paragraph and (is_alone or ITEM.match(line)):
            yield start, "\n".join(paragraph)
            paragraph = []
        if line.startswith("|"):
            yield from ((number, cell) for cell in CELLS.split(line) if len(cell.split()) > 3)
        elif not is_alone:
            start = start if paragraph else number
            paragraph.append(ITEM.sub("", line))


def prose_of(page):
    """The lines of a page's prose, with its contents empty."""
    first, last = place_of_contents(page.lines)
    return page.prose if last is None else [*page.prose[:first], *[""] * (last - first), *page.prose[last:]]


def notes_of(text):
    """The lines of a source's comments; the other lines are empty."""
    lines = [(NOTE.match(line) or ["", ""])[1] or "" for line in text.split("\n")]
    return ["" if is_code else line for line, is_code in zip(lines, kinds_of(lines))]


def plain(text):
    """A text with X for each word of code, and without marks. It has as many lines as before."""
    text = LINK.sub(r"\1", SPAN.sub(lambda found: "X" + "\n" * found[0].count("\n"), text))
    return text.replace("*", "")


def found_in(lines):
    """The hard turns in some lines: the name and the number of the line of each."""
    for start, text in paragraphs(lines):
        text = plain(text)
        for name, form in PATTERNS.items():
            yield from ((name, start + text.count("\n", 0, found.start())) for found in form.finditer(text))
        place = 0
        for sentence in SENTENCE.split(text):
            place = text.index(sentence, place)
            if len(sentence.split()) > WORDS:
                yield LONG, start + text.count("\n", 0, place)


def turns_of_crate(crate):
    """The hard turns in the comments of a crate's folders src and specs: the name and the place of each."""
    for source in sorted(path for part in ("src", "specs") for path in (crate / part).rglob("*") if path.suffix in (".rt", ".antt")):
        for name, number in found_in(notes_of(source.read_text(encoding="utf-8"))):
            yield name, f"{source.relative_to(crate)}:{number}"


def allowed(text):
    """How many hard turns each page and crate may have, by its name from the top of the repository."""
    lines = (line.rpartition(" ") for line in text.split("\n") if line and not line.startswith("#"))
    return {name: int(number) for name, _, number in lines}


def wrong_with(turns, limit):
    """What is wrong if there are these turns, or nothing."""
    if len(turns) <= limit:
        return ""
    places = defaultdict(list)
    for name, place in turns:
        places[name].append(str(place))
    lines = [f"{len(turns)} hard turns of phrase; share/check-docs/patterns.txt allows {limit}"]
    return "\n".join(lines + [f"    {name}: {' '.join(found)}" for name, found in sorted(places.items())])


def lowered(text, counts):
    """The text of patterns.txt with each count that is lower than its number, and without the pages and crates that are gone or have none."""
    lines = []
    for line in text.split("\n"):
        name, _, number = line.rpartition(" ")
        if line and not line.startswith("#"):
            least = min(int(number), counts.get(name, 0))
            line = f"{name} {least}" if least else None
        lines.append(line)
    return "\n".join(line for line in lines if line is not None)
