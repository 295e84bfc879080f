"""Shows the cards of a text file as punched cards: as text, as a picture, or as a page to be printed; and turns cards into column images for a card
punch, and such images into text."""

import collections
import os

import common
from common import Failed, complain, say

USAGE = """usage: {me} [OPTION] FILE [FIRST [LAST]]
All cards of FILE, one, or those from FIRST to LAST; - is the standard input.
  --svg           one picture of all cards, for a page or a browser
  --pages N       a page that a browser prints, N cards on each sheet, 1 to 12
  --width N       the columns of the terminal, 25 or more; without it the terminal says how many it has
  --binary        column images for a card punch: 160 bytes for each card
  --from-binary   the text of such images, all of them
  --help, -h      this text
"""
ROWS = ("12", "11", "0", "1", "2", "3", "4", "5", "6", "7", "8", "9")
COLUMNS = 80
NUMBERED = (1, *range(5, COLUMNS + 1, 5))
MOST = 999_999_999
STRANGE = (0, 1, 2)     # the rows of a punched column whose character no card has; no character has these
STYLE = """.card { fill: #f3e3bd; stroke: #8a7a55 }
text { font: 6px monospace; text-anchor: middle; fill: #a8956b }
.line { font-size: 8px; fill: #202020 }
.number { font-size: 5px }
rect { width: 5.5px; height: 12.5px; fill: #202020 }"""

Card = collections.namedtuple("Card", "number text holes")      # holes: for each column the rows that have one, None for a character without a code


def read_codes():
    """The rows of the holes of each character."""
    return {sign: frozenset(ROWS.index(row) for row in known.holes.split("-") if row != "none") for sign, known in common.read_characters().items()}


def read_cards(name, text, first, last):
    """The cards from one number to another."""
    codes, lines = read_codes(), common.lines_of(text)
    if first > len(lines):
        raise Failed(f"{common.ME}: {name}: " + (f"there is no card {first}: the last one is {len(lines)}" if lines else "an empty file"))
    cards = []
    for number, line in enumerate(lines[first - 1:last], first):
        if len(line) > COLUMNS:
            raise Failed(f"{common.ME}: {name}: card {number} has {len(line)} columns, and a card has 80: it would jam the reader")
        line = line.ljust(COLUMNS)
        cards.append(Card(number, line, [codes.get(character) for character in line]))
    return cards


def stranger(cards):
    """The first character without a code, as its card and its column; None if each has one."""
    return next(((card.number, card.holes.index(None) + 1) for card in cards if None in card.holes), None)


# As text.

def as_text(cards, width):
    """A part has 80 columns if there is room for them, else 40, 20 or 10."""
    size = 80 if width >= 95 else 40 if width >= 55 else 20 if width >= 35 else 10
    return "\n\n".join("\n".join(line for first in range(1, COLUMNS, size) for line in part_of(card, first, first + size - 1)) for card in cards)


def part_of(card, first, last):
    """The lines for the columns from one to another, within the lines of the card's edge."""
    edge = "_" * (last - first + 1)
    yield "      " + edge
    yield f"     /{card.text[first - 1:last]}|" + (f"  card {card.number}" if first == 1 else "")
    for place, row in enumerate(ROWS):
        printed = row if place > 1 else " "
        yield f"{row:>4} |" + "".join("#" if place in (holes or ()) else printed for holes in card.holes[first - 1:last]) + "|"
    yield f"     |{edge}|"
    line = "     "
    for column in NUMBERED:
        if first <= column <= last:
            line = line.ljust(6 + column - first) + str(column)
    yield line


# As pictures, whose sizes are those of a card, in hundredths of an inch.

def picture(card, top):
    yield f'<g transform="translate(6 {top + 6})">'
    yield '<path class="card" d="M25 0H730Q738 0 738 8V317Q738 325 730 325H8Q0 325 0 317V43Z"/>'
    for column, (character, holes) in enumerate(zip(card.text, card.holes), 1):
        at = across(column)
        if character != " ":
            yield f'<text x="{at:.1f}" y="13" class="line">{escaped(character)}</text>'
        for place, row in enumerate(ROWS):
            if place in (holes or ()):
                yield f'<rect x="{at - 2.75:.1f}" y="{25 * place + 18.75:.1f}"/>'
            elif place > 1:
                yield f'<text x="{at:.1f}" y="{25 * place + 28}">{row}</text>'
    yield from (f'<text x="{across(column):.1f}" y="319" class="number">{column}</text>' for column in NUMBERED)
    yield "</g>"


def across(column):
    return 25.1 + 8.7 * (column - 1)


def escaped(character):
    return {"&": "&amp;", "<": "&lt;", ">": "&gt;"}.get(character, character if "!" <= character <= "~" else "?")


def as_svg(cards):
    title = "A punched card" if len(cards) == 1 else "Punched cards"
    pieces = [piece for place, card in enumerate(cards) for piece in picture(card, 335 * place)]
    return "\n".join([f'<svg xmlns="http://www.w3.org/2000/svg" viewBox="0 0 750 {335 * len(cards) + 2}" role="img">', f"<title>{title}</title>",
                      "<style>", STYLE, "</style>", *pieces, "</svg>"])


def as_pages(cards, a_sheet):
    """A card is 7.38 inches wide and 3.25 high; a sheet has room for 10.2 inches of cards."""
    high = 3.37 if a_sheet <= 3 else 10.2 / a_sheet
    lines = ['<!DOCTYPE html>\n<html lang="en">\n<head>\n<meta charset="utf-8">\n<title>Punched cards</title>\n<style>',
             "@page { margin: 0.4in }\nbody { margin: 0 }\ndiv { break-after: page }",
             f"svg {{ display: block; margin: 0 auto; width: {high * 750 / 337:.3f}in; height: {high:.3f}in }}", STYLE, "</style>\n</head>\n<body>"]
    for first in range(0, len(cards), a_sheet):
        lines.append("<div>")
        for card in cards[first:first + a_sheet]:
            lines += ['<svg viewBox="0 0 750 337" role="img">', f"<title>Card {card.number}</title>", *picture(card, 0), "</svg>"]
        lines.append("</div>")
    return "\n".join([*lines, "</body>\n</html>"])


# As column images: two bytes for a column, the rows 12 to 3 and 4 to 9, the upper row in the bit 32.

def as_images(cards):
    columns = (STRANGE if holes is None else holes for card in cards for holes in card.holes)
    return bytes(sum(32 >> place % 6 for place in rows if place // 6 == half) for rows in columns for half in (0, 1))


def of_images(name, data):
    """The cards of images as lines, and what is wrong with them. The two upper bits of a byte do not count."""
    if not data or len(data) % (2 * COLUMNS):
        raise Failed(f"{common.ME}: {name}: {len(data)} bytes, and a card has 160: these are no column images, or a part of them is missing")
    characters = {holes: sign for sign, holes in read_codes().items()}
    text, wrong = "", []
    for at in range(0, len(data), 2):
        holes = frozenset(place for place in range(12) if data[at + place // 6] & 32 >> place % 6)
        if holes not in characters:
            rows = " ".join(ROWS[place] for place in sorted(holes))
            wrong.append(f"card {at // 160 + 1}, column {at // 2 % COLUMNS + 1}: no character has the holes {rows}; it is shown as ?")
        text += characters.get(holes, "?")
    return [text[at:at + COLUMNS].rstrip(" ") for at in range(0, len(text), COLUMNS)], wrong


def show_images(name, data):
    lines, wrong = of_images(name, data)
    for line in wrong:
        complain(f"{common.ME}: {name}: {line}")
    say("\n".join(lines))
    return 1 if wrong else 0


def width_of_terminal():
    try:
        return os.get_terminal_size(1).columns or 95
    except OSError:
        return 95


def read_words(words):
    """The form, its number (None if it has none), the file, and the numbers of the first and the last card."""
    plain, given, _ = common.read_words(words, USAGE, ("pages", "width"), ("svg", "binary", "from-binary"))
    if not 1 <= len(plain) <= (1 if "from-binary" in given else 3):
        raise common.wrong(USAGE, "no file is named" if not plain else f"{plain[-1]}: a word too much")
    if len(given) > 1:
        raise common.wrong(USAGE, "--{} and --{} do not go together".format(*given))
    form, value = next(iter(given.items()), ("width", None))
    if value not in (None, True):
        value = common.number_of(USAGE, value, *((1, 12) if form == "pages" else (25, MOST)), f"--{form}")
    first = common.number_of(USAGE, plain[1], 1, MOST, "FIRST") if len(plain) > 1 else 1
    last = common.number_of(USAGE, plain[2], 1, MOST, "LAST") if len(plain) > 2 else first if len(plain) > 1 else MOST
    if last < first:
        raise common.wrong(USAGE, f"card {last} comes before card {first}")
    return form, value, plain[0], first, last


def main(words):
    form, value, name, first, last = read_words(words)
    text = common.read_input(name)
    if form == "from-binary":
        return show_images(name, os.fsencode(text))
    if form == "binary" and os.isatty(1):
        raise Failed(f"{common.ME}: these bytes are none for a terminal; send them to a file or to the punch")
    cards = read_cards(name, text, first, last)
    strange = stranger(cards)
    if strange:
        shown = "punched as the holes 12, 11 and 0" if form == "binary" else "shown without holes"
        complain(f"{common.ME}: {name}: card {strange[0]}, column {strange[1]}: no card has this character; it is {shown}")
    if form == "binary":
        say(common.to_text(as_images(cards)), end="")
    else:
        say(as_text(cards, value or width_of_terminal()) if form == "width" else as_svg(cards) if form == "svg" else as_pages(cards, value))
    return 1 if strange else 0
