"""Makes the reference card, one sheet of A4 with two sides, and the add table as a wall chart. Operations and characters come from the tables of share/,
which are compared with the code's; declaratives, indicators, checks, codes, scripts and commands come from the tables of the pages; the digits of the
add table come from the deck of examples/tables."""

import html

from markdown import inline, table_below
from tables import characters, operations

STYLE = """@page { size: A4 landscape; margin: 7mm }
body { margin: 0; font: 9.6px/1.25 sans-serif }
.side { column-count: 4; column-gap: 4mm; break-after: page }
.side:last-child { break-after: auto }
h1 { font-size: 17px; margin: 0 0 2px }
h2 { font-size: 11px; margin: 4px 0 1px; border-bottom: .5px solid }
section { break-inside: avoid }
table { border-collapse: collapse; width: 100% }
td { padding: 0 4px 0 0; vertical-align: top }
td:first-child { white-space: nowrap }
code, pre { font: 8.6px/1.25 monospace }
pre, p { margin: 1px 0 }
a { color: inherit; text-decoration: none }
"""
CHART = """@page { size: A4; margin: 10mm }
body { margin: 0; font: 16px/1.3 sans-serif }
table { border-collapse: collapse; width: 98%; table-layout: fixed }
td, th { border: 1px solid; height: 19mm; text-align: center; position: relative }
td b { font: bold 30px monospace }
td small { position: absolute; right: 1mm; bottom: 0; font-size: 10px }
.carry { background: #ddd }
"""
FORM = """<section><h2>An instruction: twelve digits from an even address</h2>
<pre>O0 O1  P2 P3 P4 P5 P6  Q7 Q8 Q9 Q10 Q11
opcode P: an address   Q: an address, a number,
                       or the device in Q8 Q9</pre>
<p>A flag on P6 or Q11 makes the address indirect. <i>imm</i>: Q7 to Q11 are the number itself, with a flag on Q7. A field is named by its last digit and
begins at the first flag to the left; a flag on the last digit is a minus. A record goes from its first digit up to a record mark.</p></section>"""
SHEET = """<section><h2>Columns of a source</h2><p>6 to 11 label, 12 to 15 operation, 16 to 75 operands and remark; * in 6: a comment. A column of a first card:
address and 1.</p></section>"""
PLACES = """<section><h2>Tables in core</h2><p>00300 to 00399 add: x + y at 300 + 10x + y, a flag is a carry. 00100 to 00299 multiply: n times m at
100 + 10n + 2m for m up to 4, else at 200 + 10n + 2(m - 5): the units, then the tens.</p></section>"""


def section(title, rows):
    """A part of the card: rows of cells in HTML."""
    made = "".join("<tr>" + "".join(f"<td>{cell}</td>" for cell in row) + "</tr>" for row in rows)
    return f"<section><h2>{title}</h2><table>{made}</table></section>"


def texts(row):
    """Cells of a page as HTML, without their links."""
    return [inline(cell, lambda target: target) for cell in row]


def instructions(rows):
    """A part for each kind of instructions."""
    for kind in dict.fromkeys(row.kind for row in rows):
        own = [row for row in rows if row.kind == kind and row.words]
        if own:
            yield section(kind.capitalize(), [(f"<b>{row.code} {row.name}</b>", "" if row.use == "none" else row.use.replace("-odd", " odd"), row.words)
                                              for row in own])


def uniques(rows):
    """The unique mnemonics: those of a kind that have one opcode and one Q stand in one line."""
    for kind in dict.fromkeys(row.kind for row in rows if row.is_unique()):
        named = {}
        for row in rows:
            if row.kind == kind and row.is_unique():
                named.setdefault((row.use, row.code), []).append(row.name)
        yield section(f"Unique mnemonics: {kind}", [(f"<b>{', '.join(names)}</b>", f"{code} Q {use}") for (use, code), names in named.items()])


def signs(top):
    """The characters: each with its holes, digit and pair, three to a line."""
    cells = ["<b>{}</b> &nbsp;{}, <code>{}, {}</code>".format(*(html.escape(part) for part in ("blank" if row[0] == " " else row[0], *row[1:])))
             for row in characters(top)]
    third = -(-len(cells) // 3)
    return section("Characters: holes, digit, pair", [[part[number] if number < len(part) else "" for part in
                                                     (cells[:third], cells[third:2 * third], cells[2 * third:])] for number in range(third)])


def page_table(top, page, heading):
    return table_below((top / "docs" / page).read_text(encoding="utf-8"), heading)


def make_card(top):
    """The reference card."""
    rows = operations(top)
    declared = [(f"<b>{row[0]}</b>", f"label: {row[2]}; {row[3]}") for row in map(texts, page_table(top, "assembler.md", "## Declaratives"))]
    lists = {title: [(f"<b>{row[0]}</b>", *row[1:]) for row in map(texts, page_table(top, *where))] for title, where in (
        ("Indicators", ("machine.md", "## Indicators")), ("Checks", ("machine.md", "## Stops")),
        ("Codes and reports", ("cli.md", "## Exit codes")),
        ("Operator's script: AT n, or HALT, and then", ("formats.md", "The action is one of these:")))}
    lists["Debugger"] = [texts(row)[:2] for row in page_table(top, "debugger.md", "## The commands")]
    first = [FORM, *instructions(rows), *uniques(rows), SHEET]
    second = [section("Declaratives", declared), *(section(title, part) for title, part in lists.items()), signs(top), PLACES]
    sides = "".join(f'<div class="side">{"".join(parts)}</div>\n' for parts in (["<h1>IBM 1620 Model 1: reference card</h1>", *first], second))
    return framed("IBM 1620 Model 1: reference card", STYLE, sides)


def framed(title, style, body):
    return f'<!DOCTYPE html>\n<html lang="en">\n<head>\n<meta charset="utf-8">\n<title>{title}</title>\n<style>\n{style}</style>\n</head>\n<body>\n{body}</body>\n</html>\n'


def make_chart(top):
    """The add table: at x and y the digit at 300 + 10x + y, and its address."""
    cards = (top / "examples" / "tables" / "deck.txt").read_text(encoding="utf-8").splitlines()
    digits = (cards[3] + cards[4])[60:160]      # card 4 is read to 00240 and card 5 to 00320
    rows = ["<tr><th>x \\ y</th>" + "".join(f"<th>{y}</th>" for y in range(10)) + "</tr>"]
    for x in range(10):
        row = "".join(f'<td class="{"" if digit.isdigit() else "carry"}"><b>{digit}</b><small>{300 + 10 * x + y:05}</small></td>'
                      for y, digit in enumerate(digits[10 * x:10 * x + 10]))
        rows.append(f"<tr><th>{x}</th>{row}</tr>")
    told = ("<p>The machine adds by looking up: the digit of x + y is at 300 + 10x + y. A digit with a flag is written as a letter, ] for 0 and J to R "
            "for 1 to 9: then 1 is carried.</p>\n")
    return framed("The add table", CHART, "<h1>The add table of the IBM 1620</h1>\n" + told + "<table>\n" + "\n".join(rows) + "\n</table>\n")
