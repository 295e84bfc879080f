"""Puts a source that is parted by tabs into the columns of the coding sheet: the label, a tab, the operation, a tab, the operands. A line that begins
with a * is a comment, and a line without a tab that begins with five blanks or digits is in its columns already. Small letters become capitals. If a line
does not fit, that is said, and nothing is written."""

import re

import common

USAGE = """usage: {me} [FILE | --blank]
Without a FILE, or with -, the source is the standard input; the sheet goes to the standard output.
  --blank      an empty coding sheet instead, as a page for a browser to print
  --help, -h   this text
"""
BLANK = """<!DOCTYPE html>
<html lang="en">
<head>
<meta charset="utf-8">
<title>SPS coding sheet</title>
<style>
@page { size: A4 landscape; margin: 8mm }
body { margin: 0; font: 9px sans-serif }
table { border-collapse: collapse; table-layout: fixed; width: 280mm }
td, th { border: 0.2mm solid #999; height: 6.2mm; padding: 0; font: inherit; text-align: center }
thead th { height: 4mm }
.first { border-left: 0.6mm solid #000 }
p { font-size: 12px; margin: 0 0 2mm }
</style>
</head>
<body>
<p>SPS coding sheet. Program: ______________________ Name: ______________________ Sheet: ____ of ____</p>
<table>
<thead>
<tr><th colspan="5">page, line<th colspan="6">label<th colspan="4">operation<th colspan="60">operands and remark<th colspan="5">free</tr>
"""
ROWS = 26
FIRST = ' class="first"'
SMALL = {small: small - 32 for small in range(ord("a"), ord("z") + 1)}     # the other bytes are those of some character that no card has


def sheet_line(line):
    """A line as it is on the sheet. Raises ValueError with what is wrong."""
    line = line.translate(SMALL)
    field = line.split("\t")
    if line.startswith("*"):
        line = "     " + line
    elif len(field) > 1 or not re.match(r"[ 0-9]{5}| *$", line):
        line = placed(field)
    line = line.rstrip(" ")
    if len(line) > 80:
        raise ValueError("over 80 columns")
    return line


def placed(field):
    """The label, the operation and the operands in their columns."""
    if len(field) < 2:
        raise ValueError("no tab: write the label, a tab, the operation, a tab, the operands; a comment begins with *")
    label, operation = field[0].strip(" "), field[1].strip(" ")
    look_at("label", label, 6, "six")
    if not label and not operation and len(field) > 2:
        raise ValueError("no operation between the first tab and the second: one tab comes before the operation")
    look_at("operation", operation, 4, "four")
    if len(field) > 3:
        raise ValueError("a third tab: a remark goes after the operands, with commas before it")
    line = f"     {label:6}{operation:4}" + "".join(field[2:])
    if len(line) > 75:
        raise ValueError("the operands and the remark go past column 75")
    return line


def look_at(what, word, most, in_words):
    if " " in word:
        raise ValueError(f"a blank inside the {what} {word}: is a tab missing after {word.split(' ')[0]}?")
    if len(word) > most:
        raise ValueError(f"the {what} {word} has over {in_words} characters")


def blank_row(kind, text):
    """A row of the empty sheet: 80 cells, with a line before the first column of each field."""
    cells = (f'<{kind}{FIRST if column in (6, 12, 16, 76) else ""}>{text(column)}' for column in range(1, 81))
    return f"<tr>{''.join(cells)}</tr>"


def blank_sheet():
    rows = "\n".join([blank_row("td", lambda column: "")] * ROWS)
    return f"{BLANK}{blank_row('th', str)}\n</thead>\n{rows}\n</table>\n</body>\n</html>"


def main(words):
    plain, given, _ = common.read_words(words, USAGE, flags=("blank",))
    if len(plain) + len(given) > 1:
        raise common.wrong(USAGE, f"{plain[-1]}: a word too much")
    if given:
        common.say(blank_sheet())
        return
    name = (plain or ["-"])[0]
    sheet = []
    for number, line in enumerate(common.lines_of(common.read_input(name)), 1):
        try:
            sheet.append(sheet_line(line) + "\n")
        except ValueError as why:
            raise common.Failed(f"{common.ME}: {'standard input' if name == '-' else name}: line {number}: {why}") from None
    common.say("".join(sheet), end="")
