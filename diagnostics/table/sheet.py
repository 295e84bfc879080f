"""Lines of the coding sheet, and digits as they stand in a deck.

In the table a digit is one character, as on cards: `]` and `J` to `R` are the flagged 0 to 9, `|` is a record mark and `!` a flagged one.
"""

import re
import textwrap

PARTS = {"DSA": 10, "DDA": 4, "DS": 2, "DSS": 2, "DAS": 2, "DNB": 2, "DGM": 1, "DORG": 1, "DEND": 1}
MARK = 10
UNFLAGGED = "0123456789|"
FLAGGED = "]JKLMNOPQR!"


def statement(label="", operation="", operands="", remark=""):
    """A statement in its columns: the label from 6 on, the operation from 12, the operands from 16, and behind all operands the remark."""
    line = f"     {label:<6}{operation:<4}{operands}"
    if remark:
        parts = operands.count(",") + 1
        line = (line + "," * (PARTS.get(operation, 3) - parts + 1) + remark)[:75]
    if len(label) > 6 or len(operation) > 4 or len(line) > 80:
        raise ValueError(f"no line of the sheet: {line}")
    return line.rstrip()


def bare(line):
    """A statement without its remark; the text of a DAC is left as it is."""
    operation = line[11:15].strip()
    parts = line[15:].split(",")
    if operation == "DAC":
        return line
    return line[:15] + ",".join(parts[:PARTS.get(operation, 3)]).rstrip(",")


def statements(text):
    """The lines of a text in which a colon is behind the label, and operation, operands and remark are parted by blanks, the remark by two or more.

    `#` begins a comment, and a text in quotes is that of a DAC, which then is as long as the text.
    """
    lines = []
    for line in filter(None, map(str.strip, text.split("\n"))):
        found = re.fullmatch(r'(?:(\w+): *)?(\w+)(?: +("[^"]*"|\S+)(?: {2,}(\S.*))?)?', line)
        if line.startswith("#"):
            lines += comment(line[1:].strip())
        elif found:
            label, operation, operands, remark = (part or "" for part in found.groups())
            if operands.startswith('"'):
                operands = f"{len(operands) - 2},{operands[1:-1]}"
            lines.append(statement(label, operation, operands, remark))
        else:
            raise ValueError(f"no statement: {line}")
    return lines


def comment(text):
    """A comment, on as many lines as it needs."""
    line = f"     *{text}".rstrip()
    if len(line) <= 80:
        return [line]
    first, *others = textwrap.wrap(text, 70)
    return [f"     *{first}", *(f"     *   {other}" for other in others)]


def digits_of(characters):
    """The digits of some characters: the value of each, and whether it has a flag."""
    return [(UNFLAGGED.index(c), 0) if c in UNFLAGGED else (FLAGGED.index(c), 1) for c in characters]


def characters_of(digits):
    """The characters of some digits."""
    return "".join((FLAGGED if flag else UNFLAGGED)[value] for value, flag in digits)


def rows_of(characters):
    """The constants of two DSC for some characters: their values, and a row of flags that are digits."""
    digits = digits_of(characters)
    return "".join("@" if value == MARK else str(value) for value, _ in digits), "".join(str(flag) for _, flag in digits)
