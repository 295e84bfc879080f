"""Shows core as rows of 50 digits with a bar over each digit that has a flag, from lines of an address and its digits: the file that --image wrote,
or the report of a session, whose SHOW lines are such lines. Other lines are passed over."""

import re

import common

USAGE = """usage: {me} [FILE]
FILE has lines of an address and digits, as --image and SHOW write them; without it, or with -, they are the standard input's.
  --help, -h   this text
"""
LINE = re.compile(r"([0-9]{5}) ([^ \t]+)")
HEAD = "       +0        +10       +20       +30       +40"
BARE = str.maketrans(common.FLAGS, common.NUMBERS + "|}@")      # what lies under the bar of each digit with a flag
A_ROW = 50


def rows(address, digits):
    """The rows of some digits, each with its bars above it if it has some."""
    for first in range(0, len(digits), A_ROW):
        part = digits[first:first + A_ROW]
        bars = "".join("_" if common.has_flag(digit) else " " for digit in part).rstrip()
        if bars:
            yield f"       {bars}"
        yield f"{address + first:05}  {part.translate(BARE)}"


def main(words):
    plain, _, _ = common.read_words(words, USAGE)
    if len(plain) > 1:
        raise common.wrong(USAGE, f"{plain[1]}: a word too much")
    name = (plain or ["-"])[0]
    found = [line for line in map(LINE.fullmatch, common.lines_of(common.read_input(name))) if line]
    if not found:
        raise common.Failed(f"{common.ME}: {name}: no line has an address and digits, as --image and SHOW write them")
    common.say("\n".join([HEAD, *(row for line in found for row in rows(int(line[1]), line[2]))]))
