"""A deck: its statements, and the case that each of them belongs to."""

from . import model
from .head import head
from .sheet import characters_of, comment, digits_of, rows_of, statement, statements

# Copies twelve digits to the window, from the address that BTM gives it.
COPY = """
            DS   6
    COPY:   TF   CO1+11,COPY-1
            TFM  CO1+6,W
    CO1:    TD   W,0
            AM   CO1+6,1,10
            AM   CO1+11,1,10
            CM   CO1+6,W+12
            BNE  CO1
            CM   ONE,0,10
            BB
"""

# The last position of core, by the switches 2 and 3: 19999 with both off, 39999 with 2 on, 59999 with 3 on.
SIZE = """
    # SWITCHES 2 AND 3 SAY HOW LARGE CORE IS: BOTH OFF 20,000 POSITIONS, 2 ON 40,000, 3 ON 60,000.
            BNC2 *+24
            TFM  TOP,39999
            BNC3 *+24
            TFM  TOP,59999
"""


class Deck:
    """A deck's lines, and what belongs to it: the cards behind it, the keyboard's lines, what the operator does, what it must punch, and what it must
    type between its name and its count. `chains` has the address at the end of each chain of addresses that its cases go through."""

    def __init__(self, name, title, about):
        self.name = name
        self.title = title
        self.cases = 0
        self.chains = {}
        self.last = []
        self.data = []
        self.keys = []
        self.script = []
        self.punched = []
        self.typed = []
        self.lines = comment(f"DIAGNOSTIC {name.upper()}: {title}")
        for line in about:
            self.remark(line)
        self.remark("")
        self.lines += head(name.upper())

    def remark(self, words):
        """Adds a comment."""
        self.lines += comment(words)

    def add(self, label="", operation="", operands="", remark=""):
        """Adds a statement."""
        self.lines.append(statement(label, operation, operands, remark))

    def code(self, text):
        """Adds the statements of a text."""
        self.lines += statements(text)

    def keep(self, label="", operation="", operands="", remark=""):
        """Adds a statement behind the last case."""
        self.last.append(statement(label, operation, operands, remark))

    def tail(self, text):
        """Adds the statements of a text behind the last case."""
        self.last += statements(text)

    def rows(self, label, before, after):
        """The digits of a case, before and behind it, each with its row of flags."""
        digits, flags = rows_of(before)
        after_digits, after_flags = rows_of(after)
        if (len(digits), len(after_digits)) != (12, 16):
            raise ValueError(f"no digits of a case: {before} {after}")
        self.add(label, "DSC", f"12,{digits}", "BEFORE")
        self.add("", "DSC", f"12,{flags}", "FLAGS")
        self.add("", "DSC", f"16,{after_digits}", "AFTER, AND INDICATORS 11 12 13 14")
        self.add("", "DSC", f"16,{after_flags}", "FLAGS")

    def case(self, what, before, lines, after=None, own=False):
        """Adds a case: the window before, the statements, and the window and indicators behind them, which the model works out where they are not
        given. A statement with a label is written `LABEL: OPERATION OPERANDS`. An own case tries a rule of this project's own."""
        self.cases += 1
        after = after or model.outcome(before, lines, self.chains)
        self.remark(f"{self.cases:04} {what}{' (OWN RULE)' if own else ''}")
        self.remark(f"     {before} GIVES {after[:12]} {after[12:]}")
        self.add("", "BTM", "NEXT,*+12")
        self.rows("", before, after)
        for line in lines:
            label, _, plain = line.rpartition(": ")
            operation, _, operands = plain.partition(" ")
            self.add(label, operation, operands)

    def counted(self, cases):
        """Counts cases that a loop of the deck makes."""
        self.cases += cases

    def sheet(self):
        """What has to be typed."""
        name = self.name.upper()
        return "".join(f"{line}\n" for line in ["", name, *self.typed, f"{name} PASSED {self.cases:04} FAILED 0000"])

    def source(self):
        """The deck's source."""
        end = [statement("", "B", "FINISH"), *self.last, statement("", "DEND", "START")]
        return "".join(f"{line}\n" for line in [*self.lines, *end])


def negative(field):
    """A field with a flag at its units."""
    *others, units = digits_of(field)
    return characters_of([*others, (units[0], 1)])


def field(length, number):
    """The field of a number that is not negative."""
    (first, _), *others = digits_of(f"{number:0{length}}")
    return characters_of([(first, 1), *others])
