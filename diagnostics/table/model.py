"""What the statements of a case leave, worked out by the instruction table of docs/machine.md. It shares nothing with the program.

It knows the window, twelve digits at `W`, the constant `ONE`, the first and the last twelve positions of core as far as the case has stored there,
and the digits of the case's own instructions; a case that reads or stores anything else has its outcome written by hand. The add table is the
standard one. The case begins with 11 on, and 12 and 14 off.
"""

import re

from .sheet import MARK, characters_of, digits_of

WINDOW = 2520
ONE = 900
CODE = 3000
TOP = 19999
SIZE = 12
IMMEDIATE = ("AM", "SM", "CM", "TDM", "TFM")
MOST_STEPS = 500


class Model:
    """The window, the case's instructions and the indicators 11, 12 and 14. `chains` has the address where each chain of addresses ends."""

    def __init__(self, before, chains):
        self.core = {WINDOW + i: digit for i, digit in enumerate(digits_of(before))}
        self.core[ONE - 1], self.core[ONE] = (0, 1), (1, 0)
        self.chains = chains
        self.high, self.equal, self.overflow = 1, 0, 0

    def after(self):
        """The window and the indicators 11, 12, 13 and 14."""
        window = characters_of(self.core[WINDOW + i] for i in range(SIZE))
        return f"{window}{int(self.high)}{int(self.equal)}{int(self.high or self.equal)}{int(self.overflow)}"

    def store(self, address, value, flag):
        if not (WINDOW <= address < WINDOW + SIZE or 0 <= address < SIZE or TOP - SIZE < address <= TOP):
            raise ValueError(f"a store where none may be, at {address}")
        self.core[address] = (value, flag)

    # Sums.

    def sum(self, kind, p, q):
        """A, S or C: through the field at P, then once more where a complement addition leaves no carry."""
        negative, other = self.core[p][1], self.core[q][1]
        complement = (negative != other) if kind == "A" else (negative == other)
        carry = int(complement)
        q_ended = False
        digits = []
        while True:
            place = len(digits)
            x, x_flag = self.core[p - place]
            y = 0
            if not q_ended:
                y, y_flag = self.core[q - place]
                q_ended = bool(y_flag) and place > 0
            carry, digit = divmod(x + (9 - y if complement else y) + carry, 10)
            digits.append(digit)
            if kind != "C":
                self.store(p - place, digit, x_flag)
            if x_flag and place > 0:
                break
        turned = complement and not carry
        if turned and kind != "C":
            digits = self.complement(p, len(digits))
        zero = not any(digits) and (kind != "C" or complement or not carry)
        self.equal = zero
        self.high = not zero and not negative ^ turned
        self.overflow = self.overflow or not q_ended or (kind != "C" and not complement and carry)

    def complement(self, p, length):
        """The second pass over P's field: its complement, with the other sign."""
        carry = 1
        digits = []
        for place in range(length):
            value, flag = self.core[p - place]
            carry, digit = divmod(9 - value + carry, 10)
            digits.append(digit)
            self.store(p - place, digit, flag)
        value, flag = self.core[p]
        self.store(p, value, 1 - flag)
        return digits

    # Moves.

    def field(self, p, q):
        place = 0
        while True:
            digit = self.core[q - place]
            self.store(p - place, *digit)
            if digit[1] and place > 0:
                break
            place += 1

    def record(self, p, q):
        place = 0
        while True:
            digit = self.core[q + place]
            self.store(p + place, *digit)
            if digit[0] == MARK:
                break
            place += 1

    def flag(self, p, q):
        """MF."""
        flag = self.core[q][1]
        self.store(p, self.core[p][0], flag)
        self.store(q, self.core[q][0], 0)

    def strip(self, p, q):
        """TNS."""
        zone = self.core[p - 1][0]
        place = 0
        while True:
            flag = self.core[q - place][1]
            self.store(q - place, self.core[p - 2 * place][0], flag if place else int(zone == 5))
            if flag and place > 0:
                break
            place += 1

    def fill(self, p, q):
        """TNF."""
        place = 0
        while True:
            value, flag = self.core[q - place]
            self.store(p - 2 * place, value, 0)
            self.store(p - 2 * place - 1, 5 if flag and not place else 7, 0)
            if flag and place > 0:
                break
            place += 1

    # Branches.

    def goes(self, operation, q):
        """Whether a branch goes."""
        if operation in ("BI", "BNI"):
            branches = {11: ("BH", "BNH"), 12: ("BE", "BNE"), 13: ("BNL", "BL"), 14: ("BV", "BNV")}
            operation = branches[q // 100][operation == "BNI"]
        overflow = self.overflow
        if operation in ("BV", "BNV"):
            self.overflow = 0
        return {
            "B": lambda: True,
            "BD": lambda: self.core[q][0] != 0,
            "BNF": lambda: not self.core[q][1],
            "BNR": lambda: self.core[q][0] != MARK,
            "BH": lambda: self.high, "BNH": lambda: not self.high,
            "BE": lambda: self.equal, "BNE": lambda: not self.equal,
            "BNL": lambda: self.high or self.equal, "BL": lambda: not (self.high or self.equal),
            "BV": lambda: overflow, "BNV": lambda: not overflow,
            "BA": lambda: False, "BNA": lambda: True,
        }[operation]()

    # Operands.

    def number(self, expression, here):
        """The value of an operand, and whether it is written as a negative number. `here` is what * stands for."""
        for symbol, address in (("W", WINDOW), ("ONE", ONE), ("TOP", TOP)):
            expression = re.sub(rf"\b{symbol}\b", str(address), expression)
        if expression.startswith("*"):
            expression = f"{here}{expression[1:]}"
        terms = re.findall(r"[+-]?\d+", expression)
        if "".join(terms) != expression:
            raise ValueError(f"no operand: {expression}")
        return sum(map(int, terms)), expression.startswith("-")

    def immediate(self, operation, here, p, q, negative, flags):
        """Puts the digits of an immediate instruction into core, and gives the units of its Q."""
        places = {int(place) for place in re.findall(r"1[01]|\d", flags)}
        if not flags and operation != "TDM":
            places = {7}
        for first, number in ((2, p), (7, abs(q))):
            for place, digit in enumerate(f"{number:05}", first):
                self.core[here + place] = (int(digit), int(place in places or (place == 11 and negative)))
        return here + 11

    def step(self, line, here):
        """Carries out a statement, and gives the address of the next one."""
        operation, _, operands = line.partition(" ")
        parts = [*operands.split(","), "", "", ""]
        for part in (0,) if operation in IMMEDIATE else (0, 1):
            if parts[part].startswith("-"):
                parts[part] = self.chains.get(parts[part][1:], parts[part])
        p = self.number(parts[0], here)[0] if parts[0] else 0
        q, negative = self.number(parts[1], here) if parts[1] else (0, False)
        if operation in IMMEDIATE:
            q = self.immediate(operation, here, p, q, negative, parts[2])
        if operation in ("A", "S", "C", "AM", "SM", "CM"):
            self.sum(operation[0], p, q)
        elif operation in ("TD", "TDM"):
            self.store(p, *self.core[q])
        elif operation in ("TF", "TFM"):
            self.field(p, q)
        elif operation == "TR":
            self.record(p, q)
        elif operation in ("SF", "CF"):
            self.store(p, self.core[p][0], int(operation == "SF"))
        elif operation == "MF":
            self.flag(p, q)
        elif operation == "TNS":
            self.strip(p, q)
        elif operation == "TNF":
            self.fill(p, q)
        elif operation != "NOP" and self.goes(operation, q):
            return p
        return here + 12


def outcome(before, lines, chains):
    """What the statements leave of the window, and the indicators 11, 12, 13 and 14 behind them."""
    model = Model(before, chains)
    here = CODE
    for _ in range(MOST_STEPS):
        place, within = divmod(here - CODE, 12)
        if within or place > len(lines):
            raise ValueError(f"the case goes to {here}")
        if place == len(lines):
            return model.after()
        here = model.step(lines[place], here)
    raise ValueError("the case goes round")
