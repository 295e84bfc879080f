"""A machine by the instruction table of docs/machine.md, in plain Python. It shares nothing with the program, and nothing of it is proved.

The steps that the decks take and the sectors that they leave come from it; and in it wrong behaviours are planted, one at a time (`behaviours.py`), to
see whether a deck notices. A cell is its value, and 16 more where it has a flag. No cell ever fails.
"""

FLAG = 16
MARK, BLANK, GROUP = 10, 12, 15
UNFLAGGED = "0123456789|.@..}"
FLAGGED = "]JKLMNOPQR!.*..\""
OBJECT = {character: value + flag for flag, row in ((0, UNFLAGGED), (FLAG, FLAGGED)) for value, character in enumerate(row) if character != "."}
CHARACTER = {digit: character for character, digit in OBJECT.items()}
READ = OBJECT | {" ": 0, "+": 0, "-": FLAG, "/": 1} | {c: i for i, c in enumerate("ABCDEFGHI", 1)} | {c: i for i, c in enumerate("STUVWXYZ", 2)}
PAIR = {
    " ": (0, 0), ".": (0, 3), ")": (0, 4), "|": (0, MARK), "}": (0, GROUP), "+": (1, 0), "$": (1, 3), "*": (1, 4), "-": (2, 0), "/": (2, 1),
    ",": (2, 3), "(": (2, 4), "=": (3, 3), "@": (3, 4), "]": (5, 0),
} | {
    character: (zone, value)
    for zone, row, first in ((4, "ABCDEFGHI", 1), (5, "JKLMNOPQR", 1), (6, "STUVWXYZ", 2), (7, "0123456789", 0))
    for value, character in enumerate(row, first)
}
LETTER = {pair: character for character, pair in PAIR.items()}
LOAD_RESETS = (6, 7, 9, 11, 12, 14, 16, 17, 36, 37, 38)
TEST_RESETS = (6, 7, 9, 14, 36, 37, 38)
SECTORS, CYLINDER, SECTOR = 20000, 200, 100


class Stop(Exception):
    """What ends a run: the report, without the steps."""


class Machine:
    """The machine behind the power switch: core of zeros, all indicators and switches off."""

    def __init__(self, size, cards, keys=()):
        self.core = [0] * size
        self.size = size
        self.ir = 0
        self.back = 0
        self.on = set()
        self.switches = set()
        self.checks = set()
        self.cards = list(cards)
        self.keys = list(keys)
        self.arms = {1: 0, 2: 0, 3: 0, 4: 0}
        self.sectors = {}
        self.typed = []
        self.punched = []
        self.steps = 0
        self.halted = False

    # Cells and operands.

    def stop(self, kind):
        raise Stop(f"CHECK {kind:02} {self.ir:05}")

    def place(self, address):
        """An address that a cycle has come to."""
        if not 0 <= address < self.size:
            self.stop(2)
        return address

    def decimal(self, address):
        """The value of a digit that is calculated with."""
        value = self.core[address] & 15
        if value > 9:
            self.stop(3)
        return value

    def operand(self, units):
        """The operand whose units digit stands there, through its chain."""
        for _ in range(self.size):
            number, power = 0, 1
            for address in range(units, units - 5, -1):
                number += power * self.decimal(address)
                power *= 10
            if number >= self.size:
                self.stop(2)
            if self.core[units] < FLAG:
                return number
            if number < 4:
                self.stop(2)
            units = number
        self.stop(8)

    def p(self):
        return self.operand(self.ir + 6)

    def q(self):
        return self.operand(self.ir + 11)

    # Steps.

    def step(self):
        """Carries out the instruction at IR."""
        at = self.ir
        if at % 2:
            self.stop(1)
        if at + 12 > self.size:
            self.stop(2)
        first, second = self.core[at] & 15, self.core[at + 1] & 15
        if first > 9 or second > 9:
            self.stop(6)
        operation = OPERATIONS.get(10 * first + second)
        if not operation:
            self.stop(6)
        self.ir = operation(self) if operation in BRANCHES else operation(self) or at + 12
        if self.checks:
            self.look_at_checks(at)

    def look_at_checks(self, at):
        """The check switches, behind an instruction that was completed."""
        for switch, codes, kind in (("OVERFLOW", {14}, 10), ("IO", {6, 7}, 11)):
            if switch in self.checks and codes & self.on:
                self.ir = at
                self.stop(kind)

    def halt(self):
        self.halted = True

    def nothing(self):
        pass

    # Moves.

    def digit(self, p, q):
        self.core[p] = self.core[q]

    def field(self, p, q):
        place = 0
        while True:
            self.place(p - place)
            digit = self.core[self.place(q - place)]
            self.core[p - place] = digit
            if digit >= FLAG and place:
                return
            place += 1

    def record(self, p, q):
        place = 0
        while True:
            self.place(p + place)
            digit = self.core[self.place(q + place)]
            self.core[p + place] = digit
            if digit & 15 == MARK:
                return
            place += 1

    def set_flag(self):
        self.core[self.p()] |= FLAG

    def clear_flag(self):
        self.core[self.p()] &= ~FLAG

    def move_flag(self):
        p, q = self.p(), self.q()
        flag = self.core[q] & FLAG
        self.core[p] = self.core[p] & 15 | flag
        self.core[q] &= 15

    def strip(self):
        """TNS."""
        p, q = self.p(), self.q()
        if p % 2 == 0:
            self.stop(9)
        zone = self.core[p - 1] & 15
        place = 0
        while True:
            value = self.core[self.place(p - 2 * place)] & 15
            self.place(p - 2 * place - 1)
            flag = self.core[self.place(q - place)] & FLAG
            new = flag if place else FLAG if zone == 5 else 0
            self.core[q - place] = value + new
            if flag and place:
                return
            place += 1

    def fill(self):
        """TNF."""
        p, q = self.p(), self.q()
        if p % 2 == 0:
            self.stop(9)
        place = 0
        while True:
            self.place(p - 2 * place - 1)
            digit = self.core[self.place(q - place)]
            self.core[p - 2 * place] = digit & 15
            self.core[p - 2 * place - 1] = 5 if digit >= FLAG and not place else 7
            if digit >= FLAG and place:
                return
            place += 1

    # Sums.

    def sum(self, p, q, kind):
        """A, S or C."""
        negative, other = self.sign(p), self.sign(q)
        complement = (negative != other) if kind == "A" else (negative == other)
        carry = 1 if complement else 0
        ended = False
        zero = True
        place = 0
        while True:
            x = self.decimal(self.place(p - place))
            y = 0
            if not ended:
                y = self.decimal(self.place(q - place))
            last = self.core[p - place] >= FLAG and place > 0
            if not ended and self.core[q - place] >= FLAG and place > 0:
                ended = True
            digit, carry = self.look_up(x, y, carry, complement)
            zero = zero and digit == 0
            if kind != "C":
                self.core[p - place] = digit + (self.core[p - place] & FLAG)
            if last:
                break
            place += 1
        turned = complement and not carry
        if turned and kind != "C":
            zero = self.complement(p, place + 1)
        if kind == "C" and not complement and carry:
            zero = False
        if turned:
            negative = not negative
        self.note(11, not zero and not negative)
        self.note(12, zero)
        if not ended or (kind != "C" and not complement and carry):
            self.on.add(14)

    def sign(self, units):
        self.decimal(units)
        return self.core[units] >= FLAG

    def look_up(self, x, y, carry, complement):
        """One cycle through the add table: the digit and the carry."""
        y = (9 - y if complement else y) + carry
        forced = y == 10
        cell = self.core[300 + 10 * x + (0 if forced else y)]
        if cell & 15 > 9:
            self.stop(3)
        return cell & 15, 1 if forced or cell >= FLAG else 0

    def complement(self, p, length):
        """The second pass; and whether nothing is left."""
        carry = 1
        zero = True
        for address in range(p, p - length, -1):
            digit, carry = self.look_up(0, self.core[address] & 15, carry, True)
            self.core[address] = digit + (self.core[address] & FLAG)
            zero = zero and digit == 0
        self.core[p] ^= FLAG
        return zero

    def note(self, code, is_on):
        if is_on:
            self.on.add(code)
        else:
            self.on.discard(code)

    # Branches: each gives where it goes.

    def branch(self):
        return self.p()

    def branch_back(self):
        return self.back

    def transmit(self, p, q):
        """BT and BTM."""
        if p == 0:
            self.stop(2)
        self.field(p - 1, q)
        self.back = self.ir + 12
        return p

    def where(self, goes, p):
        return p if goes else self.ir + 12

    def branch_digit(self):
        p, q = self.p(), self.q()
        return self.where(self.core[q] & 15 != 0, p)

    def branch_no_flag(self):
        p, q = self.p(), self.q()
        return self.where(self.core[q] < FLAG, p)

    def branch_no_mark(self):
        p, q = self.p(), self.q()
        return self.where(self.core[q] & 15 != MARK, p)

    def branch_no_group(self):
        p, q = self.p(), self.q()
        return self.where(self.core[q] & 15 != GROUP, p)

    def indicator(self):
        tens, units = self.core[self.ir + 8] & 15, self.core[self.ir + 9] & 15
        return 10 * tens + units if max(tens, units) < 10 else 0

    def test(self, code):
        """Whether an indicator is on. The test turns off those that are so."""
        is_on = {
            13: 11 in self.on or 12 in self.on,
            19: bool(self.on & {6, 7, 16, 17}),
            39: bool(self.on & {36, 37, 38}),
        }.get(code, code in self.on or code in self.switches)
        if code in TEST_RESETS:
            self.on.discard(code)
        return is_on

    def branch_indicator(self):
        p = self.p()
        return self.where(self.test(self.indicator()), p)

    def branch_no_indicator(self):
        p = self.p()
        return self.where(not self.test(self.indicator()), p)

    # The units.

    def device(self):
        return 10 * (self.core[self.ir + 8] & 15) + (self.core[self.ir + 9] & 15), self.core[self.ir + 11] & 15

    def odd(self, p):
        if p % 2 == 0:
            self.stop(9)
        return p

    def control(self):
        device, what = self.device()
        if device == 1 and what in (1, 2, 8):
            self.typed.append({1: " ", 2: "\n", 8: "\t"}[what])
        elif device == 7 and what == 1:
            self.seek(self.p())
        else:
            self.stop(7)

    def dump(self):
        device, _ = self.device()
        if device not in (1, 4):
            self.stop(7)
        text = "".join(CHARACTER[digit] for digit in self.core[self.p():])
        if device == 1:
            self.typed.append(text)
        else:
            self.punched += [f"{text[first:first + 80].replace('@', ' '):80}" for first in range(0, len(text), 80)]

    def take(self, device):
        """The next card or line of the keyboard."""
        rack, missing, jam = (self.keys, "NEED KEYS", "JAM KEYS") if device == 1 else (self.cards, "NEED CARDS", "JAM DECK")
        if not rack:
            raise Stop(f"{missing} {self.ir:05}")
        if len(rack[0]) > 80:
            raise Stop(jam)
        line = rack.pop(0)
        if device == 1:
            return line
        if not rack:
            self.on.add(9)
        return f"{line:80}"

    def read(self):
        device, what = self.device()
        if device == 7 and what < 4:
            self.transfer(self.p(), what)
        elif device in (1, 5):
            self.store_digits(self.p(), self.take(device))
        else:
            self.stop(7)

    def store_digits(self, p, columns):
        for place, column in enumerate(columns):
            if column not in READ:
                self.on.add(6)
            self.core[self.place(p + place)] = READ.get(column, 0)

    def read_pairs(self):
        device, _ = self.device()
        if device not in (1, 5):
            self.stop(7)
        p = self.odd(self.p())
        for place, column in enumerate(self.take(device)):
            if column not in PAIR:
                self.on.add(6)
            zone, digit = PAIR.get(column, (0, 0))
            self.core[self.place(p - 1 + 2 * place)] = zone
            self.core[self.place(p + 2 * place)] = digit

    def write(self):
        device, what = self.device()
        if device == 7 and what in (0, 2):
            self.transfer(self.p(), what + 4)
            return
        if device not in (1, 4):
            self.stop(7)
        p = self.p()
        if device == 4:
            digits = [self.core[self.place(p + place)] for place in range(80)]
            self.punched.append("".join(" " if digit == BLANK else CHARACTER[digit] for digit in digits))
            return
        while self.core[self.place(p)] & 15 != MARK:
            self.typed.append(CHARACTER[self.core[p]])
            p += 1

    def letter(self, p):
        """The character of the pair that ends there."""
        pair = self.core[self.place(p - 1)] & 15, self.core[self.place(p)] & 15
        if pair not in LETTER:
            self.on.add(7)
        return LETTER.get(pair, " ")

    def write_pairs(self):
        device, _ = self.device()
        if device not in (1, 4):
            self.stop(7)
        p = self.odd(self.p())
        if device == 4:
            self.punched.append("".join(self.letter(p + 2 * place) for place in range(80)))
            return
        while self.core[self.place(p)] & 15 != MARK:
            self.typed.append(self.letter(p))
            p += 2

    # The disk.

    def control_field(self, p):
        digits = "".join(str(self.decimal(self.place(p + place))) for place in range(14))
        drive, sector, count, buffer = int(digits[0]), int(digits[1:6]), int(digits[6:9]), int(digits[9:])
        if not 1 <= drive <= 4:
            self.stop(7)
        return drive, sector, count, buffer

    def seek(self, p):
        drive, sector, _, _ = self.control_field(p)
        if sector >= SECTORS:
            self.on.add(36)
        else:
            self.arms[drive] = sector // CYLINDER

    def transfer(self, p, what):
        """Reads (0 and 2), checks (1 and 3) or writes (4 and 6) sectors; 0, 1 and 4 look for the group mark behind."""
        drive, sector, count, buffer = self.control_field(p)
        if sector >= SECTORS or self.arms[drive] != sector // CYLINDER:
            self.on.add(36)
            return
        if buffer >= self.size:
            self.stop(2)
        for sector in range(sector, sector + count):
            if sector // CYLINDER != self.arms[drive]:
                self.on.add(38)
                break
            self.place(buffer + SECTOR - 1)
            self.transfer_one((drive - 1) * SECTORS + sector, buffer, what)
            buffer += SECTOR
        if what in (0, 1, 4) and not (buffer < self.size and self.core[buffer] & 15 == GROUP):
            self.on.add(37)

    def transfer_one(self, sector, buffer, what):
        cells = self.core[buffer:buffer + SECTOR]
        digits = self.sectors.get(sector, [0] * SECTOR)
        if what in (4, 6):
            self.sectors[sector] = cells
        elif what in (0, 2):
            self.core[buffer:buffer + SECTOR] = digits
        elif cells != digits:
            self.on.add(37)

    # The operator.

    def load(self):
        """The Load key."""
        self.on -= set(LOAD_RESETS)
        self.ir = 0
        self.store_digits(0, self.take(5))
        self.halted = False

    def act(self, words):
        """An action of the operator's script."""
        what, *others = words
        if what == "START":
            self.halted = False
        elif what == "LOAD":
            self.load()
        elif what == "SWITCH":
            (self.switches.add if others[1] == "ON" else self.switches.discard)(int(others[0]))
        else:
            (self.checks.add if others[0] == "STOP" else self.checks.discard)(what)

    def run(self, script=(), limit=9000000):
        """Presses the Load key and lets the machine run, with the operator at the console; gives the report."""
        acts = [line.split() for line in script]
        try:
            self.load()
            while True:
                if acts and (self.halted if acts[0][0] == "HALT" else self.steps >= int(acts[0][1])):
                    words = acts.pop(0)
                    self.act(words[1:] if words[0] == "HALT" else words[2:])
                elif self.halted:
                    return f"HALT {self.ir - 12:05} STEPS {self.steps}"
                elif self.steps == limit:
                    return f"LIMIT STEPS {self.steps}"
                else:
                    self.steps += 1
                    self.step()
        except Stop as stop:
            return f"{stop} STEPS {self.steps}"


def pair_of_operands(action):
    """An operation with P and Q, both through their chains."""
    return lambda machine: action(machine, machine.p(), machine.q())


def immediate(action):
    """An operation whose Q is the instruction's own digits."""
    return lambda machine: action(machine, machine.p(), machine.ir + 11)


def sum_of(kind):
    return lambda machine, p, q: machine.sum(p, q, kind)


OPERATIONS = {
    21: pair_of_operands(sum_of("A")), 11: immediate(sum_of("A")),
    22: pair_of_operands(sum_of("S")), 12: immediate(sum_of("S")),
    24: pair_of_operands(sum_of("C")), 14: immediate(sum_of("C")),
    25: pair_of_operands(Machine.digit), 15: immediate(Machine.digit),
    26: pair_of_operands(Machine.field), 16: immediate(Machine.field),
    31: pair_of_operands(Machine.record),
    32: Machine.set_flag, 33: Machine.clear_flag,
    27: pair_of_operands(Machine.transmit), 17: immediate(Machine.transmit),
    42: Machine.branch_back, 43: Machine.branch_digit, 44: Machine.branch_no_flag, 45: Machine.branch_no_mark, 55: Machine.branch_no_group,
    46: Machine.branch_indicator, 47: Machine.branch_no_indicator, 49: Machine.branch,
    34: Machine.control, 35: Machine.dump, 36: Machine.read, 37: Machine.read_pairs, 38: Machine.write, 39: Machine.write_pairs,
    71: Machine.move_flag, 72: Machine.strip, 73: Machine.fill,
    41: Machine.nothing, 48: Machine.halt,
}
BRANCHES = {OPERATIONS[code] for code in (27, 17, 42, 43, 44, 45, 55, 46, 47, 49)}
