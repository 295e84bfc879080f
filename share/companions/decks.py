"""Slips in a deck: its cards are followed as far as they only read cards, move digits and branch for certain. The first slip is told."""

import re

from common import FLAGGED, FLAGS, MARKS, NUMBERS, digit_of, has_flag, lines_of, read_characters, read_operations
from slips import BTM, CF, IMMEDIATE_SUMS, RN, SF, SUMS, TD, TDM, TF, TR, WA, WN, B, H

CORE, STEPS, K, NO_OPERATION = 20000, 20000, 34, 41
PLAIN = NUMBERS + "|}@"     # the digits of FLAGS without their flags
UNITS = "01 is the typewriter, 04 the punch, 05 the reader, 07 the disk"
NOT_BUILT = {**dict.fromkeys((13, 23), "multiplication"), **dict.fromkeys((18, 19, 28, 29), "division")}
TABLE = {300 + 10 * x + y: (NUMBERS + FLAGGED)[x + y] for x in range(10) for y in range(10)}
CARDS_OF_TABLE = "the five cards of examples/tables/deck.txt"
CHARACTERS = read_characters()


class Cell:
    """A digit of core: its character; the card and the column that it was read from, 0 if it has been moved or changed since; and whether it is
    known. Data that is not known is taken to be zeros."""

    def __init__(self, sign="0", card=0, column=0, is_known=True):
        self.sign, self.column, self.is_known = sign, column, is_known
        self.where = f"column {column} of card {card}"
        self.character = CHARACTERS.get(sign)
        self.digit = self.character and self.character.digit or sign     # the character by which the machine writes it
        self.value, self.is_flagged, self.is_mark = digit_of(self.digit), has_flag(self.digit), self.digit in MARKS


ZERO, UNKNOWN = Cell(), Cell(is_known=False)


class Slip(Exception):
    """What is told of a deck."""


class Deck:
    def __init__(self, text):
        self.cards, self.taken, self.core = lines_of(text), 0, {}
        self.codes = {each.code for each in read_operations()}
        self.at, self.is_sought, self.has_table = 0, False, False

    def cell(self, place):
        return self.core.get(place, ZERO)

    def number(self, first, last):
        return "".join(str(self.cell(at).value) for at in range(first, last + 1))

    def put(self, place, cell):
        self.core[place] = Cell(cell.sign, is_known=cell.is_known)
        self.has_table = self.has_table or place in TABLE

    def read_card(self, address):
        self.taken += 1
        card = self.cards[self.taken - 1] if self.taken <= len(self.cards) else None
        for i in range(80):
            self.put(address + i, UNKNOWN)
            if card is not None:
                self.core[address + i] = Cell(card[i], self.taken, i + 1) if i < len(card) else ZERO

    def follow(self):
        """Follows the deck, and raises the first slip."""
        if self.cards and not self.cards[0].strip(" "):
            raise Slip("the first card is blank, and the machine begins with its zeros, which are no operation")
        if not self.cards:
            return
        self.read_card(0)
        seen = set()
        for _ in range(STEPS):
            at, code = self.at, int(self.number(self.at, self.at + 1))
            p, q = int(self.number(at + 2, at + 6)), int(self.number(at + 7, at + 11))
            if at not in seen:
                self.look_at_columns(code)
            seen.add(at)
            if not all(self.cell(place).is_known for place in range(at, at + 12)):
                return
            self.look_at_instruction(code, p, q)
            if code == H or self.cell(at + 6).is_flagged:
                return
            self.look_at_operands(code, p, q)
            if not self.act(code, p, q):
                return

    def act(self, code, p, q):
        """Does what the instruction does, if that is certain; says whether it was."""
        is_indirect = self.cell(self.at + 11).is_flagged
        self.at += 12
        if code == RN and q // 100 % 100 == 5:
            self.read_card(p)
        elif code == B:
            self.at = p
        elif code in (SF, CF):
            kind = (PLAIN + FLAGS).find(self.cell(p).digit) % len(PLAIN)
            self.put(p, Cell((FLAGS if code == SF else PLAIN)[kind], is_known=self.cell(p).is_known))
        elif code == TDM:
            self.put(p, self.cell(self.at - 1))
        elif code == TD and not is_indirect:
            self.put(p, self.cell(q))
        elif code == TF and not is_indirect:
            for i in range(min(p, q) + 1):
                self.put(p - i, self.cell(q - i))
                if i and self.cell(q - i).is_flagged:
                    break
        elif code == TR and not is_indirect:
            for i in range(CORE - q):
                self.put(p + i, self.cell(q + i))
                if self.cell(q + i).is_mark:
                    break
        else:
            self.is_sought = self.is_sought or code == K and q // 100 % 100 == 7
            return code in (WN, WA, K, NO_OPERATION) or code // 10 == 4
        return True

    def look_at_columns(self, code):
        """A column of an instruction as it was punched: one that has no digit, or a letter that is read as one. J to R are digits with a flag, which
        the deck may want there; an O is most often meant as a zero."""
        cells = [self.cell(self.at + i) for i in range(12)]
        last = max((i for i in range(12) if cells[i].column and cells[i].sign != " "), default=0)
        for i, cell in enumerate(cells):
            sign = cell.sign
            if not cell.column or sign == " " and i > last:
                continue
            if sign == " ":
                what = "is blank, which is read as 0: no blanks stand between its parts"
            elif not cell.character or not cell.character.digit:
                what = f"has {sign if '!' <= sign <= '~' else 'a tab' if sign == chr(9) else 'a character'}, which is no digit and is read as 0"
            elif cell.digit != sign:
                what = f"has {sign}, which is read as " + (f"the digit {cell.digit}" if cell.digit in NUMBERS else f"{cell.digit}, a 0 with a flag")
            elif sign == "O" and i not in (6, 11) and not (i == 7 and IMMEDIATE_SUMS[0] <= code <= BTM):
                what = "has the letter O, which is the digit 6 with a flag"
            else:
                continue
            raise Slip(f"{cell.where}, in the instruction at {self.at:05d}, {what}")

    def look_at_instruction(self, code, p, q):
        at, unit = self.at, q // 100 % 100
        if at % 2:
            raise Slip(f"the machine gets to {at:05d}, and an instruction has an even address: is the P of a branch shifted?")
        if code in NOT_BUILT:
            raise Slip(f"{code:02d} at {at:05d} is an operation of {NOT_BUILT[code]}, which this machine has not: docs/assembler.md, Not built, "
                       "says what to do without")
        if code not in self.codes:
            raise Slip(f"{code:02d} at {at:05d} is no operation: has the instruction in front of it a digit too few or too many, "
                       "or is a halt, 48, missing?")
        if code in (WN, WA) and unit == 1 and not self.cell(at + 6).is_flagged and p < CORE:
            if not any(not self.cell(place).is_known or self.cell(place).is_mark for place in range(p, CORE)):
                raise Slip(f"{code} at {at:05d} types from {p:05d} on, and no record mark follows: "
                           "all that is left of core is typed")
            if code == WA:
                self.look_at_pairs(p)
        if RN <= code <= WA and unit not in (1, 4, 5, 7):
            raise Slip(f"{code:02d} at {at:05d} is for the unit {unit:02d}, by its ninth and tenth digit: {UNITS}")

    def look_at_pairs(self, p):
        """A text is pairs of digits: letters are no pairs, and the mark is the second digit of one."""
        if p % 2 == 0:
            raise Slip(f"39 at {self.at:05d} types pairs of digits from {p:05d} on: P is the second digit of a pair, at an odd address")
        end = next(place for place in range(p - 1, CORE) if not self.cell(place).is_known or self.cell(place).is_mark)
        letters = [cell for cell in map(self.cell, range(p - 1, end)) if cell.column and "A" <= cell.sign <= "Z"]
        if letters and len(letters) == end - p + 1 or any(cell.sign not in FLAGGED for cell in letters):
            raise Slip(f"{letters[0].where} has {letters[0].sign}, and 39 at {self.at:05d} types pairs of digits: the pair of {letters[0].sign} is "
                       f"{letters[0].character.pair}")
        if self.cell(end).is_mark and end % 2 == 0:
            raise Slip(f"39 at {self.at:05d} types pairs of digits, and the record mark at {end:05d} is the first digit of a pair: "
                       "has a pair a digit too few or too many?")

    def look_at_operands(self, code, p, q):
        if code in (RN, WN) and q // 100 % 100 == 7 and not self.is_sought:
            raise Slip(f"{code} at {self.at:05d} moves sectors, and no seek, 34, comes before it: no transfer moves an arm")
        if code == TF and not self.cell(self.at + 11).is_flagged:
            self.look_for_flag(code, q)
        if code not in (*SUMS, *IMMEDIATE_SUMS):
            return
        if not self.has_table:
            raise Slip(f"{code} at {self.at:05d} adds, and no card before it has brought the add table: put {CARDS_OF_TABLE} in front")
        for place, wanted in TABLE.items():
            if self.cell(place).is_known and self.cell(place).digit != wanted:
                raise Slip(f"{code} at {self.at:05d} adds, and the add table has {self.cell(place).digit} at {place:05d}, not {wanted}: "
                           f"a digit of a card is missing or wrong; {CARDS_OF_TABLE} are right")
        if code in SUMS and not self.cell(self.at + 11).is_flagged:
            self.look_for_flag(code, p)
            self.look_for_flag(code, q)

    def look_for_flag(self, code, units):
        """Looks at a number that is asked for as one, and has no flag; or one whose flag is a minus."""
        for place in range(units, -1, -1):
            cell = self.cell(place)
            if cell.sign == "-" and cell.column and place < units:
                digits = self.number(place + 1, units)
                raise Slip(f"{cell.where} has -, which is read as ], a 0 with a flag: -{digits} is ]{negative(digits)}")
            if not cell.is_known or place < units and cell.is_flagged:
                return
        raise Slip(f"{code} at {self.at:05d} takes the number whose last digit is at {units:05d}, and no flag is to the left of it: "
                   "it would run on down to 00000")


def negative(digits):
    return digits[:-1] + FLAGGED[int(digits[-1])]


def look_at_data(text):
    """The cards of data that have a minus in front of a number, with what to say of each."""
    for number, card in enumerate(lines_of(text), 1):
        found = re.search(r"-([0-9]+)", card)
        if found:
            yield number, (f"column {found.start() + 1} has -, which is read as ], a 0 with a flag: "
                           f"{found[0]} is punched as 0{negative(found[1])}, with the flag on its last digit"), card
