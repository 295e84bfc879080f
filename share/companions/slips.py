"""Slips in a source that the assembler accepts. Nothing is run, so a warning may be wrong."""

import re

from common import MARKS, digit_of, has_flag, read_operations
from placed import text_and_address

SUMS, IMMEDIATE_SUMS, BRANCHES = (21, 22, 24), (11, 12, 14), (17, 27, 43, 44, 45, 46, 47, 49, 55)
TDM, TFM, BTM, TD, TF, BT, TR, SF, CF, MF, TNS, TNF = 15, 16, 17, 25, 26, 27, 31, 32, 33, 71, 72, 73
RN, RA, WN, WA, BI, BNI, H, B, BB = 36, 37, 38, 39, 46, 47, 48, 49, 42
# How many parts of a statement are operands, in which a blank counts nowhere; 2 of an instruction.
PARTS = {"DSA": 10, "DDA": 4, "DS": 2, "DSS": 2, "DAS": 2, "DNB": 2, "DGM": 1, "DORG": 1, "DEND": 1, "DC": 3, "DSC": 3, "DSB": 3, "DAC": 0}
# What an instruction may bring, and from where to where, counted from P.
COMES = {
    "other": {TD: (0, 0), TDM: (0, 0), CF: (0, 0), MF: (0, 0), TF: (-99, 0), TFM: (-11, 0), TR: (0, 999), RN: (0, 159), RA: (-1, 159)},
    "flag": {SF: (0, 0), MF: (0, 0), TD: (0, 0), TDM: (0, 0), TF: (-99, 0), TFM: (-11, 0), TR: (0, 999), BT: (-100, -1), BTM: (-100, -1)},
    "mark": {TD: (0, 0), TF: (-99, 0), TR: (0, 999)},
}
# What a length that differs does: if the field is shorter, and if it is longer.
SHORTER = "its flag comes to stand inside, and makes the number shorter"
LONGER = {**dict.fromkeys((TF, TFM, BT, BTM), "the move goes on to the left of it"),
          **dict.fromkeys((*SUMS, *IMMEDIATE_SUMS), "the digits to the left are not looked at")}


class Slips:
    """Looks through a placed source."""

    def __init__(self, placed):
        self.placed, self.at, self.code = placed, placed.at, placed.code
        self.image, self.owner = placed.image.get, placed.owner.get
        self.cells = {each.code: each.cells for each in read_operations() if each.cells}
        # Where a flag, a mark or another digit may come to, and where SF sets a flag: the first cell, the last one, and the instruction that does it.
        self.comes = {"flag": [], "mark": [], "other": [], "set": []}

    def look(self):
        """What there is to say of each statement, by its number."""
        self.look_for_changes()
        for each in self.placed.instructions:
            self.look_for_what_comes(each)
        # From here on nothing is declared, set aside or brought.
        self.end = min(self.placed.size, max([0, *self.placed.owner, *self.code, *(last for _, last, _ in self.comes["mark"])]) + 1)
        typed = [each for each in self.placed.instructions if each.is_typed and each.knows_p]
        self.typed_from, self.typed_fields = {each.p for each in typed}, {self.owner(each.p) for each in typed} - {None}
        self.look_for_reached()
        found = {it.number: list(look_at_statement(it)) for it in self.placed.statements}
        for each in self.placed.instructions:
            for look in (self.compare_lengths, self.look_at_immediate, self.look_for_flags, self.look_at_first, self.look_for_mark,
                         self.look_for_places, self.look_for_seek, self.look_for_end):
                found[each.statement.number] += look(each)
        return {number: dict.fromkeys(warnings) for number, warnings in found.items() if warnings}

    def writes(self, each):
        return self.cells.get(each.code) in ("sum", "cell", "field", "record") or each.code in (RN, RA)

    def look_for_changes(self):
        """Finds the operands that another instruction changes: their addresses are not known."""
        changed_p, changed_q = set(), set()
        for each in self.placed.instructions:
            hit = self.code.get(each.p)
            if not hit or not self.writes(each) or each.is_indirect_p:
                continue
            (changed_p if each.p - hit.address <= 6 else changed_q).add(hit)
            if each.code in (TR, RN, RA):
                for changed in (changed_p, changed_q):
                    changed.update(other for other in self.placed.instructions if each.p <= other.address < each.p + 160)
        for each in self.placed.instructions:
            each.changes_p, each.changes_q = each in changed_p, each in changed_q
            each.knows_p = not each.is_indirect_p and not each.changes_p
            each.knows_q = not each.is_flagged_q and not each.changes_q

    def may_get(self, what, first, last, but=None):
        return last >= 0 and any(low <= last and first <= high and by is not but for low, high, by in self.comes[what])

    def look_for_what_comes(self, each):
        everywhere = (0, self.placed.size, each)
        if each.code == SF and each.knows_p:
            self.comes["set"].append((each.p, each.p, each))
        if self.writes(each) and not each.knows_p or each.code == MF and not each.knows_q:
            self.comes["other"].append(everywhere)
        for what, spans in COMES.items():
            if each.code == RN and each.device == 7:
                self.comes[what].append(everywhere)
            elif each.code in spans and self.may_come(what, each):
                first, last = spans[each.code]
                self.comes[what].append((each.p + first, each.p + last, each) if each.knows_p or each.code in (BT, BTM) else everywhere)
                if each.code == MF and each.knows_q:
                    self.comes[what].append((each.q, each.q, each))

    def may_come(self, what, each):
        """Whether the digits that an instruction moves may have a flag, or be marks."""
        if what == "mark" and each.code == TF:
            return each.knows_q and self.brings_mark(each.q)
        if each.code == TD and what != "other":
            digit = self.image(each.q)
            return not each.knows_q or digit is None or (has_flag(digit) if what == "flag" else digit in MARKS)
        return each.code != TDM or what != "flag" or each.is_flagged_q

    def brings_mark(self, units):
        for place in range(units, units - 100, -1):
            digit = self.image(place)
            if digit is None or digit in MARKS or place < units and has_flag(digit):
                return digit is not None and digit in MARKS
        return False

    def meant(self, place):
        """The field whose label has this address, and whose length is therefore meant."""
        field = self.placed.field_of.get(place)
        return field if field and not self.may_get("set", field.first + 1, place) else None

    def stored(self, each):
        """The field that is stored, or is compared."""
        if not each.knows_p or each.code not in (BT, BTM):
            return self.meant(each.p) if each.knows_p else None
        field = self.owner(each.p - 1)
        return field if field and field.is_set_aside and field.last == each.p - 1 == field.first + field.size - 1 else None

    def compare_lengths(self, each):
        to, field = self.stored(each), self.meant(each.q)
        if each.code in (*SUMS, TF, BT) and each.knows_q and to and field and (field.size > to.size or field.size < to.size and each.code == TF):
            yield f"{field.name} has {field.size} digits, and {to.name} has {to.size}: {SHORTER if field.size < to.size else LONGER[each.code]}"

    def look_at_immediate(self, each):
        if each.code == TDM and 9 < each.q < 10000:
            yield f"TDM takes one digit, the last one of {each.q}: TFM takes a number"
        if each.code not in (*IMMEDIATE_SUMS, TFM, BTM) or each.changes_q:
            return
        size, to = next((12 - place for place in range(10, 1, -1) if has_flag(each.digits[place])), None), self.stored(each)
        if size is None:
            yield "the immediate number has no flag, and runs on to the left: the third operand says where it begins, as 7 or 10"
        elif to:
            number = "".join(str(digit_of(digit)) for digit in each.digits[12 - size:])
            least = len(number.lstrip("0"))
            if each.code in IMMEDIATE_SUMS:
                number, size = number.lstrip("0"), least
            if size > to.size or size < to.size and each.code == TFM:
                mend = f"; {12 - to.size} as the third operand makes it {to.size}" if size > to.size >= max(2, least) else ""
                what = SHORTER if size < to.size else LONGER[each.code] + mend
                yield f"the immediate number {number} has {size} digits, and {to.name} has {to.size}: {what}"

    def look_for_flags(self, each):
        if each.code in (*SUMS, *IMMEDIATE_SUMS) and each.knows_p:
            yield from self.look_for_flag(each, each.p)
        if each.code in (*SUMS, TF, BT, TNS, TNF) and each.knows_q:
            yield from self.look_for_flag(each, each.q)

    def look_for_flag(self, each, place):
        """Looks at a field that is asked for as a number: it needs a flag that is declared or set."""
        field = self.owner(place)
        if not field or place in self.code or any(has_flag(self.image(at)) for at in range(field.first, place)):
            return
        if self.may_get("flag", field.first, place - 1, but=each):
            return
        if field.first < place:
            yield f"no flag is declared or set in {field.name} to the left of {place:05d}: the number would run on"
        elif place < field.last:
            yield f"{place:05d} is the first digit of {field.name}: a number that ends there runs on to the left of that field"
        else:
            yield f"no flag is declared or set to the left of {field.name}, which has one digit: a number has two or more"

    def look_at_first(self, each):
        """Looks at a number that is typed from its last digit on, or with the flag of its first one."""
        if each.code != WN or each.device != 1 or not each.knows_p:
            return
        field = self.placed.field_of.get(each.p)
        if field and field.size > 1 and self.owner(each.p) is field and field.first not in self.typed_from:
            yield f"{field.name} is the last digit of {field.size}, and only that is typed: the first one is {field.name}-{field.size - 1}"
        elif re.match(r"[]J-R]", self.image(each.p) or "") and not self.may_get("other", each.p, each.p):
            yield f"the first digit that is typed, at {each.p:05d}, has a flag where it is declared, and is typed as a letter: clear it by CF"

    def look_for_mark(self, each):
        if not each.is_typed or not each.knows_p:
            return
        where = f" follows {each.p:05d}: all that is left of core is typed; declare one by DSC 1,@ after the field"
        for place in range(each.p, self.end, each.code - WN + 1):
            field = self.owner(place)
            if (self.image(place) or " ") in MARKS or self.may_get("mark", place, place):
                return
            if place in self.code:
                where = f" follows {each.p:05d} before statement {self.code[place].statement.number}, an instruction: declare one by DSC 1,@"
                break
            if field and field is not self.owner(each.p) and field in self.typed_fields and not field.is_placed:
                where = f" is between {each.p:05d} and {field.name}, which is typed by itself: declare one by DSC 1,@"
                break
        yield f"no record mark{where}"

    def look_for_places(self, each):
        if each.code not in (RN, RA) or each.device != 5 or not each.knows_p:
            return
        first, count = (each.p, 80) if each.code == RN else (each.p - 1, 160)
        if first + count > self.placed.size:
            yield f"a card takes {count} places, and core ends at {self.placed.size - 1:05d}"
            return
        for place in range(first, first + count):
            field, code = self.owner(place), self.code.get(place)
            if code or self.image(place) and (not field or field is not self.owner(each.p) and not field.is_placed):
                what = f"statement {code.statement.number}" if code else field.name if field else "a digit"
                yield f"a card takes {count} places, and {what} is within them, at {place:05d}"
                return

    def reach(self, starts, ends=lambda each: False):
        """The instructions that the machine can get to from these, but not past one of the ends."""
        reached, left = set(), list(starts)
        while left:
            each = self.at.get(left.pop())
            if not each or each in reached or ends(each):
                continue
            reached.add(each)
            left += [each.p] if each.code in BRANCHES and each.knows_p else []
            left += [each.address + 12] if each.code not in (BB, B) else []
        return reached

    def look_for_reached(self):
        """Finds what the machine can get to: from the start, and from the addresses in constants if a branch goes to an address that is not known."""
        starts = [self.placed.start]
        if any(each.code in BRANCHES and not each.knows_p for each in self.placed.instructions):
            starts += [address for field in self.placed.fields if field.statement.operation == "DSA" for address in self.placed.addresses(field)]
            starts += [each.q for each in self.placed.instructions if each.code in (TFM, BTM)]
        self.reached = self.reach(starts)
        # A part that is called may seek before it comes back.
        has_seek = any(each.is_seek for each in self.placed.instructions)
        self.is_unsought = self.reach(starts[:1], lambda each: each.is_seek or has_seek and (each.code in (BT, BTM) or not each.knows_p))

    def look_for_seek(self, each):
        if each in self.is_unsought and each.code in (RN, WN) and each.device == 7:
            yield "no seek comes before this transfer, and no transfer moves an arm: write SK and the same control field in front of it"

    def look_for_end(self, each):
        # What follows BT and BTM may be meant for the part that is called.
        if each not in self.reached or each.code in (BTM, BT, BB, H, B) or each.changes_p and each.changes_q:
            return
        place, before = each.address + 12, self.at.get(each.address - 12)
        # One test and its opposite, one after the other: one of them branches.
        if place in self.at or before and each.code in (BI, BNI) and each.code + before.code == BI + BNI and each.device == before.device:
            return
        field = self.owner(place)
        if field and not field.is_placed and any(other.address > place and other not in self.reached for other in self.placed.instructions):
            yield f"the machine runs on into {field.name}, at {place:05d}, which is data between the instructions: declare it after the last of them"
        else:
            yield f"the machine runs on after this, at {place:05d}, and there is no instruction: is a halt or a branch missing?"


def look_at_statement(it):
    if it.address is None or it.is_comment or it.operation == "HEAD":
        return
    for part in it.parts[:PARTS.get(it.operation, 2)]:
        if re.search(r"[A-Z0-9$] +[A-Z0-9$]", part):
            yield f"there is a blank inside an operand, which is read as {part.replace(' ', '')}: is a comma missing?"
    text, _, rest = text_and_address(it) if it.operation == "DAC" else ("@", "", "")
    if "@" not in text and not rest.startswith(",") and "@" in rest:
        n = int(it.parts[0])
        yield f"the text ends before its @, which is in the remark now: write {n + rest.index('@') + 1} for {n}"
