"""The deck dump: DN to the typewriter and to the punch."""

from .deck import SIZE, Deck

BEFORE = "098765432109"
KEPT = f"{BEFORE}1010"
DIGITS = "1234567890" * 6 + "0123456789" * 2
# What stands in the last 81 positions: the digits with a mark among them, and a mark.
LAST = f"{DIGITS[:76]}|{DIGITS[77:]}|"


def dump():
    """The deck."""
    deck = Deck("dump", "DN: CORE FROM P TO ITS END, TYPED AND PUNCHED", [
        "A PERSON COMPARES WHAT IS TYPED AND PUNCHED WITH THE SHEETS. THE COUNT AT THE END SAYS ONLY",
        "THAT CORE AND THE INDICATORS WERE LEFT ALONE. THE LAST 81 POSITIONS OF CORE ARE WRITTEN.",
    ])
    deck.typed = [LAST[-19:], "|", "!"]
    deck.punched = ["|", LAST[:80], "|"]
    deck.code(SIZE)
    deck.code("""
                TF   ALONE+6,TOP
                TF   ALONE2+6,TOP
                TF   ALONE3+6,TOP
                TF   LAST1+6,TOP
                TF   DUMP+6,TOP
                SM   DUMP+6,18,10
                TF   DUMP2+6,TOP
                SM   DUMP2+6,80,10
                TF   FILL+6,DUMP2+6
                TF   MARK+6,TOP
                SM   MARK+6,4,10
    """)
    deck.case("DN TYPES TO THE END OF CORE, MARKS TOO", BEFORE, ["FILL: TR 0,TENS", "MARK: TD 0,TENS+80", "DUMP: DNTY 0", "RCTY"], KEPT)
    deck.case("DN OF THE LAST POSITION ALONE", BEFORE, ["ALONE: DNTY 0", "RCTY"], KEPT)
    deck.case("DN PUNCHES THE LAST POSITION ON A CARD", BEFORE, ["ALONE2: DNCD 0"], KEPT)
    deck.case("DN OF 81 DIGITS: A CARD, AND ONE OF ONE DIGIT", BEFORE, ["DUMP2: DNCD 0"], KEPT)
    deck.case("DN OF A FLAGGED MARK", BEFORE, ["LAST1: SF 0", "ALONE3: DNTY 0", "RCTY"], KEPT)
    deck.tail(f"""
        TOP:    DC   5,19999
        TENS:   DSC  40,{DIGITS[:40]}
                DSC  40,{DIGITS[40:]}
                DSC  1,@
    """)
    return deck
