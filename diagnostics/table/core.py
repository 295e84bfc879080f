"""The deck core: each position of core behind the deck."""

from .deck import SIZE, Deck

STILL = "000000000000"
# A pass that looks for what the one before it wrote, and writes in its place: what it looks for, how it branches to WRONG, and what it writes. No
# address is an indirect one: the deck writes each address into the instruction that uses it.
PASSES = (
    ("FLAGGED NINES", "R", "ZEROS", "PAT0", """
                BNF  WRONG1,CELL
                TD   DIGIT,CELL
                CF   DIGIT
                C    DIGIT,NINE
                BE   GOOD1
    """),
    ("ZEROS", "0", "MARKS", "PATM", """
                BD   WRONG2,CELL
                BNF  GOOD2,CELL
    """),
    ("MARKS", "|", "", "", """
                BNR  WRONG3,CELL
                BNF  GOOD3,CELL
    """),
)


def core():
    """The deck."""
    deck = Deck("core", "EVERY POSITION OF CORE BEHIND THE DECK", [
        "EACH FIVE POSITIONS HOLD THEIR OWN ADDRESS, THEN FLAGGED NINES, THEN ZEROS, THEN MARKS.",
        "A LINE HAS WHAT CAME AND WHAT SHOULD HAVE COME, WITH THE ADDRESS BEHIND IT.",
    ])
    deck.code(SIZE)
    deck.code("""
        # PASS 1: ADDRESSES. ALL ARE WRITTEN BEFORE THE FIRST IS READ.
                TFM  AP,FREE+4
        PUT:    TF   PUT1+6,AP
        PUT1:   TF   0,AP
                AM   AP,5,10
                C    AP,TOP
                BNH  PUT
                TFM  AP,FREE+4
        GET:    TF   GET1+6,AP
        GET1:   C    0,AP
                BE   SAME
        # ONLY A FIELD THAT DIFFERS IS MADE A CASE, SO ONE CASE STANDS FOR ALL THAT ARE RIGHT.
                TF   FIELD+28,AP
                CF   FIELD+24
                BTM  NEXT,FIELD
    """)
    deck.rows("FIELD", STILL, "]000000000001010")
    deck.code("""
                TF   TAKE+11,AP
        TAKE:   TF   W+4,0
                BTM  CHECK,0
        SAME:   AM   AP,5,10
                C    AP,TOP
                BNH  GET
    """)
    deck.case("THE LAST OF PASS 1", STILL, ["NOP"])
    deck.code("""
                BTM  CHECK,0
        # FLAGGED NINES INTO EVERY POSITION, ONE AFTER THE OTHER.
                TFM  AP,FREE
        FILL:   TF   FILL1+6,AP
        FILL1:  TD   0,PAT9
                AM   AP,1,10
                C    AP,TOP
                BNH  FILL
    """)
    for number, (looked_for, digit, written, pattern, looks) in enumerate(PASSES, 1):
        deck.remark(f"PASS {number + 1}: {looked_for} ARE LOOKED FOR{f', AND {written} WRITTEN' if written else ''}, ONE POSITION AFTER THE OTHER.")
        deck.code(f"""
                    TFM  AP,FREE
            READ{number}: TF   MOVE{number}+11,AP
            MOVE{number}: TD   CELL,0
        """)
        deck.code(looks)
        deck.code(f"""
            WRONG{number}:TF   ROWS{number}+33,AP                     THE ADDRESS STANDS IN THE LINE, TOO
                    TF   ROWS{number}+9,AP
                    CF   ROWS{number}+29
                    CF   ROWS{number}+5
                    BTM  NEXT,ROWS{number}
        """)
        deck.rows(f"ROWS{number}", STILL, f"{digit}000000000001010")
        deck.code("""
                    TD   W,CELL
                    BTM  CHECK,0
        """)
        if pattern:
            deck.code(f"""
                GOOD{number}: TF   STOR{number}+6,AP
                STOR{number}: TD   0,{pattern}
            """)
        else:
            deck.add(f"GOOD{number}", "NOP")
        deck.code(f"""
                    AM   AP,1,10
                    C    AP,TOP
                    BNH  READ{number}
        """)
        deck.case(f"THE LAST OF PASS {number + 1}", STILL, ["NOP"])
        deck.add("", "BTM", "CHECK,0")
    deck.tail("""
        AP:     DC   5,0
        TOP:    DC   5,19999
        PAT9:   DSC  1,-9
        PAT0:   DSC  1,0
        PATM:   DSC  1,@
        CELL:   DSC  1,0
                DC   1,0
        DIGIT:  DC   2,0
        NINE:   DC   2,9
                DS   10
        FREE:   DSS  1
    """)
    return deck
