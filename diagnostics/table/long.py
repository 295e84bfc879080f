"""The deck long: fields and records of 100 and of 1,000 digits."""

from .deck import Deck

BEFORE = "999995432109"

# FILL makes a field of pieces, each the ten digits of PAT; its Q is the field's units. LOOK counts in W to W+4 the pieces of a field that are not PAT;
# it leaves the field without a flag at its first digit. PIECES is how many pieces a field has.
PIECES = """
            DS   6
    FILL:   TF   PUT+6,FILL-1
            TF   LEFT,PIECES
    PUT:    TF   0,PAT
            TF   BARE+6,PUT+6
            SM   BARE+6,9,10
    BARE:   CF   0
            SM   PUT+6,10,10
            SM   LEFT,1,10
            BNZ  PUT
            TF   FIRST+6,BARE+6
    FIRST:  SF   0
            BB
            DS   6
    LOOK:   TF   SAME+6,LOOK-1
            TF   LEFT,PIECES
            TFM  W+4,0
    MORE:   TF   BEGUN+6,SAME+6
            SM   BEGUN+6,9,10
            TF   ENDED+6,BEGUN+6
            BV   *+12
    BEGUN:  SF   0
    SAME:   C    0,PAT
            BNE  OTHER
            BNV  ENDED
    OTHER:  AM   W+4,1,10
    ENDED:  CF   0
            SM   SAME+6,10,10
            SM   LEFT,1,10
            BNZ  MORE
            CM   ONE,0,10
            BB
    PIECES: DC   5,0
    LEFT:   DC   5,0
    PAT:    DC   10,0
    COUNTS: DC   10,1234567890
    OTHERS: DC   10,8765432109
    NINES:  DC   10,9999999999
    ZEROS:  DC   10,0
    ONES:   DC   10,1111111111
            DS   1010
    XU:     DS   1
            DS   1010
    YU:     DS   1
            DS   2
    MARK:   DSC  1,@
            DSC  1,7
            DS   1010
"""


def long():
    """The deck."""
    deck = Deck("long", "FIELDS AND RECORDS OF 100 AND OF 1,000 DIGITS", [
        "FIELDS ARE MADE OF PIECES OF TEN DIGITS. W TO W+4 COUNTS THE PIECES THAT ARE NOT AS THEY SHOULD BE,",
        "W+5 TO W+7 ARE THE FIELDS FIRST DIGIT, ITS UNITS, AND THE DIGIT BELOW IT, WHICH IS A 7 BEFORE.",
    ])

    def edges_of(field, length):
        """Notes the first digit of a field, its units and the digit below it, and takes the sign away."""
        return [f"TD W+5,{field}-{length - 1}", f"TD W+6,{field}", f"TD W+7,{field}-{length}", f"CF {field}"]

    for length in (100, 1000):
        def fill(field, pattern):
            return [f"TF PAT,{pattern}", f"BTM FILL,{field}", f"TDM {field}-{length},7"]

        def sound(what, field, pattern, edges):
            """A case that looks through a field."""
            deck.case(what, BEFORE, [*edges_of(field, length), f"TF PAT,{pattern}", f"BTM LOOK,{field}"], f"]0000{edges}21091010")

        deck.add("", "TFM", f"PIECES,{length // 10}")
        deck.case(
            f"TF OF {length} DIGITS LEAVES THE INDICATORS", BEFORE,
            [*fill("YU", "ONES"), *fill("XU", "COUNTS"), "CM ONE,1,10", "TF YU,XU"], f"{BEFORE}0110")
        sound("WHAT WAS MOVED", "YU", "COUNTS", "J07")
        deck.case(f"A OF {length} DIGITS AND {length}", BEFORE, [*fill("XU", "COUNTS"), *fill("YU", "OTHERS"), "A XU,YU"], f"{BEFORE}1010")
        sound("THE SUM, ALL NINES", "XU", "NINES", "R97")
        deck.case(
            f"A OF {length} DIGITS AND {length}, A CARRY FROM EACH", BEFORE,
            [*fill("XU", "NINES"), *fill("YU", "NINES"), "A XU,YU", "AM XU,1,10"], f"{BEFORE}1011")
        sound("THE SUM, ALL NINES AGAIN", "XU", "NINES", "R97")
        deck.case(f"AM OF 1 TO {length} NINES: A CARRY THROUGH ALL OF THEM", BEFORE, [*fill("XU", "NINES"), "AM XU,1,10"], f"{BEFORE}0111")
        sound("THE SUM, ALL ZEROS", "XU", "ZEROS", "]07")
        deck.case(f"S OF {length} DIGITS BELOW ZERO: A SECOND PASS", BEFORE, [*fill("XU", "ZEROS"), *fill("YU", "ONES"), "S XU,YU"], f"{BEFORE}0000")
        sound("THE DIFFERENCE, MINUS ONES", "XU", "ONES", "JJ7")
        deck.case(f"S OF {length} DIGITS FROM THEMSELVES", BEFORE, [*fill("XU", "COUNTS"), "S XU,XU"], f"{BEFORE}0110")
        sound("NOTHING IS LEFT", "XU", "ZEROS", "]07")
        deck.case(f"C OF {length} DIGITS, EQUAL", BEFORE, [*fill("XU", "COUNTS"), *fill("YU", "COUNTS"), "C XU,YU"], f"{BEFORE}0110")
        deck.case(f"C OF {length} DIGITS, HIGHER IN THE FIRST ALONE", BEFORE, [f"TDM XU-{length - 1},-2", "C XU,YU"], f"{BEFORE}1010")
        deck.case(f"C OF {length} DIGITS, LOWER IN THE FIRST ALONE", BEFORE, ["C YU,XU"], f"{BEFORE}0000")
        deck.case(f"C OF {length} DIGITS, HIGHER IN THE UNITS ALONE", BEFORE, [f"TDM XU-{length - 1},-1", "TDM XU,1", "C XU,YU"], f"{BEFORE}1010")
        deck.case(
            f"TR OF {length} DIGITS AND THE MARK", BEFORE,
            [*fill("XU", "COUNTS"), *fill("YU", "ONES"), "TD XU+1,MARK", "TDM YU+1,7", "TDM YU+2,7", f"TR YU-{length - 1},XU-{length - 1}",
             "TD W+8,YU+1", "TD W+9,YU+2", "CM ONE,0,10"], "99999543|7091010")
        sound("WHAT WAS MOVED", "YU", "COUNTS", "J07")
        deck.case(
            f"BT WITH A FIELD OF {length} DIGITS", BEFORE,
            [*fill("XU", "COUNTS"), f"TDM SUB-{length + 1},7", "CM ONE,0,10", "BT SUB,XU",
             f"TD W+9,SUB-{length}", "TD W+10,SUB-1", f"TD W+11,SUB-{length + 1}"],
            "999995432J071010")
    deck.tail(PIECES)
    deck.tail("""
        # BT MOVES ITS FIELD INTO THE 1,010 POSITIONS BELOW SUB.
        SUB:    BB
    """)
    return deck
