"""The deck cards: the reader and the punch."""

from .codes import digits_of_columns, pairs_of_columns
from .deck import COPY, SIZE, Deck

BEFORE = "098765432109"
NUMERIC = "0123456789]J" "KLMNOPQR|!05" "ABCDEFGHI/ST" "UVWXYZ+-  99" "|||!!!000]]]" "987654321098" "@7 7 7 7"
ALPHAMERIC = " .)+$*" "-/,(=@" "ABCDEF" "GHIJKL" "MNOPQR" "STUVWX" "YZ0123" "456789" "]| |A " "ZZZZZZ" "  0  0" "IBM   " "1620  " " X"
LAST = "5" * 24 + "N" * 12 + "12|45!7890]R" + "0" * 12 + "1" * 12 + "2" * 8
# A numerical blank is punched as a blank; all other digits of the first card have the characters that they were read from, or those of their digits.
PUNCHED = digits_of_columns(NUMERIC).replace("@", " ")


def cards():
    """The deck."""
    deck = Deck("cards", "THE CARD READER AND THE PUNCH", [
        "THREE DATA CARDS STAND BEHIND THE DECK. THEY ARE READ, COMPARED AND PUNCHED.",
        "THE PUNCHED CARDS, PUT BEHIND THE DECK IN A SECOND RUN, MUST PASS AS WELL.",
        "THE I/O SWITCH AT PROGRAM.",
    ])
    deck.data = [NUMERIC, ALPHAMERIC, LAST]
    deck.punched = [PUNCHED, ALPHAMERIC, LAST]
    deck.code(SIZE)
    deck.code("""
                TF   LAST80,TOP
                SM   LAST80,79,10
                TF   READ+6,LAST80
                TF   DUMP+6,LAST80
                TF   AT24+11,LAST80
                AM   AT24+11,24,10
                TF   AT36+11,LAST80
                AM   AT36+11,36,10
                TF   AT68+11,LAST80
                AM   AT68+11,68,10
    """)
    deck.case("09 IS OFF WHILE CARDS FOLLOW THE DECK", BEFORE, ["BLC *+24", "TDM W+10,1"], "0987654321191010")
    for first in range(0, 72, 12):
        columns = NUMERIC[first:first + 12]
        read = [] if first else ["RNCD CARD"]
        deck.case(
            f"READ NUMERICALLY, COLUMNS {first + 1} TO {first + 12}: {columns}", BEFORE, [*read, f"BTM COPY,CARD+{first}"],
            f"{digits_of_columns(columns)}1010")
    deck.case("NUMERICAL BLANK: ITS NEIGHBOURS, COLUMNS 74 AND 80", BEFORE, ["TD W,CARD+73", "TD W+1,CARD+79"], "7787654321091010")
    deck.case("THE CELLS BEFORE AND BEHIND THE 80 STAY", BEFORE, ["TD W,CARD-1", "TD W+1,CARD+80"], "R387654321091010")
    deck.case(
        "06 AND 07 ARE OFF, 09 IS OFF", BEFORE, ["BI *+24,600", "TDM W+9,0", "BI *+24,700", "TDM W+10,1", "BLC *+24", "TDM W+11,2"],
        "0987654320121010")
    for first in range(0, 78, 6):
        columns = ALPHAMERIC[first:first + 6]
        read = [] if first else ["RACD ALPH"]
        deck.case(
            f"READ ALPHAMERICALLY, COLUMNS {first + 1} TO {first + 6}: {columns}", BEFORE, [*read, f"BTM COPY,ALPH{2 * first - 1:+}"],
            f"{pairs_of_columns(columns)}1010")
    deck.case(
        "THE LAST PAIR, AND THE CELLS BEFORE AND BEHIND THE 160", BEFORE, ["TD W,ALPH-2", "TD W+1,ALPH+157", "TD W+2,ALPH+158", "TD W+3,ALPH+159"],
        "5676654321091010")
    deck.case("09 IS OFF BEFORE THE LAST CARD", BEFORE, ["BLC *+24", "TDM W+10,1"], "0987654321191010")
    deck.case("THE LAST CARD, TO THE END OF CORE", BEFORE, ["READ: RNCD 0", "AT24: BTM COPY,0"], f"{LAST[24:36]}1010")
    deck.case("ITS MARKS DO NOT END IT", BEFORE, ["AT36: BTM COPY,0"], f"{LAST[36:48]}1010")
    deck.case("ITS LAST COLUMNS", BEFORE, ["AT68: BTM COPY,0"], f"{LAST[68:]}1010")
    deck.case("09 IS ON NOW, AND OFF AFTER ITS TEST", BEFORE, ["BLC *+24", "TDM W+9,7", "BLC *+24", "TDM W+10,2"], "0987654321291010")
    deck.case(
        "THE THREE CARDS ARE PUNCHED: WNCD, WACD, DNCD; CORE STAYS", BEFORE, ["WNCD CARD", "WACD ALPH", "DUMP: DNCD 0", "BTM COPY,CARD"],
        f"{digits_of_columns(NUMERIC[:12])}1010")
    deck.case("07 IS OFF", BEFORE, ["BI *+24,700", "TDM W+10,1"], "0987654321191010")
    deck.tail(COPY)
    deck.tail("""
        TOP:    DC   5,19999
        LAST80: DC   5,0
                DSC  1,-9
        CARD:   DSS  80
                DSC  1,3
                DAC  1,5
        ALPH:   DAS  80
                DSC  1,6
    """)
    return deck
