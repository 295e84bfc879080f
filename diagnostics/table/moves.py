"""The deck moves: digits, fields, records and flags."""

from .deck import Deck


def moves():
    """The deck."""
    deck = Deck("moves", "TD TDM TF TFM TR SF CF", ["FLAGS, RECORD MARKS, OVERLAPS; FIELDS OF 2 TO 50 DIGITS AND RECORDS OF 1 TO 50."])
    for digit in range(10):
        deck.case(f"TD OF A {digit} ONTO A FLAGGED DIGIT", f"3{digit}K456789012", ["TD W+2,W+1"])
    for digit, character in enumerate("]JKLMNOPQR"):
        deck.case(f"TD OF A FLAGGED {digit}", f"3{character}2456789012", ["TD W+2,W+1"])
    deck.case("TD OF A RECORD MARK", "3|2456789012", ["TD W+2,W+1"])
    deck.case("TD OF A FLAGGED RECORD MARK", "3!2456789012", ["TD W+2,W+1"])
    deck.case("TD ONTO A RECORD MARK", "35|456789012", ["TD W+2,W+1"])
    deck.case("TD ONTO ITSELF", "3N6456789012", ["TD W+1,W+1"])
    for digit in range(10):
        deck.case(f"TDM OF A {digit}", "34L456789012", [f"TDM W+2,{digit}"])
    for digit in range(1, 10, 2):
        deck.case(f"TDM OF A FLAGGED {digit}", "342456789012", [f"TDM W+2,-{digit}"])
    deck.case("TDM OF A FLAGGED 0", "342456789012", ["TDM W+2,0,11"])
    deck.case("TDM TAKES ONE DIGIT ALONE", "342456789012", ["TDM W+2,98765"])
    for length in range(2, 6):
        field = "J2345"[:length]
        deck.case(f"TF OF {length} DIGITS", f"{field:9>6}888887", ["TF W+10,W+5"])
    deck.case("TF OF A NEGATIVE FIELD", "99J23M888887", ["TF W+10,W+5"])
    deck.case("TF: A FLAG AT THE UNITS DOES NOT END IT", "9J234NMMMMM7", ["TF W+10,W+5"])
    deck.case("TF: TWO FLAGGED DIGITS", "9999JN888887", ["TF W+10,W+5"])
    deck.case("TF OVER FLAGS OF THE OLD FIELD", "9J2345RRRRR7", ["TF W+10,W+5"])
    deck.case("TF CARRIES RECORD MARKS", "9J|3|5888887", ["TF W+10,W+5"])
    deck.case("TF ENDS AT A FLAGGED RECORD MARK", "99!345888887", ["TF W+10,W+5"])
    deck.case("TF DOWN BY ONE, OVERLAPPING", "345J2345678R", ["TF W+10,W+11"])
    deck.case("TF UP BY ONE, OVERLAPPING", "34J234567R9R", ["TF W+9,W+8"])
    deck.case("TF UP BY THREE, OVERLAPPING", "3J23456789RR", ["TF W+8,W+5"])
    deck.case("TF DOWN BY ONE OVER A NEGATIVE FIELD", "999J2345O999", ["TF W+7,W+8"])
    deck.case("TF ONTO ITSELF", "3J2345678901", ["TF W+6,W+6"])
    for number in ("12345", "-12345", "00000", "99999"):
        deck.case(f"TFM {number}", "3456O8901234", [f"TFM W+8,{number}"])
    for number, place in ((7, 10), (-7, 10), (345, 9), (5678, 8), (-345, 9)):
        deck.case(f"TFM {number} FLAG AT {place}", "3456O8901234", [f"TFM W+8,{number},{place}"])
    deck.case("TFM FLAG AT 4: THE DIGITS OF P ARE OF THE FIELD", "345678901234", ["TFM W+8,12345,4"])
    deck.case("TFM OF TWO FLAGGED DIGITS", "345678901234", ["TFM W+8,12,1011"])
    for length in range(5):
        record = "12J4"[:length] + "|"
        deck.case(f"TR OF {length} DIGITS AND THE MARK", f"{record:9<12}", ["TR W+6,W"])
    deck.case("TR MOVES FLAGS", "JK3M|0123456", ["TR W+6,W"])
    deck.case("TR ENDS AT A FLAGGED MARK", "12!45|123456", ["TR W+6,W"])
    deck.case("TR OVER A MARK", "1234|678|012", ["TR W+6,W"])
    deck.case("TR DOWN BY ONE, OVERLAPPING", "3456789J|123", ["TR W+1,W+2"])
    deck.case("TR DOWN BY THREE", "3456789J|123", ["TR W+1,W+4"])
    deck.case("TR UP, BEHIND THE MARK", "34|678901234", ["TR W+4,W+1"])
    deck.case("TR FROM THE MARK ITSELF", "34|678901234", ["TR W+7,W+2"])
    for character, words in (
        ("5", "5"), ("N", "A FLAGGED 5"), ("|", "A RECORD MARK"), ("!", "A FLAGGED RECORD MARK"), ("0", "0"), ("]", "A FLAGGED 0"),
    ):
        for operation in ("SF", "CF"):
            deck.case(f"{operation} OF {words}", f"34{character}678901234", [f"{operation} W+2"])
    deck.case("FLAGS ON THE OTHER DIGITS OF AN INSTRUCTION MEAN NOTHING", "3K6456789012", ["TD W+2,W+1,01234578910"])
    deck.case(
        "MOVES LEAVE THE INDICATORS: 12 ON", "3J234567|012",
        ["CM ONE,1,10", "TF W+7,W+4", "TD W+1,W+2", "TDM W,5", "SF W+3", "CF W+3", "TR W+5,W+8"])
    deck.remark(
        f"CASES {deck.cases + 1:04} TO {deck.cases + 49:04}: FIELDS OF 2 TO 50 DIGITS BY TF, THE LENGTH IS THE CASE LESS {deck.cases - 1}.")
    deck.remark("W GETS THE UNITS, THE FLAGGED DIGIT, THE ONE BELOW (STILL A 5), AND THE FLAGGED DIGIT AND THE UNITS OF THE SOURCE.")
    deck.code("""
        LLOOP:  TFM  LP1+6,LT-1                    60 FIVES BELOW THE TARGET
        LP1:    TDM  LT,5,2
                SM   LP1+6,1,10
                CM   LP1+6,LT-61
                BNE  LP1
        LSF:    SF   LS-1,,2
                BTM  NEXT,LD
    """)
    deck.rows("LD", "012345678901", "9J5J956789011010")
    deck.code("""
                TF   LT,LS
                TD   W,LT
        LA1:    TD   W+1,LT-1,7
        LA2:    TD   W+2,LT-2,7
        LA3:    TD   W+3,LS-1,7
                TD   W+4,LS
                BTM  CHECK,0
                TF   LCF+6,LSF+6
        LCF:    CF   LS
                SM   LSF+6,1,10
    """)
    for place in (1, 2, 3):
        deck.add("", "SM", f"LA{place}+11,1,10")
    deck.code("""
                CM   LSF+6,LS-50
                BNE  LLOOP
    """)
    deck.counted(49)
    deck.remark(
        f"CASES {deck.cases + 1:04} TO {deck.cases + 50:04}: RECORDS OF 0 TO 49 DIGITS AND THE MARK BY TR, "
        f"THE LENGTH IS THE CASE LESS {deck.cases + 1}.")
    deck.code("""
        RLOOP:  TFM  RP1+6,RT
        RP1:    TDM  RT,5,2
                AM   RP1+6,1,10
                CM   RP1+6,RT+60
                BNE  RP1
        RPM:    TD   RS,RMARK,2
                BTM  NEXT,RD
    """)
    deck.rows("RD", "012345678901", "|5|1456789011010")
    deck.code("""
                TR   RT,RS
        RA1:    TD   W,RT,7
        RA2:    TD   W+1,RT+1,7
        RA3:    TD   W+2,RS,7
        RA4:    TD   W+3,RT-1,7
                BTM  CHECK,0
                TF   RPC+6,RPM+6
        RPC:    TDM  RS,1
                AM   RPM+6,1,10
    """)
    for place in (1, 2, 3, 4):
        deck.add("", "AM", f"RA{place}+11,1,10")
    deck.code("""
                CM   RPM+6,RS+50
                BNE  RLOOP
    """)
    deck.counted(50)
    deck.tail("""
        RMARK:  DSC  1,@
                DSC  21,111111111111111111111
                DSC  39,111111111111111111111111111111111111111
        LS:     DSC  1,9
                DS   64
        LT:     DS   1
                DS   10
    """)
    deck.keep("RS", "DSC", f"50,{'1' * 50}")
    deck.tail("""
                DSC  10,1111111111
        RT:     DSS  64
    """)
    return deck
