"""The deck edges: each operation at the first and at the last positions of core."""

from .deck import COPY, SIZE, Deck

BEFORE = "098765432109"
CARD = "0123456789246813579012345678909876543210" + "5" * 20 + "1234567||00123456789"
TEXT = "ABCDEFGHIJKLMNOPQRSTUVWXYZ0123" + " " * 40 + "4567890123"
# The addresses that cases go through: T0 is the last position, T4 four before it, and so on.
BACK = (0, 1, 4, 6, 11, 79, 158)


def edges():
    """The deck."""
    deck = Deck("edges", "EACH OPERATION AT THE FIRST AND LAST POSITIONS OF CORE", [
        "POSITIONS 00000 TO 00079, AND THE LAST 160, ARE WRITTEN. THE LAST ONES ARE REACHED THROUGH INDIRECT ADDRESSES.",
        "FOUR CARDS STAND BEHIND THE DECK; ALL OF THEM ARE PUNCHED AGAIN.",
    ])
    deck.data = [CARD, TEXT, CARD, TEXT]
    deck.punched = [CARD, TEXT, CARD, TEXT]
    deck.typed = ["J2345J", "ABC", "J2345J", "ABC"]
    deck.chains = {f"T{back}": f"TOP-{back}" for back in BACK}
    deck.code(SIZE)
    for back in BACK:
        deck.add("", "TF", f"T{back},TOP")
        if back:
            deck.add("", "SM", f"T{back},{back},{10 if back < 100 else 9}")
    for words, last, units, first in (("FIRST", "0", "4", "0"), ("LAST", "-T0", "-T0", "-T4")):
        deck.case(f"TD AT THE {words} POSITION", "34N678901234", [f"TD {last},W+2", f"TD W+8,{last}"])
        deck.case(f"TDM AT THE {words} POSITION", "345678901234", [f"TDM {last},-7", f"TD W+8,{last}"])
        deck.case(f"SF AT THE {words} POSITION", "345678901234", [f"TD {last},W+2", f"SF {last}", f"TD W+8,{last}"])
        deck.case(f"CF AT THE {words} POSITION", "34N678901234", [f"TD {last},W+2", f"CF {last}", f"TD W+8,{last}"])
        deck.case(f"TF AT THE {words} POSITIONS", "3J2345678901", [f"TF {units},W+5", f"TF W+11,{units}"])
        deck.case(f"TFM AT THE {words} POSITIONS", "3J2345678901", [f"TFM {units},-98765", f"TF W+11,{units}"])
        deck.case(f"TR AT THE {words} POSITIONS", "12J4|6789012", [f"TR {first},W", f"TR W+6,{first}"])
        deck.case(f"A TO THE {words} POSITIONS", "3J2345]98765", [f"TF {units},W+5", f"A {units},W+10", f"TF W+5,{units}"])
        deck.case(f"A OF THE {words} POSITIONS", "3J2345]98765", [f"TF {units},W+10", f"A W+5,{units}"])
        deck.case(f"S FROM THE {words} POSITIONS, BELOW ZERO", "3J2345]98765", [f"TF {units},W+5", f"SM {units},99999", f"TF W+5,{units}"])
        deck.case(f"S OF THE {words} POSITIONS", "3J2345]98765", [f"TF {units},W+10", f"S W+5,{units}"])
        deck.case(f"C OF THE {words} POSITIONS", "3J2345J23467", [f"TF {units},W+5", f"C {units},W+10"])
        deck.case(f"C WITH THE {words} POSITIONS", "3J2345J23467", [f"TF {units},W+5", f"C W+10,{units}"])
        deck.case(f"BD ON THE {words} POSITION", "305678901200", [f"TD {last},W+1", f"BD *+24,{last}", "TDM W+10,1"])
        deck.case(f"BNF ON THE {words} POSITION", "3N5678901200", [f"TD {last},W+1", f"BNF *+24,{last}", "TDM W+10,1"])
        deck.case(f"BNR ON THE {words} POSITION", "3|5678901200", [f"TD {last},W+1", f"BNR *+24,{last}", "TDM W+10,1"])
    deck.case("AN INSTRUCTION IN THE FIRST POSITIONS", BEFORE, ["TF 11,CODE1+11", "B 0", "BACK1: TDM W+10,5"], "0987654321591010")
    deck.case("AN INSTRUCTION IN THE LAST POSITIONS", BEFORE, ["TF -T0,CODE2+11", "B -T11", "BACK2: TDM W+10,5"], "0987654321591010")
    deck.case("BT TO 00002, BB FROM THERE", "3JK678901234", ["TF 13,CODE3+11", "BT 2,W+2", "TD W+8,0", "TD W+9,1"], "3JK67890JK341010")
    deck.case("BTM TO THE LAST POSITIONS, BB FROM THERE", BEFORE, ["TF -T0,CODE3+11", "BTM -T11,0", "TDM W+10,5"], "0987654321591010")
    deck.case("A CHAIN WHOSE FIELD STANDS IN THE FIRST POSITIONS", "3N5678901234", ["TFM 4,W+1", "TD W+2,-4"], "3NN6789012341010")
    deck.case("A CHAIN WHOSE FIELD STANDS IN THE LAST POSITIONS", "3N5678901234", ["TFM -T0,W+1", "SF T0", "TD W+2,-T0"], "3NN6789012341010")
    deck.code("""
            BTM  CHECK,0
            TF   T0,TOP
    """)
    deck.case("RN INTO THE FIRST 80 POSITIONS", BEFORE, ["RNCD 0", "BTM COPY,0"], f"{CARD[:12]}1010")
    deck.case("ITS LAST COLUMNS", BEFORE, ["BTM COPY,68"], f"{CARD[68:]}1010")
    deck.case("WN OF A CARD FROM THE FIRST 80", BEFORE, ["WNCD 0", "BTM COPY,0"], f"{CARD[:12]}1010")
    deck.case(
        "RA INTO THE FIRST 160 POSITIONS, AND WA FROM THERE", BEFORE,
        ["SF 100", "TF SAVE,159", "RACD 1", "WACD 1", "BTM COPY,0", "TF 159,SAVE", "CF 100"],
        "4142434445461010")
    deck.case("RN INTO THE LAST 80 POSITIONS", BEFORE, ["RNCD -T79", "TF *+23,T11", "BTM COPY,0"], f"{CARD[68:]}1010")
    deck.case("WN OF A CARD FROM THE LAST 80", BEFORE, ["WNCD -T79"], f"{BEFORE}1010")
    deck.case(
        "RA INTO THE LAST 160 POSITIONS, AND WA FROM THERE", BEFORE, ["RACD -T158", "WACD -T158", "TF *+23,T11", "BTM COPY,0"],
        "7879707172731010")
    deck.case("WN OF THE FIRST POSITIONS", BEFORE, ["TR 0,NUMBER", "WNTY 0", "RCTY"], f"{BEFORE}1010")
    deck.case("WA OF THE FIRST POSITIONS", BEFORE, ["TR 0,LETTER-1", "WATY 1", "RCTY"], f"{BEFORE}1010")
    deck.case("WN UP TO THE LAST POSITION", BEFORE, ["TD -T0,NUMBER+6", "TF -T1,NUMBER+5", "WNTY -T6", "RCTY"], f"{BEFORE}1010")
    deck.case("WA UP TO THE LAST POSITION", BEFORE, ["TF -T0,LETTER+6", "WATY -T6", "RCTY"], f"{BEFORE}1010")
    deck.tail(COPY)
    deck.tail("""
        CODE1:  B    BACK1,,0
        CODE2:  B    BACK2,,0
        CODE3:  BB   ,,0
        TOP:    DC   5,19999
        NUMBER: DSC  1,-1
                DSC  4,2345
                DSC  1,-1
                DSC  1,@
        LETTER: DAC  "ABC@"
        SAVE:   DS   60
    """)
    for back in BACK:
        deck.keep(f"T{back}", "DS", "5")
    return deck
