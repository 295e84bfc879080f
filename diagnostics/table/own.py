"""The deck own: rules of this project's own, where the manuals leave a matter open."""

from .deck import COPY, Deck

BEFORE = "098765432109"


def own():
    """The deck."""
    deck = Deck("own", "RULES OF THIS PROJECT'S OWN", [
        "A MACHINE THAT DIFFERS HERE IS NOT WRONG BY THAT. THE LAST FOUR CASES MAY STOP IT.",
        "THE I/O SWITCH AT PROGRAM. FOUR CARDS STAND BEHIND THE DECK; THE SECOND COLUMN OF TWO OF THEM HAS HOLES THAT ARE NO CHARACTER.",
    ])
    deck.data = ["ABC123||", "1#2", "1#2", "@"]
    deck.typed = ["A ", "A B", " \t"]

    def tried(what, lines, after, before=BEFORE):
        deck.case(what, before, lines, after, own=True)

    tried(
        "07: A PAIR THAT IS NO CHARACTER TYPES A BLANK; 19 FOLLOWS; A TEST TURNS IT OFF",
        ["WATY T05", "RCTY", "BI *+24,1900", "TDM W+8,7", "BI *+24,700", "TDM W+9,7", "BI *+24,700", "TDM W+10,1", "BI *+24,1900", "TDM W+11,1"],
        "0987654321111010")
    tried("WA: A MARK IN THE ZONE PLACE ENDS NOTHING; IT IS A BLANK AND 07", ["WATY T06", "RCTY", "BI *+24,700", "TDM W+10,5"], "0987654321091010")
    tried(
        "RA STORES DIGITS WITHOUT FLAGS OVER FLAGGED CELLS",
        ["TDM ALPH-1,0,11", "TDM ALPH,0,11", "TDM ALPH+1,0,11", "RACD ALPH", "BTM COPY,ALPH-1"], "4142437172731010")
    tried("A RECORD MARK SURVIVES RA", ["BTM COPY,ALPH+11"], "0|0|000000001010")
    tried(
        "THE DIGIT OF P CHOOSES THE ROW OF THE ADD TABLE: 1+2 WITH 00312 A 9", ["TDM 312,9", "A W+2,W+4", "A W+6,W+8", "TDM 312,3"],
        "0]9]2]3]10981010", "0]1]2]2]1098")
    tried(
        "RN OF A BAD CHARACTER: 0, AND 06; 19 FOLLOWS; A TEST TURNS IT OFF",
        ["RNCD NUMB", "TD W,NUMB", "TD W+1,NUMB+1", "TD W+2,NUMB+2",
         "BI *+24,1900", "TDM W+8,7", "BI *+24,600", "TDM W+9,7", "BI *+24,600", "TDM W+10,7"],
        "1027654321791010")
    tried("RA OF A BAD CHARACTER: 00, AND 06", ["RACD ALPH", "BTM COPY,ALPH-1", "BI *+24,600", "TDM W+11,7"], "7100720000001010")
    tried(
        "CODES 05 08 10 15 18 READ AS OFF",
        ["BI *+24,500", "TDM W,1", "BI *+24,800", "TDM W+1,2", "BI *+24,1000", "TDM W+2,3", "BI *+24,1500", "TDM W+3,4", "BI *+24,1800", "TDM W+4,5"],
        "1234554321091010")
    tried(
        "A CODE WITH A DIGIT OVER 9 READS AS OFF: 0 AND A NUMERICAL BLANK, WITH 12 ON",
        ["RNCD NUMB", "CM ONE,1,10", "TD *+21,NUMB", "BI *+24,0", "TDM W+10,1"], "0987654321190110")
    tried("BB TWICE: IR-2 IS KEPT", ["BTM SUBX,0", "AM W+8,1,10", "CM W+8,2,10", "BE *+24", "BB", "CM ONE,0,10"], "0987654]21091010", "0987654]0109")
    tried("SPACE, TAB AND RETURN DO NOT LOOK AT P", ["SPTY 99999", "TBTY 99999", "RCTY 99999"], "0987654321091010")
    deck.tail(COPY)
    deck.tail("""
        T06:    DAC  "A"
                DSC  4,@142
                DAC  "@"
        T05:    DAC  "A"
                DSC  2,05
                DAC  "@"
                DS   6
        SUBX:   BB
        ALPH:   DAS  80
        NUMB:   DSS  80
    """)
    return deck
