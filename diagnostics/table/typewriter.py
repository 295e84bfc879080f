"""The deck typewriter: what it types and, with switch 1 on, what its keys bring."""

from .deck import COPY, Deck

BEFORE = "098765432109"
KEPT = f"{BEFORE}1010"
FIRST_HALF = " .)+$*-/,(=ABCDEFGHIJKLM"
SECOND_HALF = "NOPQRSTUVWXYZ0123456789"
# What has to be typed between the deck's name and its count.
TYPED = [
    "0123456789]JKLMNOPQR", "123", "", FIRST_HALF, f"{SECOND_HALF}@]", "ABC", "HI", "HI", "1  1", "1\t1", "1", "", "1",
    "TYPE 0123456789J1", "", "TYPE A/-0.R", "",
]


def typewriter():
    """The deck."""
    deck = Deck("typewriter", "THE TYPEWRITER; WITH SWITCH 1 ON THE KEYBOARD, TOO", [
        "A PERSON COMPARES WHAT IS TYPED WITH THE SHEET. THE COUNT AT THE END SAYS ONLY",
        "THAT CORE AND THE INDICATORS WERE LEFT ALONE, AND WHAT THE KEYS BROUGHT.",
    ])
    deck.typed = TYPED
    deck.keys = ["0123456789J1", "A/-0.R"]
    deck.script = ["AT 0 SWITCH 1 ON"]
    deck.case("WN: DIGITS AND FLAGGED DIGITS", BEFORE, ["WNTY TN", "RCTY"], KEPT)
    deck.case("WN ENDS AT A FLAGGED MARK", BEFORE, ["WNTY TM", "RCTY"], KEPT)
    deck.case("WN OF NOTHING: P IS A MARK", BEFORE, ["WNTY TE", "RCTY"], KEPT)
    deck.case("WA: ALL CHARACTERS, FIRST HALF", BEFORE, ["WATY TA", "RCTY"], KEPT)
    deck.case("WA: ALL CHARACTERS, SECOND HALF", BEFORE, ["WATY TB", "RCTY"], KEPT)
    deck.case("WA DOES NOT LOOK AT FLAGS", BEFORE, ["SF TF+2", "SF TF+3", "WATY TF", "RCTY"], KEPT)
    deck.case("WA ENDS AT A MARK IN THE NUMERIC PLACE, WHATEVER THE ZONE", BEFORE, ["WATY TZ", "RCTY"], KEPT)
    deck.case("WA ENDS AT A FLAGGED MARK", BEFORE, ["SF TZ+4", "WATY TZ", "RCTY"], KEPT)
    deck.case("SPACE, TWICE", BEFORE, ["WNTY TO", "SPTY", "SPTY", "WNTY TO", "RCTY"], KEPT)
    deck.case("TAB", BEFORE, ["WNTY TO", "TBTY", "WNTY TO", "RCTY"], KEPT)
    deck.case("RETURN, TWICE", BEFORE, ["WNTY TO", "RCTY", "RCTY", "WNTY TO", "RCTY"], KEPT)
    deck.case("07 IS OFF AFTER ALL THIS", BEFORE, ["BI *+24,700", "TDM W+10,1"], "0987654321191010")
    deck.code("""
                BTM  CHECK,0
        # THE KEYBOARD, WITH SWITCH 1 ON. TYPE EACH LINE AS IT STANDS, THEN R-S.
                BNC1 FINISH
                WATY TK1
                RCTY
    """)
    deck.case("RN FROM THE KEYS", BEFORE, ["TR KEYS,KFILL", "RNTY KEYS", "BTM COPY,KEYS"], "0123456789J11010")
    deck.code("""
                BTM  CHECK,0
                RCTY
                WATY TK2
                RCTY
    """)
    deck.case("RA FROM THE KEYS", BEFORE, ["TR KEYS,KFILL", "RATY KEYS+1", "BTM COPY,KEYS"], "4121207003591010")
    deck.code("""
                BTM  CHECK,0
                RCTY
    """)
    deck.tail(COPY)
    deck.tail("""
        TN:     DSC  10,0123456789
    """)
    for digit in range(10):
        deck.keep("", "DSC", f"1,-{digit}")
    deck.tail(f"""
        TE:     DSC  1,@
        TM:     DSC  4,-123@
                DSC  1,7
                DSC  1,@
        TO:     DSC  2,1@
        TA:     DAC  "{FIRST_HALF}"
                DAC  "@"
        TB:     DAC  "{SECOND_HALF}"
                DSC  4,3450
                DAC  "@"
        TF:     DAC  "ABC@"
        TZ:     DAC  "HI"
                DSC  4,4@49
                DAC  "@"
        TK1:    DAC  "TYPE 0123456789J1@"
        TK2:    DAC  "TYPE A/-0.R@"
                DAC  "@"
        KEYS:   DSS  30
        KFILL:  DSC  30,55555555555555555555555555555@
    """)
    return deck
