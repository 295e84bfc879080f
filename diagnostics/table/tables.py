"""The deck tables: the two tables, and each sum of two digits."""

from .deck import Deck


def tables():
    """The deck."""
    deck = Deck("tables", "THE TABLES AT 00100 TO 00399, AND ALL SUMS OF TWO DIGITS", [
        "100 PAIRS OF DIGITS, EACH: A WITH THE CELL OF THE ADD TABLE, S, AND C;",
        "100 PRODUCTS OF THE MULTIPLY TABLE, READ AS DIGITS; THE ADD TABLE CHANGED AND RESTORED.",
    ])
    deck.remark("CASES 0001 TO 0300: X AND Y FROM 0 TO 9. CASE 30X+3Y+1 IS A, +2 IS S, +3 IS C.")
    deck.code("""
        YLOOP:  TD   DT+1,XD
                TD   DT+3,YD
                TD   DT+27,YD
        SP1:    TD   DT+24,SUMS,7                  TENS OF X+Y
        SP2:    TD   DT+25,SUMS+1,7                UNITS
                TD   DT+28,DT+25
                TD   DT+44,DT+24                   THE TABLE HAS THE TENS AS A FLAG
                BTM  NEXT,DT
    """)
    deck.rows("DT", "]0]056789012", "]0]0067890120110")
    deck.code("""
        CELL:   TD   W+4,300,7                     THE CELL OF THE ADD TABLE
                A    W+1,W+3
                BTM  CHECK,0
                TDM  DT+36,1                       ONLY 0+0 GIVES 12
                TDM  DT+37,0
    """)
    for rows, operation in (("DS", "S"), ("DC", "C")):
        deck.code(f"""
                    TD   {rows}+1,XD
                    TD   {rows}+3,YD
                    TD   {rows}+27,YD
        """)
        if operation == "S":
            deck.code("""
                DP1:    TD   DS+25,DIFD+9,7                X-Y
                DP2:    TD   DS+41,DIFF+9,7                ITS SIGN
                DP3:    TD   DS+36,DHI+9,7
                DP4:    TD   DS+37,DEQ+9,7
                DP5:    TD   DS+38,DNL+9,7
            """)
        else:
            deck.code("""
                        TD   DC+25,XD
                        TD   DC+36,DS+36
                        TD   DC+37,DS+37
                        TD   DC+38,DS+38
            """)
        deck.add("", "BTM", f"NEXT,{rows}")
        deck.rows(rows, "]0]056789012", "]0]0567890120000")
        deck.add("", operation, "W+1,W+3")
        deck.add("", "BTM", "CHECK,0")
    deck.code("""
                AM   SP1+11,2,10
                AM   SP2+11,2,10
                AM   CELL+11,1,10
    """)
    for place in range(1, 6):
        deck.add("", "SM", f"DP{place}+11,1,10")
    deck.code("""
                AM   YD,1,10
                CM   YD,10,10
                BNE  YLOOP
                SM   SP1+11,18,10
                SM   SP2+11,18,10
    """)
    for place in range(1, 6):
        deck.add("", "AM", f"DP{place}+11,11,10")
    deck.code("""
                TFM  YD,0,10
                AM   XD,1,10
                CM   XD,10,10
                BNE  YLOOP
    """)
    deck.remark("CASES 0301 TO 0400: THE PRODUCTS N TIMES M, UNITS FIRST. CASE 301+10N+M.")
    deck.code("""
        NLOOP:  TD   DM+24,PROD                    UNITS
                TD   DM+25,PROD-1                  TENS
                CF   DM+25
                BTM  NEXT,DM
    """)
    deck.rows("DM", "RQ7654321012", "0076543210121010")
    deck.code("""
        MP1:    TD   W,100,7
        MP2:    TD   W+1,101,7
                BTM  CHECK,0
                A    PROD,ND
                AM   MP1+11,2,10
                AM   MP2+11,2,10
                AM   MD,1,10
                CM   MD,5,10
                BNE  NL5
                AM   MP1+11,90,10                  M OF 5 TO 9 STANDS 100 FURTHER
                AM   MP2+11,90,10
        NL5:    CM   MD,10,10
                BNE  NLOOP
                SM   MP1+11,100,9
                SM   MP2+11,100,9
                TFM  MD,0,10
                TFM  PROD,0,10
                AM   ND,1,10
                CM   ND,10,10
                BNE  NLOOP
    """)
    deck.counted(400)
    deck.remark("THE ADD TABLE CHANGED: A HAS TO USE WHAT STANDS IN CORE. IT IS RESTORED EACH TIME.")
    deck.case("9+1 WITH 00391 AN UNFLAGGED 7", "34]9]1345678", ["TDM 391,7", "A W+3,W+5", "TDM 391,0", "SF 391"], "34]7]13456781010")
    deck.case("9+1 WITH 00391 A FLAGGED 7", "34]9]1345678", ["TDM 391,-7", "A W+3,W+5", "TDM 391,0", "SF 391"], "34J7]13456781010")
    deck.case("0+0 WITH 00300 A 5, BOTH POSITIONS", "34]0]0345678", ["TDM 300,5", "A W+3,W+5", "TDM 300,0"], "34N5]03456781010")
    deck.case("3-5 WITH 00335 A 4 AND NO CARRY", "34]3]5345678", ["TDM 335,4", "S W+3,W+5", "TDM 335,8"], "34]O]53456780000")
    deck.case("RESTORED: 9+1, 0+0, 3-5", "34]9]1]0]3]5", ["A W+3,W+5", "A W+7,W+7", "S W+9,W+11"], "34J0]1]0]K]50000")
    deck.tail("""
        XD:     DC   2,0
        YD:     DC   2,0
        ND:     DC   2,0
        MD:     DC   2,0
        PROD:   DC   2,0
        SUMS:   DSC  38,00010203040506070809101112131415161718
        DIFD:   DSC  19,9876543210123456789
        DIFF:   DSC  19,1111111110000000000
        DHI:    DSC  19,0000000000111111111
        DEQ:    DSC  19,0000000001000000000
        DNL:    DSC  19,0000000001111111111
    """)
    return deck
