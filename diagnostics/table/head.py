"""The head that all decks have: it tries what it rests on, sets up each case, compares what came of it, and counts.

It is the same in all decks and lies at the same addresses; the deck's name stands behind it, and the cases begin at 02800.
"""

from .sheet import statements

HEAD = """
    # ---- THE HEAD, WHICH IS THE SAME IN ALL DECKS ----
            DORG 410
    TAB:    DSC  10,0                          TEN PLACES TO COMPARE DIGITS WITHOUT ADDING; ENDS IN 0
    START:  RCTY
            WATY TTITLE
            RCTY
    # WHAT THE HEAD RESTS ON IS TRIED FIRST: 00099+1, 00100-1 AND TWO COMPARISONS.
            TFM  KF,99
            AM   KF,1,10
            BD   *+24,KF-2
            B    NOSUM
            BD   NOSUM,KF-1
            BD   NOSUM,KF
            SM   KF,1,10
            BD   NOSUM,KF-2
            BD   *+24,KF-1
            B    NOSUM
            BD   *+24,KF
            B    NOSUM
            CM   KF,99
            BNE  NOSUM
            CM   KF,98
            BE   NOSUM
            BD   *+24,KF
            B    NOSUM
    # THEN THE CHECK ITSELF, BY FOUR CASES THAT IT MUST CALL WRONG:
    # ANOTHER DIGIT, A FLAG TOO MUCH, A FLAG TOO FEW, A MARK IN PLACE OF A DIGIT.
            TDM  MODE,1
            BTM  NEXT,*+12
            DSC  12,123456789012
            DSC  12,000000000000
            DSC  16,1234567890131010
            DSC  16,0000000000000000
            BTM  NEXT,*+12
            DSC  12,123456789012
            DSC  12,000000000001
            DSC  16,1234567890121010
            DSC  16,0000000000000000
            BTM  NEXT,*+12
            DSC  12,123456789012
            DSC  12,000000000000
            DSC  16,1234567890121010
            DSC  16,1000000000000000
            BTM  NEXT,*+12
            DSC  12,12345678901@
            DSC  12,000000000000
            DSC  16,1234567890121010
            DSC  16,0000000000000000
            BTM  CHECK,0
            TDM  MODE,0
            TF   N,NOUGHT                      CASES ARE COUNTED FROM 1
            B    BEGIN
    # NEXT CHECKS THE CASE BEFORE, WHERE THERE IS ONE, AND THEN SETS UP THE NEXT.
    # ITS Q IS THE ADDRESS OF THE CASES DIGITS; IT GOES ON BEHIND THEM.
    # CHECK CHECKS THE CASE AT ONCE AND COMES BACK.
            DS   6
    NEXT:   TDM  WAY,1
            B    CAP
            DS   6
    CHECK:  TDM  WAY,0
    # INDICATORS 11 12 13 14 AS THE CASE LEFT THEM GO INTO W+12 TO W+15.
    CAP:    TDM  W+12,0
            BNH  *+24
            TDM  W+12,1
            TDM  W+13,0
            BNE  *+24
            TDM  W+13,1
            TDM  W+14,0
            BL   *+24
            TDM  W+14,1
            TDM  W+15,0
            BNV  *+24
            TDM  W+15,1
            BD   CMP,PEND
            B    DONE
    # W HAS WHAT CAME, V WHAT SHOULD HAVE COME: 16 DIGITS ARE COMPARED.
    CMP:    TFM  CL1+11,W
            TFM  CL2+11,V
    CL1:    TD   G,W
    CL2:    TD   X,V
            BNF  CL3,G
            BNF  BAD,X
            B    CL4
    CL3:    BNF  CL4,X
            B    BAD
    CL4:    CF   G
            CF   X
            BNR  CL5,G
            BNR  BAD,X
            B    CLN
    CL5:    BNR  CL6,X
            B    BAD
    CL6:    TD   CL7+6,X
            TD   CL8+11,G
            TD   CL9+6,X
    CL7:    TDM  TAB,1                         A MARK AT TAB+X
    CL8:    TD   S,TAB                         IS FOUND AT TAB+G WHERE G IS X
    CL9:    TDM  TAB,0
            BD   CLN,S
            B    BAD
    CLN:    AM   CL1+11,1,10
            AM   CL2+11,1,10
            CM   CL1+11,W+16
            BNE  CL1
            BD   DEAD,MODE
            AM   PASSED,1,10
            B    DONE
    BAD:    BD   DONE,MODE
            AM   FAILED,1,10
            CM   FAILED,20,8                   AFTER 20 LINES IT ONLY COUNTS
            BH   DONE
            TF   NP,N
            CF   NP-3
            WATY TCASE
            WNTY NP-3
            WATY TGOT
    # THE 16 DIGITS OF W AND OF V ARE TYPED ONE BY ONE; A MARK IS TYPED AS A STAR, A FLAGGED ONE AS A DOLLAR.
            TFM  TY1+11,W
    TY1:    TD   PD,W
            BNR  TY3,PD
            BNF  TY2,PD
            WATY TDOLL
            B    TY4
    TY2:    WATY TSTAR
            B    TY4
    TY3:    WNTY PD
    TY4:    AM   TY1+11,1,10
            CM   TY1+11,V+16
            BE   TYE
            CM   TY1+11,W+16
            BNE  TY1
            WATY TWANT
            TFM  TY1+11,V
            B    TY1
    TYE:    RCTY
    DONE:   TDM  PEND,0
            BD   SETUP,WAY
            BB
    SETUP:  BD   ENDING,LAST
            AM   N,1,10
    # THE 12 DIGITS AND FLAGS BEFORE GO TO W, THE 16 AFTER TO V.
            TF   EX1+11,NEXT-1
            TF   EX2+11,NEXT-1
            AM   EX2+11,12,10
            TFM  EX1+6,W
            TFM  EX5+11,W+12
            TFM  EXR+6,SET2
    EX1:    TD   W,0
    EX2:    TD   M,0
            TF   EX3+6,EX1+6
            BD   EX3,M
            B    EX4
    EX3:    SF   W
    EX4:    AM   EX1+6,1,10
            AM   EX1+11,1,10
            AM   EX2+11,1,10
    EX5:    CM   EX1+6,W+12
            BNE  EX1
    EXR:    B    SET2
    SET2:   TF   EX1+11,EX2+11
            AM   EX2+11,16,10
            TFM  EX1+6,V
            TFM  EX5+11,V+16
            TFM  EXR+6,SET3
            B    EX1
    SET3:   TF   RET+6,EX2+11                  BEHIND THE DIGITS IS WHERE IT GOES ON
            TDM  PEND,1
            CM   ONE,0,10                      11 IS ON, 12 AND 14 ARE OFF
    RET:    B    0
    FINISH: TDM  LAST,1
            B    NEXT
    ENDING: CF   PASSED-3
            CF   FAILED-3
            WATY TTITLE
            WATY TPASS
            WNTY PASSED-3
            WATY TFAIL
            WNTY FAILED-3
            RCTY
    HALT:   H
    DEAD:   WATY TDEAD
            RCTY
            H
    NOSUM:  WATY TNOSUM
            RCTY
            H
    # WHAT CAME, WITH 4 INDICATORS, AND WHAT SHOULD HAVE COME
            DAC  2,98                          SO W IS EVEN
    W:      DSC  16,0
            DSC  1,@
    V:      DSC  16,0
            DSC  1,@
    PD:     DSC  1,0
            DSC  1,@
    G:      DSC  1,0
    X:      DSC  1,0
    S:      DSC  1,0
    M:      DSC  1,0
    WAY:    DSC  1,0
    PEND:   DSC  1,0
    LAST:   DSC  1,0
    MODE:   DSC  1,0
    ONE:    DC   2,1
    KF:     DC   5,0
    PASSED: DC   4,0
            DSC  1,@
    FAILED: DC   4,0
            DSC  1,@
    N:      DC   4,0
    NOUGHT: DC   4,0
    NP:     DC   4,0
            DSC  1,@
    TCASE:  DAC  "CASE @"
    TGOT:   DAC  " GOT @"
    TWANT:  DAC  " WANT @"
    TPASS:  DAC  " PASSED @"
    TFAIL:  DAC  " FAILED @"
    TDEAD:  DAC  "THE CHECK DOES NOT SEE@"
    TSTAR:  DAC  "*@"
    TDOLL:  DAC  "$@"
    TNOSUM: DAC  "THE HEAD CANNOT ADD@"
    TTITLE: DAC  "%s@"
    # ---- THE CASES ----
            DORG 2800
    BEGIN:  NOP
"""


def head(name):
    """The lines of the head of the deck of this name."""
    return statements(HEAD % name)
