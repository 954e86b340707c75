; The screen. SHADOW has the characters that the terminal shows. Each row is first
; made in ROW, and then the characters that differ are printed: so a key that
; changes little prints little. While more keys wait, nothing is printed.

        PUBLIC  CLEAR,REFRESH,PAGEUP,PAGEDN,NOTE
        EXTRN   WAITING                                 ; in keys.asm
        EXTRN   FETCH,LINESTART,COLUMN,ADVANCE,UP,DOWN  ; in text.asm
        EXTRN   GAP,LINENO,GOAL,VERTICAL,DIRTY,FREE,FIRST

SHADOW  EQU     FREE

; The codes of the terminal. make.sh chooses by --define whose they are: VT52=1 is
; for a VT52 or an H19, VT52=0 for an ADM-3A, a Kaypro or an Osborne 1. CLEARALL
; and CLEARLINE are the ends of subroutines.
        IF      VT52
MOVE    EQU     'Y'
CLEARALL MACRO
        LD      A,'H'           ; to the first place, and clear all after it
        CALL    CODE
        LD      A,'J'
        JP      CODE
        ENDM
CLEARLINE MACRO
        LD      A,'K'
        JP      CODE
        ENDM
        ELSE
MOVE    EQU     '='
CLEARALL MACRO
        LD      A,1AH
        JP      PUT
        ENDM
CLEARLINE MACRO
        LD      A,18H
        JP      PUT
        ENDM
        ENDIF

; Clears the screen, and begins at the start of the text.
CLEAR:  LD      HL,SHADOW
        LD      DE,SHADOW+1
        LD      BC,(ROWS+1)*WIDE-1
        LD      (HL),' '
        LDIR
        LD      HL,0
        LD      (AT),HL
        CALL    FIRST
        LD      (TOP),HL
        CLEARALL

; Shows what has changed, unless a key waits, and moves the terminal's cursor.
REFRESH:
        CALL    FIT
        CALL    WAITING
        JP      NZ,LATER
        CALL    STATUS
        LD      HL,(GAP)
        CALL    LINESTART
        LD      A,(ROWNO)
        LD      C,A
        LD      B,1
        LD      A,(DIRTY)
        OR      A
        JP      Z,PLACE
        BIT     ALLROWS,A
        JP      Z,REFRESH1
        LD      HL,(TOP)
        LD      BC,ROWS*256     ; ROWS rows from row 0 on

; Shows B rows from row C on. HL is the line of row C.
REFRESH1:
        PUSH    BC
        PUSH    HL
        CALL    WAITING
        POP     HL
        POP     BC
        JP      NZ,LATER
        LD      A,(ROWNO)
        CP      C
        LD      DE,0
        JP      NZ,REFRESH2
        LD      DE,(SHIFT)      ; a long line moves only while the cursor is in it
REFRESH2:
        LD      (FROM),DE
        PUSH    BC
        CALL    RENDER
        POP     BC
        INC     C               ; the status is above
        PUSH    BC
        PUSH    HL
        LD      A,C
        CALL    SHOWROW
        POP     HL
        POP     BC
        DJNZ    REFRESH1
        XOR     A
        LD      (DIRTY),A
PLACE:  LD      HL,(COL)
        LD      DE,(SHIFT)
        OR      A
        SBC     HL,DE
        LD      E,L
        LD      A,(ROWNO)
        INC     A
        LD      D,A
        JP      GOTO

; Leaves what has changed to the next REFRESH, with the cursor perhaps elsewhere.
LATER:  LD      HL,DIRTY
        LD      A,(HL)
        OR      A
        RET     Z
        SET     ALLROWS,(HL)
        RET

; Finds the cursor's row and column. If it is outside of the screen, its line
; becomes the one in the middle, and a long line begins further to the right.
FIT:    CALL    COLUMN
        LD      (COL),HL
        LD      A,(VERTICAL)
        OR      A
        JP      NZ,FIT1
        LD      (GOAL),HL
FIT1:   XOR     A
        LD      (VERTICAL),A
        CALL    ROWOF
        LD      DE,ROWS
        COMPARE
        JP      C,FIT3
        LD      HL,(GAP)
        CALL    LINESTART
        LD      (TOP),HL
        LD      HL,(LINENO)
        LD      (TOPNO),HL
        CALL    REDRAW
        LD      B,ROWS/2
FIT2:   CALL    TOPUP
        DJNZ    FIT2
        CALL    ROWOF
FIT3:   LD      A,L
        LD      (ROWNO),A
        LD      HL,(COL)
        LD      DE,COLS
        COMPARE
        LD      DE,0
        JP      C,FIT4
        LD      DE,(SHIFT)
        SBC     HL,DE
        LD      BC,COLS
        OR      A
        SBC     HL,BC
        JP      C,FIT4          ; it is in the part that the screen shows
        LD      HL,(COL)
        LD      DE,COLS/2
        OR      A
        SBC     HL,DE
        EX      DE,HL
FIT4:   LD      HL,(SHIFT)
        LD      (SHIFT),DE
        LD      A,H
        OR      L
        OR      D
        OR      E
        RET     Z
        JP      REDRAW

; HL becomes the cursor's row; if it is above the screen, a large number.
ROWOF:  LD      HL,(LINENO)
        LD      DE,(TOPNO)
        OR      A
        SBC     HL,DE
        RET

; Moves the first line of the screen up by a line, if there is one. Keeps B.
TOPUP:  LD      HL,(TOPNO)
        DEC     HL
        LD      A,H
        OR      L
        RET     Z
        LD      (TOPNO),HL
        LD      HL,(TOP)
        DEC     HL
        CALL    LINESTART
        LD      (TOP),HL
REDRAW: LD      HL,DIRTY
        SET     ALLROWS,(HL)
        RET

PAGEUP: LD      B,ROWS-1
PAGEUP1:
        CALL    TOPUP
        PUSH    BC
        CALL    UP
        POP     BC
        DJNZ    PAGEUP1
        RET

; The cursor goes first, so the first line of the screen stays before the gap.
PAGEDN: LD      B,ROWS-1
PAGEDN1:
        PUSH    BC
        CALL    DOWN
        POP     BC
        RET     C
        LD      HL,(TOPNO)
        INC     HL
        LD      (TOPNO),HL
        LD      HL,(TOP)
PAGEDN2:
        LD      A,(HL)
        INC     HL
        CP      LF
        JP      NZ,PAGEDN2
        LD      (TOP),HL
        CALL    REDRAW
        DJNZ    PAGEDN1
        RET

; Shows the name, the line, the column, and a text.
STATUS: CALL    BLANK
        LD      DE,ROW
        LD      HL,FCB+1
        LD      B,8
        CALL    WORD
        LD      A,'.'
        LD      (DE),A
        INC     DE
        LD      B,3
        CALL    WORD
        LD      HL,INLINE
        CALL    COPY
        LD      HL,(LINENO)
        CALL    DIGITS
        LD      HL,INCOLUMN
        CALL    COPY
        LD      HL,(COL)
        INC     HL
        CALL    DIGITS
        INC     DE
        INC     DE
        LD      HL,(NOTE)
        CALL    COPY
        TELL    HELP
        XOR     A
        JP      SHOWROW

; Copies B characters from HL to DE, up to a space. Moves HL over all.
WORD:   LD      A,(HL)
        INC     HL
        CP      ' '
        JP      Z,WORD1
        LD      (DE),A
        INC     DE
WORD1:  DJNZ    WORD
        RET

; Copies the characters from HL up to a 0 to DE.
COPY:   LD      A,(HL)
        INC     HL
        OR      A
        RET     Z
        LD      (DE),A
        INC     DE
        JP      COPY

; Writes HL in decimal to DE: first the digits of HL/10, then the last one.
DIGITS: LD      BC,-10
        PUSH    DE
        LD      DE,-1
DIGITS1:
        INC     DE
        ADD     HL,BC
        JP      C,DIGITS1
        LD      A,L
        ADD     A,'0'+10
        EX      DE,HL
        POP     DE
        PUSH    AF
        LD      A,H
        OR      L
        CALL    NZ,DIGITS
        POP     AF
        LD      (DE),A
        INC     DE
        RET

; Makes ROW spaces.
BLANK:  LD      HL,ROW
        LD      B,WIDE
BLANK1: LD      (HL),' '
        INC     HL
        DJNZ    BLANK1
        RET

; Makes ROW the line at HL from the column FROM on. HL becomes the next line; at
; the end of the text it stays.
RENDER: PUSH    HL
        CALL    BLANK
        POP     HL
        LD      BC,0            ; the column
RENDER1:
        CALL    FETCH
        CP      LF
        RET     Z
        CP      FINAL
        JP      Z,RENDER6
        PUSH    HL
        LD      H,B
        LD      L,C
        LD      DE,(FROM)
        OR      A
        SBC     HL,DE
        JP      C,RENDER4
        LD      DE,COLS
        COMPARE
        JP      NC,RENDER5
        LD      DE,ROW
        ADD     HL,DE
        LD      E,A
        SUB     ' '
        CP      7FH-' '
        LD      A,E
        JP      C,RENDER3
        CP      TAB
        LD      A,'?'
        JP      NZ,RENDER3
        LD      A,' '
RENDER3:
        LD      (HL),A
        LD      A,E
RENDER4:
        LD      H,B
        LD      L,C
        CALL    ADVANCE
        LD      B,H
        LD      C,L
        POP     HL
        JP      RENDER1

; The line goes on after the last column.
RENDER5:
        LD      A,'+'
        LD      (ROW+COLS),A
        POP     HL
SKIP:   CALL    FETCH
        CP      LF
        RET     Z
        CP      FINAL
        JP      NZ,SKIP
RENDER6:
        DEC     HL
        RET

; Shows ROW as line A of the terminal.
SHOWROW:
        LD      D,A
        LD      HL,SHADOW
        LD      BC,WIDE
        OR      A
SHOWROW1:
        JP      Z,SHOWROW2
        ADD     HL,BC
        DEC     A
        JP      SHOWROW1
SHOWROW2:
        LD      E,A             ; D is the line, E the column
        PUSH    HL
        LD      HL,ROW+WIDE
        LD      B,WIDE
SHOWROW3:
        DEC     HL
        LD      A,(HL)
        CP      ' '
        JP      NZ,SHOWROW4
        DJNZ    SHOWROW3
SHOWROW4:
        POP     HL
        LD      A,WIDE
        SUB     B
        LD      (SPACES),A      ; how many spaces the row ends with
        LD      A,B
        LD      BC,ROW
        OR      A
        JP      Z,SHOWROW7
SHOWROW5:
        PUSH    AF
        LD      A,(BC)
        CP      (HL)
        JP      Z,SHOWROW6
        LD      (HL),A
        CALL    GOTO
        CALL    PUT
        LD      A,E
        INC     A
        LD      (AT),A
SHOWROW6:
        INC     HL
        INC     BC
        INC     E
        POP     AF
        DEC     A
        JP      NZ,SHOWROW5
SHOWROW7:
        LD      A,(SPACES)
        OR      A
        RET     Z
        LD      B,A
        LD      A,' '
SHOWROW8:
        CP      (HL)
        JP      NZ,SHOWROW9
        INC     HL
        INC     E
        DJNZ    SHOWROW8
        RET
SHOWROW9:
        LD      (HL),A
        INC     HL
        DJNZ    SHOWROW9
        CALL    GOTO
        CLEARLINE

; Moves the terminal's cursor to line D, column E, unless it is there. Keeps A.
GOTO:   PUSH    HL
        PUSH    AF
        LD      HL,(AT)
        COMPARE
        JP      Z,GOTO1
        LD      (AT),DE
        LD      A,ESC
        CALL    PUT
        LD      A,MOVE
        CALL    PUT
        LD      A,D
        ADD     A,' '
        CALL    PUT
        LD      A,E
        ADD     A,' '
        CALL    PUT
GOTO1:  POP     AF
        POP     HL
        RET

        IF      VT52
; Prints ESC and the byte in A.
CODE:   PUSH    AF
        LD      A,ESC
        CALL    PUT
        POP     AF
        ENDIF

; Prints the byte in A. Keeps BC, DE and HL.
PUT:    PUSH    BC
        PUSH    DE
        PUSH    HL
        LD      E,A
        LD      C,DIRECT
        CALL    BDOS
        POP     HL
        POP     DE
        POP     BC
        RET

INLINE: DB      '  line ',0
INCOLUMN:
        DB      '  column ',0
HELP:   DB      '^K^D saves and ends, ^K^Q only ends',0
NOTE:   DW      HELP            ; the text in the status line
AT:     DW      0               ; where the terminal's cursor is: column, line
TOP:    DW      0               ; the first line of the screen
TOPNO:  DW      1               ; and its number
ROWNO:  DB      0               ; the row of the cursor
COL:    DW      0               ; the column of the cursor
SHIFT:  DW      0               ; the column with which the cursor's line begins
FROM:   DW      0               ; the column with which ROW begins
SPACES: DB      0
ROW:    DS      WIDE
