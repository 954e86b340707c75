; The text and the cursor in it.
;
; The text before the cursor is at BUFFER up to GAP, the text after it at REST up
; to the byte FINAL at the end of the memory. A key that is typed goes into the
; gap between the two, and the cursor moves by moving characters across the gap.
; So typing takes as long in a long text as in a short one. A line ends with LF;
; its CR is only in the file.

        PUBLIC  EMPTY,FIRST,FETCH,APPEND,INSERT,DELETE,RUBOUT
        PUBLIC  LEFT,RIGHT,HOME,LINEEND,UP,DOWN,REWIND
        PUBLIC  LINESTART,COLUMN,ADVANCE
        PUBLIC  GAP,LINENO,GOAL,VERTICAL,DIRTY,FREE

; Makes the text empty.
EMPTY:  LD      HL,BUFFER-1
        LD      (HL),LF         ; the search for the start of a line ends here
        INC     HL
        LD      (GAP),HL
        LD      HL,(BDOS+1)
        DEC     HL
        LD      (HL),FINAL
        LD      (REST),HL
        RET

; HL becomes the address of the first character, for FETCH.
FIRST:  LD      HL,BUFFER
        RET

; A becomes the character at HL, and HL the address of the next one.
FETCH:  LD      DE,(GAP)
        COMPARE
        JP      NZ,FETCH1
        LD      HL,(REST)
FETCH1: LD      A,(HL)
        INC     HL
        RET

; Adds the character in A from a file, without the CR of a line end. Carry: there
; is no room.
APPEND: CP      LF
        JP      NZ,INSERT
        LD      HL,(GAP)
        DEC     HL
        LD      A,(HL)
        CP      CR
        JP      NZ,APPEND1
        LD      (GAP),HL
APPEND1:
        LD      A,LF

; Inserts the character in A before the cursor. Carry: there is no room.
INSERT: LD      HL,(GAP)
        LD      DE,(REST)
        COMPARE
        SCF
        RET     Z
        DEC     DE
        LD      (DE),A
        LD      (REST),DE
        CALL    CHANGED

; Moves the cursor over the character after it, which A becomes. Carry: there is
; none.
RIGHT:  LD      HL,(REST)
        LD      A,(HL)
        CP      FINAL
        SCF
        RET     Z
        INC     HL
        LD      (REST),HL
        LD      HL,(GAP)
        LD      (HL),A
        INC     HL
        LD      (GAP),HL
        CP      LF
        SCF
        CCF
        RET     NZ
        LD      HL,(LINENO)
        INC     HL
        LD      (LINENO),HL
        RET

; Moves the cursor over the character before it. Carry: there is none.
LEFT:   LD      HL,(GAP)
        LD      DE,BUFFER
        COMPARE
        SCF
        RET     Z
        DEC     HL
        LD      (GAP),HL
        LD      A,(HL)
        LD      HL,(REST)
        DEC     HL
        LD      (HL),A
        LD      (REST),HL
        CP      LF
        SCF
        CCF
        RET     NZ
        LD      HL,(LINENO)
        DEC     HL
        LD      (LINENO),HL
        RET

; Takes out the character before the cursor.
RUBOUT: CALL    LEFT
        RET     C

; Takes out the character after the cursor, which A becomes. Carry: there is none.
DELETE: LD      HL,(REST)
        LD      A,(HL)
        CP      FINAL
        SCF
        RET     Z
        INC     HL
        LD      (REST),HL

; Notes that the character in A came or went. Keeps A. No carry.
CHANGED:
        LD      HL,DIRTY
        SET     ONEROW,(HL)
        CP      LF
        SCF
        CCF
        RET     NZ
        SET     ALLROWS,(HL)
        RET

; HL becomes the start of the line that it is in, before the cursor.
LINESTART:
        DEC     HL
        LD      A,(HL)
        CP      LF
        JP      NZ,LINESTART
        INC     HL
        RET

; Moves the cursor to the start of its line.
HOME:   LD      HL,(GAP)
        DEC     HL
        LD      A,(HL)
        CP      LF
        RET     Z
        CALL    LEFT
        JP      HOME

; Moves the cursor to the end of its line.
LINEEND:
        LD      HL,(REST)
        LD      A,(HL)
        CP      LF
        RET     Z
        CALL    RIGHT
        JP      NC,LINEEND
        RET

; Moves the cursor to the line above, or stays in the first one.
UP:     CALL    HOME
        CALL    LEFT
        CALL    NC,HOME
        JP      SEEK

; Moves the cursor to the line below. Carry: there is none, and it stays.
DOWN:   CALL    LINEEND
        CALL    RIGHT
        JP      NC,SEEK
        CALL    HOME
        CALL    SEEK
        SCF
        RET

; Moves the cursor from the start of its line to the column that it had before it
; went up and down, or to the end. No carry.
SEEK:   LD      A,1
        LD      (VERTICAL),A
        LD      HL,0
SEEK1:  LD      DE,(GOAL)
        COMPARE
        RET     NC
        LD      DE,(REST)
        LD      A,(DE)
        CP      LF
        RET     Z
        CP      FINAL
        RET     Z
        PUSH    HL
        CALL    RIGHT
        POP     HL
        CALL    ADVANCE
        JP      SEEK1

; Moves the cursor to the start of the text.
REWIND: LD      HL,(GAP)
        LD      DE,BUFFER
        OR      A
        SBC     HL,DE
        RET     Z
        LD      B,H
        LD      C,L
        LD      HL,(GAP)
        DEC     HL
        LD      DE,(REST)
        DEC     DE
        LDDR
        INC     DE
        LD      (REST),DE
        INC     HL
        LD      (GAP),HL
        LD      HL,1
        LD      (LINENO),HL
        RET

; HL becomes the column of the cursor.
COLUMN: LD      HL,(GAP)
        CALL    LINESTART
        LD      B,H
        LD      C,L
        LD      DE,(GAP)
        LD      HL,0
COLUMN1:
        LD      A,C
        CP      E
        JP      NZ,COLUMN2
        LD      A,B
        CP      D
        RET     Z
COLUMN2:
        LD      A,(BC)
        INC     BC
        CALL    ADVANCE
        JP      COLUMN1

; HL, a column, becomes the column after the character in A.
ADVANCE:
        INC     HL
        CP      TAB
        RET     NZ
ADVANCE1:
        LD      A,L
        AND     7
        RET     Z
        INC     HL
        JP      ADVANCE1

GAP:    DW      0
REST:   DW      0
LINENO: DW      1               ; the number of the cursor's line
GOAL:   DW      0               ; the column that going up and down keeps
VERTICAL:
        DB      0               ; not 0: the last command went up or down
DIRTY:  DB      3

FREE:                           ; what the screen shows, a byte LF, and the text
BUFFER  EQU     FREE+(ROWS+1)*WIDE+1
