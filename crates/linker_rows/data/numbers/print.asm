; Prints numbers. All registers but A and the flags stay.

        PUBLIC  PRINTHL,NEWLINE

BDOS    EQU     0005H
CONOUT  EQU     2

; Prints HL in decimal, without zeros before it.
PRINTHL:
        PUSH    BC
        PUSH    DE
        PUSH    HL
        CALL    DIGITS
        POP     HL
        POP     DE
        POP     BC
        RET

; The digits of HL: those of its tenth, and the last one.
DIGITS: LD      DE,10
        LD      BC,-1
TENTH:  INC     BC
        OR      A
        SBC     HL,DE
        JP      NC,TENTH
        ADD     HL,DE
        PUSH    HL              ; the last digit
        LD      H,B
        LD      L,C
        LD      A,H
        OR      L
        CALL    NZ,DIGITS
        POP     HL
        LD      A,L
        ADD     A,'0'
        JP      PUTCHR

NEWLINE:
        LD      A,0DH
        CALL    PUTCHR
        LD      A,0AH

; Prints the character in A.
PUTCHR: PUSH    BC
        PUSH    DE
        PUSH    HL
        LD      E,A
        LD      C,CONOUT
        CALL    BDOS
        POP     HL
        POP     DE
        POP     BC
        RET
