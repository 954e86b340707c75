; Reads and prints.

        PUBLIC  READLN,SAY,NEWLINE,PUTDEC

BDOS    EQU     0005H
CONOUT  EQU     2
PRINT   EQU     9
READ    EQU     10
ROOM    EQU     80

; Reads a line to HL, with a 0 after its last character. Zero: it is empty.
READLN: LD      DE,LINE
        LD      C,READ
        CALL    BDOS
        LD      E,0AH           ; the system has printed a CR
        LD      C,CONOUT
        CALL    BDOS
        LD      HL,LINE+1
        LD      E,(HL)
        LD      D,0
        INC     HL
        PUSH    HL
        ADD     HL,DE
        LD      (HL),D
        POP     HL
        LD      A,E
        OR      A
        RET

; Prints the string at DE, up to its $.
SAY:    LD      C,PRINT
        JP      BDOS

NEWLINE:
        LD      DE,LINEEND
        JP      SAY

; Prints HL in decimal, with its sign.
PUTDEC: BIT     7,H
        JP      Z,DIGITS
        LD      A,'-'
        CALL    PUTCHR
        EX      DE,HL
        LD      HL,0
        OR      A
        SBC     HL,DE

; Prints the digits of HL: first those of HL/10, then the last one.
DIGITS: LD      DE,10
        LD      BC,-1
DIGITS1:
        INC     BC
        OR      A
        SBC     HL,DE
        JP      NC,DIGITS1
        ADD     HL,DE
        LD      A,L
        LD      H,B
        LD      L,C
        PUSH    AF
        LD      A,H
        OR      L
        CALL    NZ,DIGITS
        POP     AF
        ADD     A,'0'

; Prints the character in A. Keeps HL.
PUTCHR: PUSH    HL
        LD      E,A
        LD      C,CONOUT
        CALL    BDOS
        POP     HL
        RET

LINEEND:
        DB      0DH,0AH,'$'
LINE:   DB      ROOM,0
        DS      ROOM+1          ; one more for the 0 after the line
