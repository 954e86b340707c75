; NUMBERS prints the numbers of a table, one a line, and their sum.
;
; Three sources: this one, which comes first, print.asm and table.asm.

        ORG     0100H
        EXTRN   PRINTHL,NEWLINE
        EXTRN   TABLE,TABEND

BOOT    EQU     0000H
BDOS    EQU     0005H
PRINT   EQU     9

START:  LD      SP,STACK
        LD      DE,TITLE
        LD      C,PRINT
        CALL    BDOS
        LD      HL,TABLE
        LD      B,LOW ((TABEND-TABLE)/2)
NEXT:   LD      E,(HL)
        INC     HL
        LD      D,(HL)
        INC     HL
        PUSH    HL
        LD      HL,(SUM)
        ADD     HL,DE
        LD      (SUM),HL
        EX      DE,HL
        CALL    PRINTHL
        CALL    NEWLINE
        POP     HL
        DJNZ    NEXT
        LD      HL,(SUM)
        CALL    PRINTHL
        CALL    NEWLINE
        JP      BOOT

TITLE:  DB      'The primes below 30 and their sum',0DH,0AH,'$'
SUM:    DW      0
        DS      64
STACK:

        END     START
