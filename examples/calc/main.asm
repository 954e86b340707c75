; CALC is a calculator: it reads a line and prints its value, and so on until an
; empty line. Numbers are whole, from -32768 to 32767, and wrap around. The
; operators are + - * / and parentheses; / rounds towards zero.
;
; Four sources: this one, which comes first, eval.asm, arith.asm, console.asm.

        ORG     0100H
        EXTRN   EVAL            ; in eval.asm
        EXTRN   READLN,SAY,NEWLINE,PUTDEC       ; in console.asm

BOOT    EQU     0000H

; Prints a string.
TELL    MACRO   TEXT
        LD      DE,TEXT
        CALL    SAY
        ENDM

START:  LD      SP,STACK
NEXT:   TELL    PROMPT
        CALL    READLN
        JP      Z,BOOT
        CALL    EVAL
        JP      C,FAULT
        PUSH    HL
        TELL    EQUALS
        POP     HL
        CALL    PUTDEC
        JP      ENDED
FAULT:  CALL    SAY
ENDED:  CALL    NEWLINE
        JP      NEXT

PROMPT: DB      '? $'
EQUALS: DB      '= $'
        DS      256
STACK:

        END     START
