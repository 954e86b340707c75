; VECTORS DIGITS says the digits 0 to 3 of its word in English, twice: first as
; they are, then in capitals.
;
; Two places here rely on the length of a JP:
;
; - SAYDIG multiplies the digit by three, because each entry of TABLE has to
;   take three bytes.
; - The program changes the JP at VECTOR by writing an address to VECTOR+1.
;
; The linker makes a JP to a label a JR of two bytes if the label is near. Both
; places would then go wrong. build warns of them, but the program is built. The
; operand NAME+0 is an expression and not a label alone, so such a JP always
; keeps three bytes.

        ORG     0100H

BDOS    EQU     0005H
WORD    EQU     005DH           ; the first word of the command, eight bytes
CONOUT  EQU     2
COUNT   EQU     4               ; entries of TABLE

START:  CALL    SAYALL          ; prints through PLAIN
        LD      HL,UPPER
        LD      (VECTOR+1),HL   ; the address in the JP at VECTOR
        CALL    SAYALL          ; prints through UPPER
        RET

; Says each digit of the word.
SAYALL: LD      HL,WORD
NEXT:   LD      A,(HL)
        INC     HL
        SUB     '0'
        CP      COUNT
        RET     NC              ; the space after the word, or no such digit
        PUSH    HL
        CALL    SAYDIG
        POP     HL
        JP      NEXT

; Says the digit in A.
SAYDIG: LD      E,A
        ADD     A,A
        ADD     A,E             ; times three: the bytes of an entry
        LD      E,A
        LD      D,0
        LD      HL,TABLE
        ADD     HL,DE
        JP      (HL)

TABLE:  JP      ZERO+0
        JP      ONE+0
        JP      TWO+0
        JP      THREE+0

ZERO:   LD      HL,TEXT0
        JP      SAY
ONE:    LD      HL,TEXT1
        JP      SAY
TWO:    LD      HL,TEXT2
        JP      SAY
THREE:  LD      HL,TEXT3

; Prints the text at HL, up to its $.
SAY:    LD      A,(HL)
        CP      '$'
        RET     Z
        INC     HL
        PUSH    HL
        LD      E,A
        CALL    VECTOR
        POP     HL
        JP      SAY

; Prints the character in E. The program writes another address here.
VECTOR: JP      PLAIN+0

; Prints it as a capital.
UPPER:  LD      A,E
        CP      'a'
        JP      C,PLAIN
        AND     5FH             ; a to z become A to Z
        LD      E,A
PLAIN:  LD      C,CONOUT
        JP      BDOS

TEXT0:  DB      'zero',0DH,0AH,'$'
TEXT1:  DB      'one',0DH,0AH,'$'
TEXT2:  DB      'two',0DH,0AH,'$'
TEXT3:  DB      'three',0DH,0AH,'$'

        END     START
