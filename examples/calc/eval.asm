; Finds the value of a line.

        PUBLIC  EVAL
        EXTRN   TIMES,DIVIDE    ; in arith.asm

; Goes to WHERE if the next character is CHAR.
ON      MACRO   CHAR,WHERE
        CP      CHAR
        JP      Z,WHERE
        ENDM

; Reads the operand after an operator with READER. HL becomes the value before
; the operator, DE the one after it.
OPERAND MACRO   READER
        INC     IX
        PUSH    HL
        CALL    READER
        POP     BC
        RET     C
        EX      DE,HL
        LD      H,B
        LD      L,C
        ENDM

; Returns an error: carry, and its message in DE.
REFUSE  MACRO   TEXT
        LD      DE,TEXT
        SCF
        RET
        ENDM

; Finds the value of the line at HL, which ends with 0, and returns it in HL.
; Carry: an error, with its message in DE.
EVAL:   PUSH    HL
        POP     IX              ; the next character
        CALL    SUM
        RET     C
        CALL    PEEK
        OR      A
        RET     Z
        REFUSE  EXTRA

; A sum: products that are added and subtracted.
SUM:    CALL    PRODUCT
        RET     C
SUM1:   CALL    PEEK
        ON      '+',PLUS
        ON      '-',MINUS
        OR      A
        RET
PLUS:   OPERAND PRODUCT
        ADD     HL,DE
        JP      SUM1
MINUS:  OPERAND PRODUCT
        OR      A
        SBC     HL,DE
        JP      SUM1

; A product: factors that are multiplied and divided.
PRODUCT:
        CALL    FACTOR
        RET     C
PRODUCT1:
        CALL    PEEK
        ON      '*',STAR
        ON      '/',SLASH
        OR      A
        RET
STAR:   OPERAND FACTOR
        CALL    TIMES
        JP      PRODUCT1
SLASH:  OPERAND FACTOR
        CALL    DIVIDE
        JP      NC,PRODUCT1
        REFUSE  BYZERO

; A factor: a number, a negative factor, or a sum in parentheses.
FACTOR: CALL    PEEK
        ON      '-',NEGATE
        ON      '(',INNER
        CALL    DIGIT
        JP      NC,NUMBER
        REFUSE  NONUMBER
NEGATE: INC     IX
        CALL    FACTOR
        RET     C
        EX      DE,HL
        LD      HL,0
        OR      A
        SBC     HL,DE
        OR      A
        RET
INNER:  INC     IX
        CALL    SUM
        RET     C
        CALL    PEEK
        INC     IX
        CP      ')'
        RET     Z
        REFUSE  OPENED

; The number that begins with the digit in A.
NUMBER: LD      HL,0
NUMBER1:
        INC     IX
        LD      D,H
        LD      E,L
        ADD     HL,HL
        ADD     HL,HL
        ADD     HL,DE
        ADD     HL,HL           ; ten times
        LD      E,A
        LD      D,0
        ADD     HL,DE
        LD      A,(IX)
        CALL    DIGIT
        JP      NC,NUMBER1
        OR      A
        RET

; Returns the value of the digit in A. Carry: A is not a digit.
DIGIT:  SUB     '0'
        RET     C
        CP      10
        CCF
        RET

; Skips spaces and returns the next character in A.
PEEK:   LD      A,(IX)
        CP      ' '
        RET     NZ
        INC     IX
        JP      PEEK

EXTRA:  DB      'What is this behind it?$'
BYZERO: DB      'Divided by zero$'
NONUMBER:
        DB      'A number is missing$'
OPENED: DB      'A ) is missing$'
