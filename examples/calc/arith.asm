; Multiplication and division, for which the Z80 has no instruction.

        PUBLIC  TIMES,DIVIDE

; HL becomes HL times DE, modulo 65536.
TIMES:  LD      B,H
        LD      C,L
        LD      HL,0
        LD      A,16
TIMES1: ADD     HL,HL
        EX      DE,HL
        ADD     HL,HL
        EX      DE,HL
        JP      NC,TIMES2
        ADD     HL,BC
TIMES2: DEC     A
        JP      NZ,TIMES1
        RET

; HL becomes HL divided by DE, both signed, rounded towards zero. Carry: DE is 0.
DIVIDE: LD      A,D
        OR      E
        SCF
        RET     Z
        LD      A,H
        XOR     D
        PUSH    AF              ; the sign of A is the sign of the result
        CALL    MAGNITUDE
        EX      DE,HL
        CALL    MAGNITUDE
        EX      DE,HL
        LD      B,H
        LD      C,L             ; BC is shifted into the remainder in HL
        LD      HL,0
        LD      A,16
DIVIDE1:
        SLA     C
        RL      B
        ADC     HL,HL
        SBC     HL,DE
        JP      NC,DIVIDE2
        ADD     HL,DE
        DEC     C               ; takes the digit of the result back
DIVIDE2:
        INC     C
        DEC     A
        JP      NZ,DIVIDE1
        LD      H,B
        LD      L,C
        POP     AF
        OR      A
        RET     P
        JP      OPPOSITE

; HL becomes its absolute value.
MAGNITUDE:
        BIT     7,H
        RET     Z

; HL becomes its negative. No carry.
OPPOSITE:
        LD      A,H
        CPL
        LD      H,A
        LD      A,L
        CPL
        LD      L,A
        INC     HL
        OR      A
        RET
