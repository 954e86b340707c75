; CPUTEST tries the instructions of a processor, group by group.
;
; Each group goes through many operands and folds the results, registers and
; flags, into a sum of 16 bits. Beside each group is the sum that follows from the
; Z80 CPU User Manual. Left out are HALT, ports, interrupts, R, and the flags that
; the manual leaves open: bits 3 and 5 of F always, S and P/V after BIT.

        ORG     0100H

BOOT    EQU     0000H
BDOS    EQU     0005H
CONOUT  EQU     2
PRINT   EQU     9

FLAGS   EQU     0D7H            ; S, Z, H, P/V, N and C of F
TESTED  EQU     053H            ; those for which BIT has a rule

CELLS   EQU     8000H           ; six bytes of memory, far above the program

; Calls a group's routine and reports whether its sum is the one expected.
GROUP   MACRO   TEXT,ROUTINE,WANTED
        LOCAL   NAME,PAST
        LD      HL,0
        LD      (SUM),HL
        CALL    ROUTINE
        LD      DE,NAME
        LD      HL,WANTED
        CALL    REPORT
        JP      PAST
NAME:   DB      TEXT,'$'
PAST:
        ENDM

; Calls a group's routine for each A, B and F of the tables.
EACH    MACRO   ROUTINE
        LD      HL,ROUTINE
        JP      FOREACH
        ENDM

; One instruction on A, B and F. Folds A and F.
ON      MACRO   WORD,OPERAND
        CALL    SETUP
        WORD    OPERAND
        CALL    FOLDAF
        ENDM

; The same for instructions that have A before the operand.
ONA     MACRO   WORD,OPERAND
        CALL    SETUP
        WORD    A,OPERAND
        CALL    FOLDAF
        ENDM

; The same for instructions that change B.
ONB     MACRO   WORD
        CALL    SETUP
        WORD    B
        LD      A,B
        CALL    FOLDAF
        ENDM

; One instruction on HL, DE and the flags. Folds HL and F.
ONHL    MACRO   WORD,OPERAND
        CALL    SETUPW
        WORD    HL,OPERAND
        CALL    FOLDHL
        ENDM

; All eight operations with one operand, one after the other.
ALL8    MACRO   OPERAND
        ADD     A,OPERAND
        CALL    FOLDAF
        ADC     A,OPERAND
        CALL    FOLDAF
        SUB     OPERAND
        CALL    FOLDAF
        SBC     A,OPERAND
        CALL    FOLDAF
        AND     OPERAND
        CALL    FOLDAF
        XOR     OPERAND
        CALL    FOLDAF
        OR      OPERAND
        CALL    FOLDAF
        CP      OPERAND
        CALL    FOLDAF
        ENDM

; Tests, sets and resets one bit.
BITS    MACRO   NUMBER
        CALL    SETUP
        BIT     NUMBER,B
        CALL    FOLDBT
        CALL    SETUP
        SET     NUMBER,B
        LD      A,B
        CALL    FOLDAF
        CALL    SETUP
        RES     NUMBER,B
        LD      A,B
        CALL    FOLDAF
        ENDM

; Folds 1 if a condition holds and 0 if it does not, as JP, CALL and RET see it.
COND    MACRO   CC
        LOCAL   YES,CALLED,RETURN,PAST
        CALL    SETUP
        LD      B,1
        JP      CC,YES
        LD      B,0
YES:    LD      A,B
        CALL    FOLD
        CALL    SETUP
        LD      B,0
        CALL    CC,CALLED
        LD      A,B
        CALL    FOLD
        CALL    SETUP
        LD      B,1
        CALL    RETURN
        LD      A,B
        CALL    FOLD
        JP      PAST
CALLED: INC     B
        RET
RETURN: RET     CC
        DEC     B
        RET
PAST:
        ENDM

; The same for JR, whose target is near.
NEARBY  MACRO   CC
        LOCAL   YES
        CALL    SETUP
        LD      B,1
        JR      CC,YES
        LD      B,0
YES:    LD      A,B
        CALL    FOLD
        ENDM

; Loads a register from each register.
LOADS   MACRO   REG
        CALL    REGS
        LD      REG,B
        CALL    FOLDALL
        CALL    REGS
        LD      REG,C
        CALL    FOLDALL
        CALL    REGS
        LD      REG,D
        CALL    FOLDALL
        CALL    REGS
        LD      REG,E
        CALL    FOLDALL
        CALL    REGS
        LD      REG,H
        CALL    FOLDALL
        CALL    REGS
        LD      REG,L
        CALL    FOLDALL
        CALL    REGS
        LD      REG,A
        CALL    FOLDALL
        CALL    REGS
        LD      REG,(HL)
        CALL    FOLDALL
        CALL    REGS
        LD      REG,(IX+2)
        CALL    FOLDALL
        CALL    REGS
        LD      REG,(IY-3)
        CALL    FOLDALL
        CALL    REGS
        LD      REG,5AH
        CALL    FOLDALL
        ENDM

; Stores a register in memory, three ways.
STORES  MACRO   REG
        CALL    REGS
        LD      (HL),REG
        CALL    FOLDMEM
        CALL    REGS
        LD      (IX+2),REG
        CALL    FOLDMEM
        CALL    REGS
        LD      (IY-3),REG
        CALL    FOLDMEM
        ENDM

; Calls an address in page zero, after writing a RET there.
RESTART MACRO   PLACE
        LD      HL,PLACE
        LD      (HL),0C9H
        LD      A,PLACE
        RST     PLACE
        CALL    FOLD
        ENDM

START:  LD      SP,STACK
        GROUP   'bytes added, subtracted, compared',ARITH,GARITH
        GROUP   'operands of each kind',OPERANDS,GOPERANDS
        GROUP   'bytes counted up and down',COUNTS,GCOUNTS
        GROUP   'decimal digits',DECIMAL,GDECIMAL
        GROUP   'rotated and shifted',ROTATES,GROTATES
        GROUP   'digits rotated through memory',DIGITS,GDIGITS
        GROUP   'bits',BITTESTS,GBITS
        GROUP   'words',WORDS,GWORDS
        GROUP   'loads and stores',MOVES,GMOVES
        GROUP   'words loaded, pushed, exchanged',STACKS,GSTACKS
        GROUP   'blocks moved and searched',BLOCKS,GBLOCKS
        GROUP   'conditions',CONDS,GCONDS
        GROUP   'loops, restarts, jumps by registers',FLOW,GFLOW
        LD      A,(BAD)
        OR      A
        LD      DE,ALLGOOD
        JP      Z,ENDING
        LD      DE,SOMEBAD
ENDING: LD      C,PRINT
        CALL    BDOS
        JP      BOOT

; The sums expected. They were worked out from the rules of the manual, in another
; language and on whole numbers, not by this program.
GARITH          EQU     06C60H
GOPERANDS       EQU     0EC65H
GCOUNTS         EQU     01A8EH
GDECIMAL        EQU     018F7H
GROTATES        EQU     0E31BH
GDIGITS         EQU     0DB9BH
GBITS           EQU     09D93H
GWORDS          EQU     0A951H
GMOVES          EQU     08036H
GSTACKS         EQU     0FEF3H
GBLOCKS         EQU     0D3C1H
GCONDS          EQU     09E3EH
GFLOW           EQU     00D3FH

; ---------------------------------------------------------------------------
; The groups

ARITH:  EACH    ARITH1
ARITH1: ONA     ADD,B
        ONA     ADC,B
        ON      SUB,B
        ONA     SBC,B
        ON      AND,B
        ON      XOR,B
        ON      OR,B
        ON      CP,B
        RET

OPERANDS:
        CALL    REGS
        ALL8    B
        ALL8    C
        ALL8    D
        ALL8    E
        ALL8    H
        ALL8    L
        ALL8    (HL)
        ALL8    (IX+2)
        ALL8    (IY-3)
        ALL8    3CH
        ALL8    A
        RET

COUNTS: EACH    COUNTS1
COUNTS1:
        ONB     INC
        ONB     DEC
        CALL    SETUP
        NEG
        CALL    FOLDAF
        CALL    SETUP
        CPL
        CALL    FOLDAF
        CALL    SETUP
        SCF
        CALL    FOLDAF
        CALL    SETUP
        CCF
        CALL    FOLDAF
        RET

DECIMAL:
        EACH    DECIMAL1
DECIMAL1:
        CALL    SETUP
        DAA
        CALL    FOLDAF
        CALL    SETUP
        ADC     A,B
        DAA
        CALL    FOLDAF
        CALL    SETUP
        SBC     A,B
        DAA
        CALL    FOLDAF
        RET

ROTATES:
        EACH    ROTATES1
ROTATES1:
        CALL    SETUP
        RLCA
        CALL    FOLDAF
        CALL    SETUP
        RRCA
        CALL    FOLDAF
        CALL    SETUP
        RLA
        CALL    FOLDAF
        CALL    SETUP
        RRA
        CALL    FOLDAF
        ONB     RLC
        ONB     RRC
        ONB     RL
        ONB     RR
        ONB     SLA
        ONB     SRA
        ONB     SRL
        RET

DIGITS: EACH    DIGITS1
DIGITS1:
        CALL    SETUP
        LD      HL,BVAL
        RLD
        CALL    FOLDAF
        LD      A,(HL)
        CALL    FOLD
        LD      (HL),B
        CALL    SETUP
        LD      HL,BVAL
        RRD
        CALL    FOLDAF
        LD      A,(HL)
        CALL    FOLD
        LD      (HL),B
        RET

BITTESTS:
        EACH    BITS1
BITS1:  BITS    0
        BITS    1
        BITS    2
        BITS    3
        BITS    4
        BITS    5
        BITS    6
        BITS    7
        RET

WORDS:  EACH    WORDS1
WORDS1: ONHL    ADD,DE
        ONHL    ADC,DE
        ONHL    SBC,DE
        ONHL    ADD,HL
        ONHL    ADC,HL
        ONHL    SBC,HL
        CALL    SETUPW
        INC     HL
        CALL    FOLDHL
        CALL    SETUPW
        DEC     HL
        CALL    FOLDHL
        CALL    SETUPW
        PUSH    HL
        POP     IX
        ADD     IX,DE
        INC     IX
        PUSH    IX
        POP     HL
        CALL    FOLDHL
        CALL    SETUPW
        PUSH    HL
        POP     IY
        ADD     IY,IY
        DEC     IY
        PUSH    IY
        POP     HL
        CALL    FOLDHL
        RET

MOVES:  LOADS   B
        LOADS   C
        LOADS   D
        LOADS   E
        LOADS   H
        LOADS   L
        LOADS   A
        STORES  A
        STORES  B
        STORES  C
        STORES  D
        STORES  E
        CALL    REGS
        LD      (HL),0A5H
        INC     (HL)
        LD      (IX+2),0C3H
        DEC     (IX+2)
        RLC     (IX+2)
        SET     3,(IY-3)
        RES     1,(HL)
        SRA     (HL)
        CALL    FOLDMEM
        CALL    REGS
        LD      BC,CELLS+1
        LD      DE,CELLS+4
        LD      A,(BC)
        LD      (DE),A
        LD      A,(CELLS+2)
        LD      (BC),A
        LD      A,(DE)
        LD      (CELLS),A
        CALL    FOLDMEM
        RET

STACKS: CALL    REGS
        LD      BC,(CELLS)
        LD      DE,(CELLS+1)
        LD      HL,(CELLS+2)
        CALL    FOLDALL
        LD      (CELLS+4),BC
        LD      (CELLS+2),DE
        LD      (CELLS),HL
        CALL    FOLDMEM
        CALL    REGS
        EX      DE,HL
        CALL    FOLDALL
        PUSH    BC
        PUSH    DE
        EX      (SP),HL
        POP     BC
        POP     DE
        CALL    FOLDALL
        LD      IX,1234H
        LD      IY,5678H
        PUSH    HL
        EX      (SP),IX
        EX      (SP),IY
        POP     HL
        CALL    FOLDALL
        LD      (CELLS),IX
        LD      (CELLS+2),IY
        CALL    FOLDMEM
        LD      IX,(CELLS+2)
        LD      IY,(CELLS)
        PUSH    IX
        PUSH    IY
        POP     BC
        POP     DE
        CALL    FOLDALL
        LD      BC,1111H
        LD      DE,2222H
        LD      HL,3333H
        EXX
        LD      BC,4444H
        LD      DE,5555H
        LD      HL,6666H
        CALL    FOLDALL
        EXX
        CALL    FOLDALL
        LD      A,77H
        SCF
        EX      AF,AF'
        LD      A,88H
        OR      A
        CALL    FOLDAF
        EX      AF,AF'
        LD      A,77H
        CALL    FOLD
        LD      (OLDSP),SP
        LD      HL,CELLS+4
        LD      SP,HL
        LD      BC,9ABCH
        PUSH    BC
        INC     SP
        LD      BC,0DEF0H
        PUSH    BC
        DEC     SP
        LD      IX,CELLS+6
        LD      SP,IX
        LD      SP,(OLDSP)
        CALL    FOLDMEM
        RET

BLOCKS: CALL    REGS
        LD      HL,CELLS
        LD      DE,CELLS+1
        LD      BC,3
        LDIR
        CALL    FOLDBLK
        CALL    REGS
        LD      HL,CELLS+4
        LD      DE,CELLS+5
        LD      BC,4
        LDDR
        CALL    FOLDBLK
        CALL    REGS
        LD      HL,CELLS+2
        LD      DE,CELLS
        LD      BC,2
        LDI
        CALL    FOLDBLK
        LDI
        CALL    FOLDBLK
        CALL    REGS
        LD      HL,CELLS+2
        LD      DE,CELLS+5
        LD      BC,1
        LDD
        CALL    FOLDBLK
        CALL    REGS
        LD      HL,CELLS
        LD      BC,6
        LD      A,0A0H
        CPIR
        CALL    FOLDBLK
        CALL    REGS
        LD      HL,CELLS
        LD      BC,6
        LD      A,7
        CPIR
        CALL    FOLDBLK
        CALL    REGS
        LD      HL,CELLS+5
        LD      BC,6
        LD      A,0A0H
        CPDR
        CALL    FOLDBLK
        CALL    REGS
        LD      HL,CELLS+3
        LD      BC,4
        LD      A,90H
        CPI
        CALL    FOLDBLK
        CPD
        CALL    FOLDBLK
        RET

CONDS:  EACH    CONDS1
CONDS1: COND    NZ
        COND    Z
        COND    NC
        COND    C
        COND    PO
        COND    PE
        COND    P
        COND    M
        NEARBY  NZ
        NEARBY  Z
        NEARBY  NC
        NEARBY  C
        RET

FLOW:   LD      B,0
        LD      A,0
FLOW1:  INC     A
        INC     A
        INC     A
        CALL    FOLD
        DJNZ    FLOW1
        RESTART 08H
        RESTART 10H
        RESTART 18H
        RESTART 20H
        RESTART 28H
        RESTART 30H
        LD      HL,FLOW2
        JP      (HL)
        CALL    FOLD            ; never reached
FLOW2:  LD      A,1
        CALL    FOLD
        LD      IX,FLOW3
        JP      (IX)
        CALL    FOLD
FLOW3:  LD      A,2
        CALL    FOLD
        LD      IY,FLOW4
        JP      (IY)
        CALL    FOLD
FLOW4:  LD      A,3
        NOP
        JR      $+3
        INC     A               ; never reached
        CALL    FOLD
        RET

; ---------------------------------------------------------------------------
; Operands

VALUES: DB      00H,01H,0FH,10H,7FH,80H,99H,0FFH
VALEND:
STATES: DB      00H,01H,12H,0D7H
STATEEND:

; Calls the routine at HL for each B, each A and each F, the last one fastest.
FOREACH:
        LD      (ROUTINE),HL
        LD      HL,VALUES
EACHB:  LD      A,(HL)
        LD      (BVAL),A
        PUSH    HL
        LD      HL,VALUES
EACHA:  LD      A,(HL)
        LD      (AVAL),A
        PUSH    HL
        LD      HL,STATES
EACHF:  LD      A,(HL)
        LD      (FVAL),A
        PUSH    HL
        LD      HL,EACHED
        PUSH    HL
        LD      HL,(ROUTINE)
        JP      (HL)
EACHED: POP     HL
        INC     HL
        LD      A,L
        CP      LOW STATEEND
        JP      NZ,EACHF
        POP     HL
        INC     HL
        LD      A,L
        CP      LOW VALEND
        JP      NZ,EACHA
        POP     HL
        INC     HL
        LD      A,L
        CP      LOW VALEND
        JP      NZ,EACHB
        RET

; Loads the operands to A, B and F.
SETUP:  LD      HL,(BVAL)
        LD      B,L
        LD      HL,(FVAL)
        PUSH    HL
        POP     AF
        RET

; HL is A and B, DE is B and A, and F.
SETUPW: CALL    SETUP
        LD      H,A
        LD      L,B
        LD      D,B
        LD      E,A
        RET

; Loads known values to all registers and to the cells.
REGS:   LD      HL,FILLED
        LD      DE,CELLS
        LD      BC,6
        LDIR
        LD      IX,CELLS+1
        LD      IY,CELLS+4
        LD      HL,00D7H
        PUSH    HL
        POP     AF
        LD      A,91H
        LD      BC,2345H
        LD      DE,6789H
        LD      HL,CELLS+2
        RET

FILLED: DB      70H,80H,90H,0A0H,0B0H,0C0H

; ---------------------------------------------------------------------------
; Sums

; Folds all registers and the cells.
FOLDBLK:
        CALL    FOLDALL

; Folds the cells.
FOLDMEM:
        PUSH    AF
        PUSH    BC
        PUSH    HL
        LD      HL,CELLS
        LD      B,6
FOLDM1: LD      A,(HL)
        CALL    FOLD
        INC     HL
        DJNZ    FOLDM1
        POP     HL
        POP     BC
        POP     AF
        RET

; Folds all registers.
FOLDALL:
        CALL    FOLDAF
        PUSH    AF
        LD      A,B
        CALL    FOLD
        LD      A,C
        CALL    FOLD
        LD      A,D
        CALL    FOLD
        LD      A,E
        CALL    FOLD
        LD      A,H
        CALL    FOLD
        LD      A,L
        CALL    FOLD
        POP     AF
        RET

; Folds H, L and F.
FOLDHL: PUSH    AF
        LD      A,H
        CALL    FOLD
        LD      A,L
        CALL    FOLD
        POP     AF
        PUSH    AF
        PUSH    BC
        PUSH    AF
        POP     BC
        LD      A,C
        AND     FLAGS
        CALL    FOLD
        POP     BC
        POP     AF
        RET

; Folds the flags for which BIT has a rule.
FOLDBT: PUSH    AF
        POP     BC
        LD      A,C
        AND     TESTED
        JP      FOLD

; Folds A and F.
FOLDAF: CALL    FOLD
        PUSH    AF
        PUSH    BC
        PUSH    AF
        POP     BC
        LD      A,C
        AND     FLAGS
        CALL    FOLD
        POP     BC
        POP     AF
        RET

; Folds A: rotates the sum left by one bit and adds A. Keeps all registers and
; flags.
FOLD:   PUSH    AF
        PUSH    DE
        PUSH    HL
        LD      HL,(SUM)
        LD      E,A
        LD      D,0
        ADD     HL,HL
        JP      NC,FOLD1
        INC     HL
FOLD1:  ADD     HL,DE
        LD      (SUM),HL
        POP     HL
        POP     DE
        POP     AF
        RET

; ---------------------------------------------------------------------------
; Messages

; Prints the sum, the group's name at DE, and whether the sum is HL.
REPORT: PUSH    DE
        PUSH    HL
        LD      HL,(SUM)
        LD      A,H
        CALL    HEX2
        LD      HL,(SUM)
        LD      A,L
        CALL    HEX2
        LD      HL,(SUM)
        POP     DE
        OR      A
        SBC     HL,DE
        LD      DE,GOOD
        JP      Z,REPORT1
        LD      HL,BAD
        INC     (HL)
        LD      DE,WRONG
REPORT1:
        LD      C,PRINT
        CALL    BDOS
        POP     DE
        LD      C,PRINT
        CALL    BDOS
        LD      DE,LINEEND
        LD      C,PRINT
        JP      BDOS

; Prints A with two hexadecimal digits.
HEX2:   PUSH    AF
        RRCA
        RRCA
        RRCA
        RRCA
        CALL    HEX1
        POP     AF
HEX1:   AND     0FH
        ADD     A,90H
        DAA
        ADC     A,40H
        DAA
        LD      E,A
        LD      C,CONOUT
        JP      BDOS

GOOD:   DB      '  good   $'
WRONG:  DB      '  WRONG  $'
LINEEND:
        DB      0DH,0AH,'$'
ALLGOOD:
        DB      'All groups are good.',0DH,0AH,'$'
SOMEBAD:
        DB      'This is no Z80.',0DH,0AH,'$'

BAD:    DB      0               ; the number of groups that were wrong
SUM:    DW      0
ROUTINE:
        DW      0
OLDSP:  DW      0
BVAL:   DB      0,0
FVAL:   DB      0
AVAL:   DB      0               ; after F, as POP AF needs it
        DS      64
STACK:

        END     START
