; SIEVE prints the primes below a limit, ten a line, and then their number.
;
;       SIEVE [LIMIT]
;
; LIMIT is a decimal number up to 32000. The default is 1000.
;
; All jumps but DJNZ are written as JP. The linker makes them JR if their target
; is near. Three jumps to USAGE and FINISH keep three bytes: these labels are too
; far away.

        ORG     0100H

BOOT    EQU     0000H
BDOS    EQU     0005H
NAME    EQU     005DH           ; the first word of the command line, eight bytes
CONOUT  EQU     2
PRINT   EQU     9
MOST    EQU     32000           ; the greatest limit
COLUMNS EQU     10

; Prints a string.
SAY     MACRO   TEXT
        LD      DE,TEXT
        LD      C,PRINT
        CALL    BDOS
        ENDM

START:  LD      SP,STACK
        CALL    GETLIM
        JP      C,USAGE
        LD      (LIMIT),DE
        LD      HL,FLAGS
        ADD     HL,DE
        LD      (FINAL),HL      ; the address after the last flag

; A flag for each number: 0 means not struck out, 1 struck out.
        LD      HL,FLAGS
        LD      DE,FLAGS+1
        LD      BC,(LIMIT)
        INC     BC
        LD      (HL),0
        LDIR

        LD      DE,2
NEXT:   LD      HL,(LIMIT)
        OR      A
        SBC     HL,DE
        JP      C,FINISH
        JP      Z,FINISH
        LD      HL,FLAGS
        ADD     HL,DE
        LD      A,(HL)
        OR      A
        JP      NZ,STEP
        PUSH    HL
        CALL    SHOW
        POP     HL

; Strikes out the multiples of the prime in DE.
STRIKE: ADD     HL,DE
        PUSH    HL
        LD      BC,(FINAL)
        OR      A
        SBC     HL,BC
        POP     HL
        JP      NC,STEP
        LD      (HL),1
        JP      STRIKE
STEP:   INC     DE
        JP      NEXT

; Prints and counts the prime in DE. Keeps DE.
SHOW:   LD      HL,(HOWMANY)
        INC     HL
        LD      (HOWMANY),HL
        LD      H,D
        LD      L,E
        PUSH    DE
        CALL    DECIMAL
        LD      HL,COLUMN
        DEC     (HL)
        JP      NZ,SHOW1
        LD      (HL),COLUMNS
        CALL    NEWLINE
SHOW1:  POP     DE
        RET

; Reads the limit from the command line to DE. Carry: it is not such a number.
GETLIM: LD      HL,NAME
        LD      DE,1000
        LD      A,(HL)
        CP      ' '
        RET     Z
        LD      DE,0
        LD      B,8
GETLIM1:
        LD      A,(HL)
        INC     HL
        CP      ' '
        JP      Z,GETLIM2
        SUB     '0'
        RET     C
        CP      10
        CCF
        RET     C
        PUSH    HL
        LD      HL,MOST/10
        OR      A
        SBC     HL,DE
        POP     HL
        RET     C
        PUSH    HL
        LD      H,D
        LD      L,E
        ADD     HL,HL
        ADD     HL,HL
        ADD     HL,DE
        ADD     HL,HL           ; ten times
        LD      E,A
        LD      D,0
        ADD     HL,DE
        EX      DE,HL
        POP     HL
        DJNZ    GETLIM1
GETLIM2:
        LD      HL,MOST
        OR      A
        SBC     HL,DE
        RET

; Prints HL in six columns.
DECIMAL:
        LD      A,' '
        CALL    PUTCHR
        LD      IX,POWERS
        LD      C,' '           ; printed instead of a leading zero
        LD      B,5
DECIMAL1:
        LD      E,(IX)
        LD      D,(IX+1)
        LD      A,'0'-1
DECIMAL2:
        INC     A
        OR      A
        SBC     HL,DE
        JP      NC,DECIMAL2
        ADD     HL,DE
        CP      '0'
        JP      NZ,DECIMAL3
        LD      A,B
        DEC     A
        LD      A,'0'
        JP      Z,DECIMAL4      ; the last digit is always printed
        LD      A,C
        JP      DECIMAL4
DECIMAL3:
        LD      C,'0'
DECIMAL4:
        CALL    PUTCHR
        INC     IX
        INC     IX
        DJNZ    DECIMAL1
        RET

NEWLINE:
        LD      A,0DH
        CALL    PUTCHR
        LD      A,0AH

; Prints the character in A. Keeps all registers.
PUTCHR: PUSH    AF
        PUSH    BC
        PUSH    DE
        PUSH    HL
        LD      E,A
        LD      C,CONOUT
        CALL    BDOS
        POP     HL
        POP     DE
        POP     BC
        POP     AF
        RET

FINISH: LD      A,(COLUMN)
        CP      COLUMNS
        CALL    NZ,NEWLINE
        LD      HL,(HOWMANY)
        CALL    DECIMAL
        SAY     BELOW
        LD      HL,(LIMIT)
        CALL    DECIMAL
        CALL    NEWLINE
        JP      BOOT

USAGE:  SAY     USEMSG
        JP      BOOT

BELOW:  DB      ' primes below$'
USEMSG: DB      'SIEVE [LIMIT] prints the primes below LIMIT, '
        DB      'which is 32000 at most.',0DH,0AH,'$'

POWERS: DW      10000,1000,100,10,1

COLUMN: DB      COLUMNS         ; columns left in the line
HOWMANY:
        DW      0
LIMIT:  DW      0
FINAL:  DW      0
        DS      64
STACK:
FLAGS:                          ; the flags are in the memory after the program

        END     START
