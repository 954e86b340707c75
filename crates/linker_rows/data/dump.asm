; DUMP prints a file in hexadecimal, for CP/M 2.2 on a Z80.
;
;       DUMP NAME.TYP [FROM]
;
; FROM is the hexadecimal number of the first record that is printed, 0 where
; it is left out. A line holds 16 bytes: where they stand in the file, the
; bytes, and their characters, with a dot for each that does not print. A key
; ends the dump. At the end stands how many bytes there were of each kind, each
; count modulo 65,536.
;
; All long jumps are written as JP: the linker makes those short that reach.

        .Z80
        ORG     0100H

; ---------------------------------------------------------------------------
; Choices

UPPER   EQU     1               ; digits A to F in upper case
BREAKS  EQU     1               ; a key ends the dump
WIDTH   EQU     16              ; bytes in a line

; ---------------------------------------------------------------------------
; The system

BDOS    EQU     0005H           ; where it is called
FCB     EQU     005CH           ; the first word of the command
SECOND  EQU     006CH           ; the second one
BUFFER  EQU     0080H           ; where a record is read to
RECLEN  EQU     128
LINES   EQU     RECLEN/WIDTH

NAME    EQU     1               ; in an FCB: the name
NAMELEN EQU     8
TYPELEN EQU     3
EXTENT  EQU     12              ; the extent
CURREC  EQU     32              ; the record in it

CONIN   EQU     1               ; calls of the system
CONOUT  EQU     2
PRINT   EQU     9
STATUS  EQU     11
OPEN    EQU     15
READ    EQU     20

CR      EQU     0DH
LF      EQU     0AH
FINAL   EQU     '$'             ; ends a text

; ---------------------------------------------------------------------------
; Macros

; Calls the system.
SYS     MACRO   NUMBER
        LD      C,NUMBER
        CALL    SYSTEM
        ENDM

; Prints a text.
SAY     MACRO   TEXT
        LD      DE,TEXT
        SYS     PRINT
        ENDM

; Prints a character.
SHOW    MACRO   CHAR
        LD      A,CHAR
        CALL    PUTCHR
        ENDM

; Prints a count and what it counts, which stands in the midst of the code.
REPORT  MACRO   WHERE,KIND
        LOCAL   TEXT,PAST
        LD      HL,(WHERE)
        CALL    DECOUT
        SAY     TEXT
        JP      PAST
TEXT:   DB      KIND,CR,LF,FINAL
PAST:
        ENDM

; Adds A to HL. A and the flags are lost.
ADDHLA  MACRO
        LOCAL   DONE
        ADD     A,L
        LD      L,A
        JP      NC,DONE
        INC     H
DONE:
        ENDM

; Adds one to the word at HL. HL and the flags are lost.
COUNT   MACRO
        LOCAL   DONE
        INC     (HL)
        JP      NZ,DONE
        INC     HL
        INC     (HL)
DONE:
        ENDM

; A byte's upper digit in the place of its lower one.
SWAP    MACRO
        REPT    4
        RRCA
        ENDM
        ENDM

; A line of a text, with the text's end where LAST is true.
LINE    MACRO   CHARS,LAST
        DB      CHARS
        IF      LAST
        DB      CR,LF,FINAL
        ELSE
        DB      CR,LF
        ENDIF
        ENDM

; ---------------------------------------------------------------------------
; The program

START:  LD      (OLDSP),SP
        LD      SP,STACK
        CALL    OPTION          ; before the file is opened in its place
        JP      C,USAGE
        LD      A,(FCB+NAME)
        CP      ' '
        JP      Z,USAGE
        CALL    OPENIT
        JP      Z,NOFILE
        CALL    HEADER

NEXT:   LD      DE,FCB
        SYS     READ
        OR      A
        JP      NZ,FINISH
        CALL    WANTED
        JP      C,SKIP
        CALL    RECOUT
        IF      BREAKS
        JP      C,BROKEN
        ENDIF
        JP      STEP
SKIP:   LD      DE,RECLEN
        CALL    ADVANCE
STEP:   LD      HL,(RECORD)
        INC     HL
        LD      (RECORD),HL
        JP      NEXT

; A key was pressed.
        IF      BREAKS
BROKEN: SAY     STOPMSG
        JP      EXIT
        ENDIF

; The end of the file.
FINISH: CALL    NEWLINE
        REPORT  TEXTS,' to print'
        REPORT  CTRLS,' control'
        REPORT  HIGHS,' above 7FH'
        SHOW    '='
        LD      HL,(SUM)
        CALL    HEX4
        CALL    NEWLINE

; Back to the system.
EXIT:   LD      SP,(OLDSP)
        RET

USAGE:  SAY     USEMSG
        JP      EXIT

NOFILE: SAY     LOSTMSG
        JP      EXIT

; ---------------------------------------------------------------------------
; Files

; Reads the second word as FROM. Carry: it is no number.
OPTION: LD      HL,0
        LD      DE,SECOND+NAME
        LD      B,NAMELEN
OPTION1:
        LD      A,(DE)
        CP      ' '
        JP      Z,OPTION2
        CALL    DIGIT
        RET     C
        REPT    4
        ADD     HL,HL
        ENDM
        OR      L
        LD      L,A
        INC     DE
        DJNZ    OPTION1
OPTION2:
        LD      (FROM),HL
        OR      A
        RET

; The value of the hexadecimal digit in A. Carry: it is none.
DIGIT:  SUB     '0'
        RET     C
        CP      10
        JP      C,DIGIT1
        SUB     'A'-'0'
        RET     C
        CP      6
        CCF
        RET     C
        ADD     A,10
DIGIT1: OR      A
        RET

; Opens the file. Zero: there is none.
OPENIT: XOR     A
        LD      (FCB+EXTENT),A
        LD      (FCB+CURREC),A
        LD      DE,FCB
        SYS     OPEN
        INC     A
        RET

; Carry: the record stands before FROM.
WANTED: LD      HL,(RECORD)
        LD      DE,(FROM)
        OR      A
        SBC     HL,DE
        RET

; Adds DE to the place in the file. HL is lost.
ADVANCE:
        LD      HL,(PLACE)
        ADD     HL,DE
        LD      (PLACE),HL
        RET     NC
        LD      HL,PLACE+2
        INC     (HL)
        RET

; ---------------------------------------------------------------------------
; Lines

; Prints the name of the file.
HEADER: LD      HL,FCB+NAME
        LD      B,NAMELEN
        CALL    FIELD
        SHOW    '.'
        LD      B,TYPELEN
        CALL    FIELD
        SAY     FROMMSG
        LD      HL,(FROM)
        CALL    HEX4
        CALL    NEWLINE
        JP      NEWLINE

; Prints B characters from HL on, without blanks and attributes.
FIELD:  LD      A,(HL)
        INC     HL
        RES     7,A
        CP      ' '
        JR      Z,FIELD1
        CALL    PUTCHR
FIELD1: DJNZ    FIELD
        RET

; Prints the record. Carry: a key was pressed.
RECOUT: LD      HL,BUFFER
        LD      B,LINES
RECOUT1:
        CALL    LINEOUT
        IF      BREAKS
        CALL    KEY
        RET     C
        ENDIF
        DJNZ    RECOUT1
        RET

; Prints the line of the bytes from HL on, and goes behind them.
LINEOUT:
        PUSH    BC
        PUSH    HL
        LD      A,(PLACE+2)
        CALL    HEX2
        LD      HL,(PLACE)
        CALL    HEX4
        POP     HL
        PUSH    HL
        LD      B,WIDTH
LINE1:  LD      A,B
        AND     WIDTH/2-1       ; a gap before each half
        JP      NZ,LINE2
        SHOW    ' '
LINE2:  SHOW    ' '
        LD      A,(HL)
        CALL    HEX2
        INC     HL
        DJNZ    LINE1
        REPT    2
        SHOW    ' '
        ENDM
        POP     HL
        LD      B,WIDTH
LINE3:  LD      A,(HL)
        CALL    TALLY
        CALL    PRINTED
        CALL    PUTCHR
        INC     HL
        DJNZ    LINE3
        CALL    NEWLINE
        PUSH    HL
        LD      DE,WIDTH
        CALL    ADVANCE
        POP     HL
        POP     BC
        RET

; The character for the byte in A.
PRINTED:
        CP      ' '
        JP      C,PRINTED1
        CP      7FH
        RET     C
PRINTED1:
        LD      A,'.'
        RET

; Counts the byte in A. All registers stay.
TALLY:  PUSH    AF
        PUSH    HL
        PUSH    DE
        LD      E,A
        LD      D,0
        LD      HL,(SUM)
        ADD     HL,DE
        LD      (SUM),HL
        SWAP
        AND     0FH             ; its upper digit
        ADD     A,A
        LD      HL,KINDS
        ADDHLA
        LD      E,(HL)
        INC     HL
        LD      D,(HL)
        EX      DE,HL
        COUNT
        POP     DE
        POP     HL
        POP     AF
        RET

; ---------------------------------------------------------------------------
; Numbers

; Prints HL with four hexadecimal digits.
HEX4:   LD      A,H
        CALL    HEX2
        LD      A,L

; Prints A with two.
HEX2:   PUSH    AF
        SWAP
        CALL    HEX1
        POP     AF

; Prints the lower digit of A.
HEX1:   AND     0FH
        PUSH    HL
        LD      HL,DIGITS
        ADDHLA
        LD      A,(HL)
        POP     HL

; Prints the character in A. All other registers stay.
PUTCHR: PUSH    BC
        PUSH    DE
        LD      E,A
        SYS     CONOUT
        POP     DE
        POP     BC
        RET

; Prints HL in decimal, without zeros before it. A, BC, DE, HL, IX are lost.
DECOUT: LD      IX,POWERS
        LD      B,0             ; '0' behind the first digit
DECOUT1:
        LD      E,(IX)
        LD      D,(IX+1)
        LD      C,'0'-1
DECOUT2:
        INC     C
        OR      A
        SBC     HL,DE
        JR      NC,DECOUT2
        ADD     HL,DE
        LD      A,E
        DEC     A               ; the last digit is always printed
        JP      Z,DECOUT3
        LD      A,C
        SUB     '0'
        OR      B
        JP      Z,DECOUT4
        LD      B,'0'
DECOUT3:
        LD      A,C
        CALL    PUTCHR
DECOUT4:
        INC     IX
        INC     IX
        LD      A,E
        DEC     A
        JP      NZ,DECOUT1
        RET

; ---------------------------------------------------------------------------
; Console

; Carry: a key was pressed; it is read.
KEY:    PUSH    BC
        SYS     STATUS
        OR      A
        JP      Z,KEY1
        SYS     CONIN
        SCF
KEY1:   POP     BC
        RET

; Begins a new line. All registers but A stay.
NEWLINE:
        SHOW    CR
        SHOW    LF
        RET

; Calls the system by C. All registers but A and the flags stay.
SYSTEM: PUSH    BC
        PUSH    DE
        PUSH    HL
        CALL    BDOS
        POP     HL
        POP     DE
        POP     BC
        RET

; ---------------------------------------------------------------------------
; Texts

USEMSG: LINE    'DUMP NAME.TYP [FROM]',0
        LINE    'prints a file, from a record on.',1
LOSTMSG:
        LINE    "There's no such file.",1
STOPMSG:
        LINE    'Stopped.',1
FROMMSG:
        DB      ' from record ',FINAL

; ---------------------------------------------------------------------------
; Tables

        IF      UPPER
DIGITS: DB      '0123456789ABCDEF'
        ELSE
DIGITS: DB      '0123456789abcdef'
        ENDIF

; The powers of ten, the last one 1.
POWERS: DW      10000,1000,100,10,1

; Where a byte is counted, by its upper digit. (7FH counts as one to print.)
KINDS:
        REPT    2
        DW      CTRLS
        ENDM
        REPT    6
        DW      TEXTS
        ENDM
        REPT    8
        DW      HIGHS
        ENDM

; ---------------------------------------------------------------------------
; What changes

RECORD: DW      0               ; the number of the record
FROM:   DW      0               ; the first that is printed
PLACE:  DB      0,0,0           ; where the line stands in the file
CTRLS:  DW      0               ; how many bytes of each kind
TEXTS:  DW      0
HIGHS:  DW      0
SUM:    DW      0               ; the sum of all bytes
OLDSP:  DW      0               ; the system's stack
        DS      2*32,0FFH       ; ours
STACK:

        END     START
