; LINES copies a text file and numbers its lines.
;
;       LINES FROM.TXT TO.TXT
;
; A text ends at 1AH or at the end of its file. If TO.TXT exists, it is replaced.
; Its last record is filled up with 1AH.

        ORG     0100H

BOOT    EQU     0000H
BDOS    EQU     0005H
FROM    EQU     005CH           ; the FCB of the first word of the command line
SECOND  EQU     006CH           ; the one of the second word, drive and name only
INBUF   EQU     0080H
RECLEN  EQU     128
NAMELEN EQU     12              ; drive, name and type

EXTENT  EQU     12              ; in an FCB
CURREC  EQU     32
FCBLEN  EQU     33

CONOUT  EQU     2
PRINT   EQU     9
OPEN    EQU     15
CLOSE   EQU     16
ERASE   EQU     19
READ    EQU     20
WRITE   EQU     21
MAKE    EQU     22
BUFFER  EQU     26

LF      EQU     0AH
FINAL   EQU     1AH

; Calls function NUMBER of the system with an address in DE.
SYS     MACRO   NUMBER,WHERE
        LD      DE,WHERE
        LD      C,NUMBER
        CALL    BDOS
        ENDM

START:  LD      SP,STACK
        LD      A,(FROM+1)
        CP      ' '
        JP      Z,USAGE
        LD      HL,SECOND
        LD      DE,TO
        LD      BC,NAMELEN
        LDIR
        LD      A,(TO+1)
        CP      ' '
        JP      Z,USAGE
        CALL    SAME
        JP      Z,USAGE

        XOR     A
        LD      (FROM+EXTENT),A
        LD      (FROM+CURREC),A
        SYS     OPEN,FROM
        INC     A
        JP      Z,NOFILE
        SYS     ERASE,TO
        SYS     MAKE,TO
        INC     A
        JP      Z,NOROOM

LINE:   CALL    GET
        JP      C,FINISH
        PUSH    AF
        CALL    COUNT
        POP     AF
BYTE:   CALL    PUT
        CP      LF
        JP      Z,LINE
        CALL    GET
        JP      NC,BYTE

; The end of the text: fills the last record up.
FINISH: LD      A,(OUTPOS)
        OR      A
        JP      Z,CLOSED
        LD      A,FINAL
        CALL    PUT
        JP      FINISH
CLOSED: SYS     CLOSE,TO
        LD      HL,NUMBER
        LD      B,DIGITS
SHOW:   LD      E,(HL)
        PUSH    BC
        PUSH    HL
        LD      C,CONOUT
        CALL    BDOS
        POP     HL
        POP     BC
        INC     HL
        DJNZ    SHOW
        LD      DE,DONE
        JP      ENDING

NOFILE: LD      DE,LOST
        JP      ENDING
NOROOM: LD      DE,FULL
        JP      ENDING
USAGE:  LD      DE,USEMSG

; Prints the string at DE and ends the program.
ENDING: LD      C,PRINT
        CALL    BDOS
        JP      BOOT

; Zero: both names are equal.
SAME:   LD      HL,FROM
        LD      DE,TO
        LD      B,NAMELEN
SAME1:  LD      A,(DE)
        CP      (HL)
        RET     NZ
        INC     HL
        INC     DE
        DJNZ    SAME1
        RET

; Reads the next byte of the text to A. Carry: the text is at its end.
GET:    LD      A,(INPOS)
        CP      RECLEN
        JP      C,GET1
        SYS     BUFFER,INBUF
        SYS     READ,FROM
        OR      A
        SCF
        RET     NZ
GET1:   LD      C,A
        INC     A
        LD      (INPOS),A
        LD      B,0
        LD      HL,INBUF
        ADD     HL,BC
        LD      A,(HL)
        CP      FINAL
        SCF
        RET     Z
        OR      A
        RET

; Writes the byte in A. Keeps A.
PUT:    PUSH    AF
        LD      C,A
        LD      A,(OUTPOS)
        LD      E,A
        LD      D,0
        LD      HL,OUTBUF
        ADD     HL,DE
        LD      (HL),C
        INC     A
        CP      RECLEN
        JP      NZ,PUT1
        SYS     BUFFER,OUTBUF
        SYS     WRITE,TO
        OR      A
        JP      NZ,NOROOM
PUT1:   LD      (OUTPOS),A
        POP     AF
        RET

; Counts a line, and writes its number and two spaces.
COUNT:  LD      HL,NUMBER+DIGITS-1
        LD      B,DIGITS
COUNT1: LD      A,(HL)
        CP      ' '
        JP      NZ,COUNT2
        LD      A,'0'
COUNT2: INC     A
        LD      (HL),A
        CP      '9'+1
        JP      C,COUNT3
        LD      (HL),'0'
        DEC     HL
        DJNZ    COUNT1
COUNT3: LD      HL,NUMBER
        LD      B,DIGITS+2
COUNT4: LD      A,(HL)
        INC     HL
        PUSH    BC
        PUSH    HL
        CALL    PUT
        POP     HL
        POP     BC
        DJNZ    COUNT4
        RET

NUMBER: DB      '    '
        DB      '0'
DIGITS  EQU     $-NUMBER
        DB      '  '

DONE:   DB      ' lines',0DH,0AH,'$'
LOST:   DB      'There is no such file.',0DH,0AH,'$'
FULL:   DB      'The disk is full.',0DH,0AH,'$'
USEMSG: DB      'LINES FROM.TXT TO.TXT copies a text and numbers its lines.'
        DB      0DH,0AH,'$'

INPOS:  DB      RECLEN          ; where the next byte is read
OUTPOS: DB      0               ; where the next byte is written
TO:     DS      FCBLEN
OUTBUF: DS      RECLEN
        DS      64
STACK:

        END     START
