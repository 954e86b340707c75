; The file.

        PUBLIC  LOAD,SAVE
        EXTRN   NOTE                                    ; in screen.asm
        EXTRN   EMPTY,APPEND,REWIND,FIRST,FETCH         ; in text.asm

; The functions of the system, and fields of an FCB.
OPEN    EQU     15
CLOSE   EQU     16
SEARCH  EQU     17
ERASE   EQU     19
READ    EQU     20
WRITE   EQU     21
MAKE    EQU     22
RENAME  EQU     23
SETDMA  EQU     26
TYPE    EQU     9               ; bit 7: read-only
EXTENT  EQU     12
NEWNAME EQU     16
CURREC  EQU     32
FCBLEN  EQU     33
NAMELEN EQU     11

; Calls function NUMBER of the system with an address in DE.
SYS     MACRO   NUMBER,WHERE
        LD      DE,WHERE
        LD      C,NUMBER
        CALL    BDOS
        ENDM

; Ends the program with a message.
REFUSE  MACRO   TEXT
        LD      DE,TEXT
        JP      STOP
        ENDM

; Reads the file into the empty text, or ends the program.
LOAD:   CALL    EMPTY
        LD      A,(FCB+1)
        CP      ' '
        JP      Z,USAGE
        LD      A,(FCB+TYPE)
        CP      '$'
        JP      Z,USAGE         ; SAVE uses such a name itself
        LD      HL,FCB+1
        LD      BC,NAMELEN
        LD      A,'?'
        CPIR
        JP      Z,USAGE
        XOR     A
        LD      (FCB+EXTENT),A
        LD      (FCB+CURREC),A
        SYS     SETDMA,RECORD
        SYS     SEARCH,FCB
        INC     A
        JP      Z,NEW
        DEC     A
        RRCA
        RRCA
        RRCA                    ; an entry of the directory has 32 bytes
        ADD     A,RECORD+TYPE
        LD      L,A
        LD      H,0
        BIT     7,(HL)
        JP      NZ,LOCKED
        SYS     OPEN,FCB
LOAD1:  SYS     READ,FCB
        OR      A
        JP      NZ,REWIND
        LD      HL,RECORD
        LD      B,RECLEN
LOAD2:  LD      A,(HL)
        CP      FINAL
        JP      Z,REWIND
        PUSH    HL
        CALL    APPEND
        POP     HL
        JP      C,LARGE
        INC     HL
        DJNZ    LOAD2
        JP      LOAD1
NEW:    TELL    NEWMSG
        RET
USAGE:  REFUSE  USEMSG
LOCKED: REFUSE  LOCKMSG
LARGE:  REFUSE  BIGMSG
STOP:   LD      C,PRINT
        CALL    BDOS
        JP      BOOT

; Writes the text to a new file with the type $$$, and only then erases the old
; file and gives the new one its name. Carry: it was not saved, and the old file
; is as it was.
SAVE:   LD      HL,FCB
        LD      DE,TEMP
        LD      BC,TYPE
        LDIR
        XOR     A
        LD      (TEMP+EXTENT),A
        LD      (TEMP+CURREC),A
        LD      (COUNT),A
        SYS     ERASE,TEMP
        SYS     MAKE,TEMP
        INC     A
        JP      Z,NODIR
        CALL    FIRST
SAVE1:  CALL    FETCH
        CP      FINAL
        JP      Z,SAVE3
        CP      LF
        JP      NZ,SAVE2
        LD      A,CR
        CALL    WRITEBYTE
        LD      A,LF
SAVE2:  CALL    WRITEBYTE
        JP      SAVE1
SAVE3:  LD      A,(COUNT)
        OR      A
        JP      Z,SAVE4
        LD      A,FINAL         ; fills the last record up
        CALL    WRITEBYTE
        JP      SAVE3
SAVE4:  SYS     CLOSE,TEMP
        INC     A
        JP      Z,NODIR
        SYS     ERASE,FCB
        LD      HL,FCB+1
        LD      DE,TEMP+NEWNAME+1
        LD      BC,NAMELEN
        LDIR
        XOR     A
        LD      (TEMP+NEWNAME),A
        SYS     RENAME,TEMP
        TELL    SAVED
        OR      A
        RET

; Writes the byte in A. Keeps HL. If there is no room on the disk, returns from
; SAVE.
WRITEBYTE:
        PUSH    HL
        LD      C,A
        LD      A,(COUNT)
        ADD     A,RECORD
        LD      L,A
        LD      H,0
        LD      (HL),C
        SUB     RECORD-1
        LD      (COUNT),A
        CP      RECLEN
        JP      C,WRITE1
        SYS     WRITE,TEMP
        OR      A
        JP      NZ,NOROOM
        LD      (COUNT),A
WRITE1: POP     HL
        RET

NOROOM: POP     HL
        POP     HL              ; the return to SAVE
        SYS     ERASE,TEMP
        TELL    FULLMSG
        SCF
        RET
NODIR:  TELL    DIRMSG
        SCF
        RET

USEMSG: DB      'EDITOR NAME.TXT edits a text. No ? in it, and no dollar in the type.'
        DB      CR,LF,'$'
LOCKMSG:
        DB      'The file is read-only.',CR,LF,'$'
BIGMSG: DB      'The text is too large for the memory.',CR,LF,'$'
NEWMSG: DB      'A new file',0
SAVED:  DB      'Saved',0
FULLMSG:
        DB      'The disk is full. Nothing was saved.',0
DIRMSG: DB      'The directory is full. Nothing saved.',0

COUNT:  DB      0               ; how many bytes of the record are written
TEMP:   DB      0,'        $$$'
        DS      FCBLEN-12
