; The state of the game, and its file.

        PUBLIC  SAVE,LOAD
        PUBLIC  ROOM,MINUTES,FLAGS,PLACES
        EXTRN   NEXT,PRINT      ; in main.asm
        EXTRN   LOOK            ; in rules.asm

RECORD  EQU     0080H           ; where the system reads and writes records
OPEN    EQU     15
CLOSE   EQU     16
READ    EQU     20
WRITE   EQU     21
MAKE    EQU     22

; Calls function NUMBER of the system with the FCB. Zero: A is ANSWER.
SYS     MACRO   NUMBER,ANSWER
        LD      DE,FCB
        LD      C,NUMBER
        CALL    BDOS
        CP      ANSWER
        ENDM

; Writes over the file of an earlier game: a full disk has room for that.
SAVE:   CALL    SUM
        LD      (CHECK),A
        LD      HL,STATE
        LD      DE,RECORD
        LD      BC,SIZE
        LDIR
        CALL    BEGIN
        SYS     OPEN,0FFH
        JP      NZ,SAVE1
        CALL    BEGIN
        SYS     MAKE,0FFH
        JP      Z,FULL
SAVE1:  SYS     WRITE,0
        JP      NZ,FULL
        SYS     CLOSE,0FFH
        JP      Z,FULL
        SAY     SAVED
        JP      NEXT
FULL:   SAY     FULLMSG
        JP      NEXT

; Reads a game, if it is one that SAVE wrote.
LOAD:   CALL    BEGIN
        SYS     OPEN,0FFH
        JP      Z,NONE
        SYS     READ,0
        JP      NZ,NONE
        LD      HL,RECORD
        LD      DE,STATE
        LD      B,MARKLEN
LOAD1:  LD      A,(DE)
        CP      (HL)
        JP      NZ,NONE
        INC     HL
        INC     DE
        DJNZ    LOAD1
        LD      HL,RECORD
        CALL    SUMHL
        CP      (HL)
        JP      NZ,NONE
        LD      HL,RECORD
        LD      DE,STATE
        LD      BC,SIZE
        LDIR
        SAY     LOADED
        CALL    LOOK
        JP      NEXT
NONE:   SAY     NONEMSG
        JP      NEXT

BEGIN:  LD      HL,EXTENT
        LD      B,21
BEGIN1: LD      (HL),0
        INC     HL
        DJNZ    BEGIN1
        RET

; A becomes the sum of the state at HL, whose last byte is not counted. HL becomes
; the address of that byte.
SUM:    LD      HL,STATE
SUMHL:  LD      B,SIZE-1
        XOR     A
SUM1:   ADD     A,(HL)
        INC     HL
        DJNZ    SUM1
        RET

SAVED:  DB      'Saved.',LF,0
LOADED: DB      'You remember it well.',LF,LF,0
FULLMSG:
        DB      'The disk is full: the game is not saved.',LF,0
NONEMSG:
        DB      'There is no saved game on this disk.',LF,0

FCB:    DB      1,'SAVE    DAT' ; drive A
EXTENT: DS      21

STATE:  DB      'Gull Rock 1'
MARKLEN EQU     $-STATE
ROOM:   DB      JETTY
MINUTES:
        DB      0               ; since half past ten
FLAGS:  DB      0
PLACES: DB      KITCHEN,BEDROOM,CAVE,CELLAR,SHED        ; LAMP to PLANK
        DB      BEDROOM,BEACH,0,CAVE                    ; LOGBOOK to BOTTLE
        DB      TOP,YARD,GALLERY,CAVE,KITCHEN,STAIR     ; BEACON to GAP
CHECK:  DB      0
SIZE    EQU     $-STATE
