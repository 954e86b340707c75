; ADVENTURE is a game: the light at Gull Rock is out, and a ship is coming.
;
; It reads commands of one or two words, such as NORTH or TAKE LAMP; the first four
; letters of a word count. SAVE writes the game to SAVE.DAT on drive A, and LOAD
; reads it again. The prompt is the time: each command takes a minute, except SAVE,
; LOAD, HELP and QUIT.
;
; Four sources: this one, which comes first, reads and prints; rules.asm has what
; the commands do, disk.asm saves and loads, and world.asm has the rooms, things
; and words. They share world.inc.

        ORG     0100H
        PUBLIC  NEXT,PRINT,ENDING,NOUN
        EXTRN   LOOK,GO         ; in rules.asm
        EXTRN   VERBS,NOUNS     ; in world.asm
        EXTRN   MINUTES         ; in disk.asm

CONOUT  EQU     2
READLN  EQU     10
LENGTH  EQU     60              ; of a line that is typed
CR      EQU     0DH

START:  LD      SP,STACK
        SAY     INTRO
        CALL    LOOK

; Prints the time, reads a line and obeys it.
NEXT:   LD      SP,STACK
        CALL    CLOCK
        LD      DE,LINE
        LD      C,READLN
        CALL    BDOS
        LD      A,LF            ; the system has printed a CR
        CALL    PUTCHR
        LD      HL,LINE+1
        LD      E,(HL)
        LD      D,0
        INC     HL
        LD      (REST),HL
        ADD     HL,DE
        LD      (HL),D          ; a 0 after the last character
        CALL    GETWORD
        JP      Z,NEXT
        LD      HL,VERBS
        CALL    FIND
        JP      C,NOVERB
        PUSH    DE

; The noun is the first word that is one: TAKE THE OLD LAMP is TAKE LAMP.
        LD      BC,0            ; B: words that are not
NOUN1:  PUSH    BC
        CALL    GETWORD
        LD      HL,NOUNS
        CALL    NZ,FIND
        POP     BC
        JP      Z,NOUN2
        INC     B
        JP      C,NOUN1
        LD      B,0
        LD      C,E
NOUN2:  LD      A,C
        LD      (NOUN),A
        POP     HL
        LD      A,B
        OR      A
        JP      NZ,NONOUN
        CALL    OBEY

; A command that took no minute has gone to NEXT.
        LD      HL,MINUTES
        INC     (HL)
        LD      A,(HL)
        LD      HL,HORN1
        CP      45
        CALL    Z,PRINT
        LD      HL,HORN2
        CP      75
        CALL    Z,PRINT
        CP      90
        JP      NZ,NEXT
        FINISH  MIDNIGHT
NOVERB: SAY     VERBMSG
        JP      NEXT
NONOUN: SAY     NOUNMSG
        JP      NEXT

; Does what HL says: goes in a direction, or to a routine.
OBEY:   LD      A,H
        OR      A
        JP      Z,GO
        JP      (HL)

; Reads the next word of the line to WORD: four letters, in upper case, with spaces
; after a shorter one. Zero: there is none.
GETWORD:
        LD      HL,' '*256+' '
        LD      (WORD),HL
        LD      (WORD+2),HL
        LD      HL,(REST)
        CALL    SPACES
        LD      DE,WORD
        LD      B,4
GETWORD1:
        LD      A,(HL)
        CP      ' '+1
        JP      C,GETWORD3
        INC     HL
        CP      'a'
        JP      C,GETWORD2
        CP      'z'+1
        JP      NC,GETWORD2
        SUB     20H
GETWORD2:
        INC     B
        DEC     B
        JP      Z,GETWORD1      ; only four count
        LD      (DE),A
        INC     DE
        DEC     B
        JP      GETWORD1
GETWORD3:
        LD      (REST),HL
        LD      A,B
        CP      4
        RET

; Moves HL over spaces and tabs.
SPACES: LD      A,(HL)
        OR      A
        RET     Z
        CP      ' '+1
        RET     NC
        INC     HL
        JP      SPACES

; Finds WORD in the table at HL: DE becomes its value. Carry: it is not there.
; Not zero.
FIND:   LD      DE,WORD
        LD      B,4
        LD      C,0
FIND1:  LD      A,(DE)
        SUB     (HL)
        OR      C
        LD      C,A             ; 0 while all are equal
        INC     DE
        INC     HL
        DJNZ    FIND1
        LD      E,(HL)
        INC     HL
        LD      D,(HL)
        INC     HL
        OR      A
        JP      Z,FIND2
        LD      A,(HL)
        OR      A
        JP      NZ,FIND
        INC     A
        SCF
        RET
FIND2:  INC     A
        RET

; Prints the time.
CLOCK:  SAY     NEWLINE
        LD      A,(MINUTES)
        ADD     A,30
        LD      BC,'0'*256+'0'-1
        CP      60
        JP      C,CLOCK1
        SUB     60
        INC     B
CLOCK1: INC     C
        SUB     10
        JP      NC,CLOCK1
        ADD     A,10+'0'
        LD      HL,TIME+1
        LD      (HL),B
        INC     HL
        INC     HL
        LD      (HL),C
        INC     HL
        LD      (HL),A
        LD      HL,TIME

; Prints the text at HL, which ends with 0. Keeps A and BC.
PRINT:  PUSH    AF
        PUSH    BC
PRINT1: LD      A,(HL)
        OR      A
        JP      Z,PRINT3
        CP      LF
        JP      NZ,PRINT2
        LD      A,CR
        CALL    PUTCHR
        LD      A,LF
PRINT2: CALL    PUTCHR
        INC     HL
        JP      PRINT1
PRINT3: POP     BC
        POP     AF
        RET

; Prints the character in A. Keeps HL.
PUTCHR: PUSH    HL
        LD      E,A
        LD      C,CONOUT
        CALL    BDOS
        POP     HL
        RET

; Prints the text at HL and ends the game.
ENDING: CALL    PRINT
        JP      BOOT

INTRO:  DB      'THE LIGHT AT GULL ROCK',LF,LF
        DB      'It is half past ten at night, and the light is out. At midnight',LF
        DB      'the Meridian comes by with ninety people, and she steers by that',LF
        DB      'light. The boatman has put you ashore and has not stayed to ask',LF
        DB      'questions. HELP tells you what you can type.',LF,LF,0
HORN1:  DB      LF,'Far out at sea a ship sounds her horn.',LF,0
HORN2:  DB      LF,'The horn again. She is close now, and you can hear her engine.',LF,0
MIDNIGHT:
        DB      LF,'Midnight. The Meridian is on time, as always, and where she has',LF
        DB      'never been before: on the rocks below you. You have lost.',LF,0
VERBMSG:
        DB      'You do not know how to do that. HELP may help.',LF,0
NOUNMSG:
        DB      'You look around for it, but there is no such thing.',LF,0
NEWLINE:
        DB      LF,0
TIME:   DB      '10:30> ',0

REST:   DW      0               ; where the next word of the line is
NOUN:   DB      0               ; the thing that the command is about, or 0
WORD:   DS      4
LINE:   DB      LENGTH,0
        DS      LENGTH+1        ; one more for the 0 after the line
        DS      64
STACK:

        END     START
