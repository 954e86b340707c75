; What the commands do. Those that return have taken a minute.

        PUBLIC  LOOK,GO,WALK,LIST,TAKE,DROP,POUR,LIGHT,UNLOCK
        PUBLIC  EXAMINE,WAKE,DRINK,WAIT,HELP,QUIT
        EXTRN   NEXT,PRINT,ENDING,NOUN          ; in main.asm
        EXTRN   ROOM,FLAGS,PLACES               ; in disk.asm
        EXTRN   ROOMS,NAMES,SIGHTS              ; in world.asm

; Goes to ROUTINE if D is FIRST and E is SECOND.
ON      MACRO   FIRST,SECOND,ROUTINE
        LD      HL,FIRST*256+SECOND
        OR      A
        SBC     HL,DE
        JP      Z,ROUTINE
        ENDM

; Zero: the flag is not set.
TEST    MACRO   FLAG
        LD      A,(FLAGS)
        BIT     FLAG,A
        ENDM

; Sets a flag and tells of it.
SETS    MACRO   FLAG,TEXT
        LD      HL,FLAGS
        SET     FLAG,(HL)
        TELL    TEXT
        ENDM

; Moves a thing.
MOVE    MACRO   THING,PLACE
        LD      A,PLACE
        LD      (PLACES+THING-1),A
        ENDM

; Prints one of two texts, by a flag.
EITHER  MACRO   FLAG,YES,NO
        LOCAL   SAYIT
        TEST    FLAG
        LD      HL,YES
        JP      NZ,SAYIT
        LD      HL,NO
SAYIT:  CALL    PRINT
        ENDM

; A becomes the place of thing A, and HL the address of that. Zero: it is carried.
PLACEOF:
        LD      E,A
        LD      D,0
        LD      HL,PLACES-1
        ADD     HL,DE
        LD      A,(HL)
        CP      CARRIED
        RET

; Zero: thing A is carried or in the room.
ISHERE: CALL    PLACEOF
        RET     Z
        LD      HL,ROOM
        CP      (HL)
        RET

; Carry: it is dark.
DARK:   LD      A,(ROOM)
        CP      CELLAR
        CCF
        RET     NC
        TEST    LIT
        SCF
        RET     Z
        LD      A,LAMP
        CALL    ISHERE
        SCF
        RET     NZ
        CCF
        RET

; HL becomes word A of the table at HL, from 1 on.
ENTRY:  DEC     A
        ADD     A,A
        LD      E,A
        LD      D,0
        ADD     HL,DE
        LD      E,(HL)
        INC     HL
        LD      D,(HL)
        EX      DE,HL
        RET

; Describes the room and what is in it.
LOOK:   CALL    DARK
        LD      HL,DARKMSG
        JP      C,PRINT
        LD      HL,ROOMS
        LD      A,(ROOM)
        CALL    ENTRY
        LD      DE,6
        ADD     HL,DE           ; the description is after the six exits
        CALL    PRINT
        LD      A,(ROOM)
        CP      YARD
        JP      NZ,LOOK1
        EITHER  OPENED,WIDEMSG,SHUTMSG
LOOK1:  LD      A,(ROOM)
        CP      STAIR
        JP      NZ,LOOK2
        EITHER  LAID,OVERMSG,GAPMSG
LOOK2:  LD      A,(ROOM)
        CP      TOP
        JP      NZ,LOOK3
        EITHER  HASWICK,WICKMSG,NOWICK
        EITHER  HASOIL,OILMSG,NOOIL
LOOK3:  LD      A,GULL
        CALL    ISHERE
        LD      HL,NESTMSG
        CALL    Z,PRINT
        LD      HL,THERE
        LD      (BEFORE),HL
        LD      A,(ROOM)

; Lists the things whose place is A, each after the text at BEFORE.
LISTING:
        LD      C,A
        LD      B,1
LISTING1:
        LD      A,B
        CALL    PLACEOF
        CP      C
        JP      NZ,LISTING3
        LD      HL,(BEFORE)
        CALL    PRINT
        LD      HL,NAMES
        LD      A,B
        CALL    ENTRY
        CALL    PRINT
        LD      A,B
        CP      LAMP
        JP      NZ,LISTING2
        TEST    LIT
        LD      HL,BURNS
        CALL    NZ,PRINT
LISTING2:
        SAY     STOP
LISTING3:
        INC     B
        LD      A,B
        CP      BEACON
        JP      NZ,LISTING1
        RET

LIST:   SAY     HAVE
        LD      HL,INDENT
        LD      (BEFORE),HL
        LD      A,CARRIED
        JP      LISTING

; GO and a direction.
WALK:   LD      A,(NOUN)
        SUB     COMPASS
        LD      L,A
        LD      H,0
        JP      NC,GO
        TELL    WHERE

; Goes in direction L.
GO:     PUSH    HL
        CALL    DARK
        POP     DE
        JP      NC,GO1
        LD      A,E
        CP      UP              ; one finds the stair again, and nothing else
        JP      Z,GO1
        FINISH  FELL
GO1:    PUSH    DE
        LD      HL,ROOMS
        LD      A,(ROOM)
        CALL    ENTRY
        POP     DE
        ADD     HL,DE
        LD      E,(HL)          ; the room there
        LD      A,(ROOM)
        LD      D,A
        ON      YARD,FOOT,THEDOOR
        ON      STAIR,WATCH,THEGAP
GO2:    LD      A,E
        OR      A
        JP      Z,NOWAY
        CP      CARRIED         ; the rail of the gallery
        JP      Z,THERAIL
        LD      (ROOM),A
        JP      LOOK
NOWAY:  TELL    WALL
THEDOOR:
        TEST    OPENED
        JP      NZ,GO2
        TELL    SHUTMSG
THEGAP: TEST    LAID
        JP      NZ,GO2
        FINISH  GAPFALL
THERAIL:
        FINISH  RAILFALL

TAKE:   LD      A,GULL
        CALL    ISHERE
        JP      NZ,TAKE1
        LD      A,(NOUN)
        CP      GULL
        LD      HL,BITES
        JP      Z,PRINT
        CP      WICK            ; she sits on it
        JP      Z,PRINT
TAKE1:  CALL    SEEN
        LD      A,(NOUN)
        CALL    PLACEOF
        LD      HL,HASIT
        JP      Z,PRINT
        LD      A,(NOUN)
        CP      BEACON
        LD      HL,HEAVY
        JP      NC,PRINT
        CALL    PLACEOF
        LD      (HL),CARRIED
        TELL    TAKEN

; Goes to NEXT with a message unless there is a noun, and it is here to be seen.
SEEN:   LD      A,(NOUN)
        OR      A
        JP      Z,SEEN1
        CP      COMPASS
        JP      NC,SEEN1
        CALL    PLACEOF
        RET     Z
        CALL    DARK
        JP      C,SEEN2
        LD      A,(NOUN)
        CALL    ISHERE
        RET     Z
        LD      HL,ABSENT
        JP      SEEN3
SEEN1:  LD      HL,WHAT
        JP      SEEN3
SEEN2:  LD      HL,DARKMSG
SEEN3:  CALL    PRINT
        JP      NEXT

POUR:   LD      A,(ROOM)
        CP      TOP
        LD      HL,SPILLS
        JP      NZ,PRINT
        LD      A,OIL
        LD      (NOUN),A

; Puts a thing down, or to its use.
DROP:   CALL    SEEN
        LD      A,(NOUN)
        CALL    PLACEOF
        LD      HL,HASNOT
        JP      NZ,PRINT
        LD      A,(ROOM)
        LD      E,A
        LD      A,(NOUN)
        LD      D,A
        ON      PLANK,STAIR,LAYPLANK
        ON      HERRING,GALLERY,FEEDGULL
        ON      WICK,TOP,FITWICK
        ON      OIL,TOP,FILLUP
DROP1:  LD      A,(NOUN)
        CALL    PLACEOF
        LD      A,(ROOM)
        LD      (HL),A
        TELL    DROPPED
LAYPLANK:
        MOVE    PLANK,0
        SETS    LAID,OVERMSG
FEEDGULL:
        LD      A,GULL
        CALL    ISHERE
        JP      NZ,DROP1
        MOVE    HERRING,0
        MOVE    GULL,0
        MOVE    WICK,GALLERY
        TELL    GULLGOES
FITWICK:
        MOVE    WICK,0
        SETS    HASWICK,WICKMSG
FILLUP: MOVE    OIL,0
        SETS    HASOIL,OILMSG

LIGHT:  CALL    SEEN
        LD      A,MATCHES
        CALL    PLACEOF
        LD      HL,NOMATCH
        JP      NZ,PRINT
        LD      A,(ROOM)
        CP      TOP
        JP      Z,LIGHT1        ; a lamp is the great one there
        LD      A,(NOUN)
        CP      LAMP
        LD      HL,NOTTHAT
        JP      NZ,PRINT
        SETS    LIT,BURNMSG
LIGHT1: LD      A,(FLAGS)
        AND     1 SHL HASWICK+1 SHL HASOIL
        CP      1 SHL HASWICK+1 SHL HASOIL
        LD      HL,GOESOUT
        JP      NZ,PRINT
        FINISH  WON

UNLOCK: LD      A,DOOR
        LD      (NOUN),A
        CALL    SEEN
        TEST    OPENED
        LD      HL,WIDEMSG
        JP      NZ,PRINT
        LD      A,KEY
        CALL    PLACEOF
        LD      HL,LOCKED
        JP      NZ,PRINT
        SETS    OPENED,WIDEMSG

EXAMINE:
        CALL    SEEN
        LD      HL,SIGHTS
        LD      A,(NOUN)
        CALL    ENTRY
        JP      PRINT

WAKE:   LD      A,KEEPER
        CALL    ISHERE
        LD      HL,SNORES
        JP      Z,PRINT
        TELL    AWAKE

DRINK:  CALL    SEEN
        LD      A,(NOUN)
        CP      TEA
        LD      HL,COLDTEA
        JP      Z,PRINT
        CP      BOTTLE
        LD      HL,NOTTHAT
        JP      NZ,PRINT
        FINISH  DRUNK

WAIT:   TELL    WAITS
HELP:   SAY     HELPMSG
        JP      NEXT
QUIT:   FINISH  BYE

BEFORE: DW      0               ; what LISTING prints before each name

DARKMSG:
        DB      'It is dark. You could break your neck here. Something drips.',LF,0
WIDEMSG:
        DB      'The door of the tower is open.',LF,0
SHUTMSG:
        DB      'The door of the tower is locked.',LF,0
GAPMSG: DB      'Three steps are gone. You could jump up, or you could be sensible.',LF,0
OVERMSG:
        DB      'A plank lies over the gap. It bends, but it holds.',LF,0
WICKMSG:
        DB      'The wick sits in its holder.',LF,0
NOWICK: DB      'It has no wick.',LF,0
OILMSG: DB      'The tank is full of oil.',LF,0
NOOIL:  DB      'Its tank is empty.',LF,0
NESTMSG:
        DB      'A large gull sits on her nest and looks at you as at a dinner that',LF
        DB      'is late. A bit of wick hangs out of the nest.',LF,0
THERE:  DB      'There is ',0
HAVE:   DB      'You have:',LF,'  good intentions.',LF,0
INDENT: DB      '  ',0
BURNS:  DB      ', burning',0
STOP:   DB      '.',LF,0
WHERE:  DB      'Where to?',LF,0
WALL:   DB      'You cannot go that way.',LF,0
FELL:   DB      'You feel your way through the dark. There is a floor, a floor, a',LF
        DB      'floor, and then there is a well. You have lost.',LF,0
GAPFALL:
        DB      'You jump. It is a fine jump, and two steps too short. The way down',LF
        DB      'is quicker than the way up was. You have lost.',LF,0
RAILFALL:
        DB      'You lean on the rail. The rail has waited for this since 1911. The',LF
        DB      'gull watches you pass. You have lost.',LF,0
WHAT:   DB      'What exactly?',LF,0
ABSENT: DB      'You see no such thing here.',LF,0
HASIT:  DB      'You have it already.',LF,0
HASNOT: DB      'You do not have it.',LF,0
BITES:  DB      'The gull bites you. She does it well.',LF,0
HEAVY:  DB      'It stays where it is.',LF,0
TAKEN:  DB      'Taken.',LF,0
DROPPED:
        DB      'It lies there now.',LF,0
SPILLS: DB      'Not here. Oil is easier to spill than to wipe up.',LF,0
GULLGOES:
        DB      'The gull takes the herring out of the air and leaves with it. She',LF
        DB      'does not thank you. In the nest is a wick, hardly pecked.',LF,0
NOMATCH:
        DB      'You have nothing to light it with.',LF,0
NOTTHAT:
        DB      'That would not help anybody.',LF,0
GOESOUT:
        DB      'You hold a match to it. It goes out: a lamp needs oil and a wick.',LF,0
BURNMSG:
        DB      'The lamp burns. You can see your own hands, and they are dirty.',LF,0
LOCKED: DB      'It is locked, and it is thicker than you are. It needs a key.',LF,0
SNORES: DB      'The keeper says: "A herring, she wants a herring." He snores on.',LF,0
AWAKE:  DB      'Everybody here is awake. It is you.',LF,0
COLDTEA:
        DB      'It is cold, with three sugars. You feel braver by one sugar.',LF,0
DRUNK:  DB      'You sit down next to the keeper for one small sip. When you wake up',LF
        DB      'it is noon, and there are planks on the beach that were a ship. You',LF
        DB      'have lost.',LF,0
WAITS:  DB      'Time passes. It was not yours alone.',LF,0
HELPMSG:
        DB      'NORTH, SOUTH, EAST, WEST, UP and DOWN, or their first letters, to go.',LF
        DB      'LOOK, INVENTORY, TAKE, DROP, PUT, EXAMINE, READ, LIGHT, OPEN, POUR,',LF
        DB      'GIVE, DRINK, WAKE, WAIT, and more. SAVE, LOAD and QUIT take no time.',LF,0
WON:    DB      'The wick catches. The glass fills with light, and the light goes out',LF
        DB      'over the sea, round and round. Out there a ship turns, slowly, and',LF
        DB      'then she sounds her horn three times. That is for you. You have won.',LF,0
BYE:    DB      'The light stays out, for now.',LF,0
