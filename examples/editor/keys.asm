; The keyboard. Only function 6 gives each key to the program: function 11 keeps
; ^S for itself, and function 1 prints.

        PUBLIC  COMMAND,WAITING

; Waits for a command and returns it in A: a character, or what a key means after
; ^K (80H is added) or ^Q (0A0H is added).
COMMAND:
        CALL    KEY
COMMAND1:
        CP      80H
        JP      NC,OTHER        ; not ASCII
        CP      ESC
        JP      Z,SEQUENCE
        LD      C,80H
        CP      'K'-40H
        JP      Z,SECOND
        LD      C,0A0H
        CP      'Q'-40H
        RET     NZ
SECOND: PUSH    BC
        CALL    KEY
        POP     BC
        AND     1FH             ; ^D, D and d are the same
        OR      C
        RET

; A key of an ANSI terminal sends ESC, [ or O, and bytes below 40H up to a last one
; that is not. The first of these bytes tells which key it is.
SEQUENCE:
        CALL    KEY
        CP      'O'
        JP      Z,SEQUENCE1
        CP      '['
        JP      NZ,COMMAND1
SEQUENCE1:
        CALL    KEY
        LD      C,A
        CP      40H
        JP      NC,SEQUENCE3
        PUSH    BC
        CALL    KEY
        POP     BC
        CP      '~'
        JP      Z,SEQUENCE3
SEQUENCE2:
        CP      40H             ; a longer one: none of the table
        JP      NC,OTHER
        CALL    KEY
        JP      SEQUENCE2
SEQUENCE3:
        LD      HL,ANSI
SEQUENCE4:
        LD      A,(HL)
        INC     HL
        OR      A
        JP      Z,OTHER
        CP      C
        LD      A,(HL)
        INC     HL
        JP      NZ,SEQUENCE4
        RET
OTHER:  LD      A,0FFH          ; no command
        RET

; Up, down, right, left, Home, End, Delete, Page Up and Page Down.
ANSI:   DB      'A','E'-40H,'B','X'-40H,'C','D'-40H,'D','S'-40H
        DB      'H',0B3H,'1',0B3H,'F',0A4H,'4',0A4H
        DB      '3','G'-40H,'5','R'-40H,'6','C'-40H,0

; Waits for a key and returns it in A.
KEY:    CALL    WAITING
        JP      Z,KEY
        LD      HL,HELD
        LD      (HL),0
        RET

; Not zero: a key has come. A is the key, which KEY will return.
WAITING:
        LD      A,(HELD)
        OR      A
        RET     NZ
        LD      E,0FFH
        LD      C,DIRECT
        CALL    BDOS
        LD      (HELD),A
        OR      A
        RET

HELD:   DB      0               ; a key that has come, or 0
