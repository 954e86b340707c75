; EDITOR edits a text on the screen of an ADM-3A, a Kaypro or an Osborne 1, or
; with VT52=1 on that of a VT52 or an H19.
;
;       EDITOR NAME.TXT
;
; The keys are those of WordStar:
;
;       ^E ^X ^S ^D     up, down, left, right
;       ^R ^C           a page up, a page down
;       ^Q^S ^Q^D       to the start of the line, to its end
;       ^Q^R ^Q^C       to the start of the text, to its end
;       BACKSPACE DEL   take out the character before the cursor
;       ^G ^Y           take out the one at the cursor, the whole line
;       ^K^D            saves the text and ends
;       ^K^S            saves the text
;       ^K^Q            ends without saving
;
; After ^Q and ^K a letter does as well. The keys for these movements on today's
; terminals work, too.
;
; Five sources, which share editor.inc: this one, which comes first, keys.asm,
; screen.asm, files.asm, and text.asm, which comes last, since the text is in the
; memory after it.

        ORG     0100H
        EXTRN   COMMAND                                 ; in keys.asm
        EXTRN   CLEAR,REFRESH,PAGEUP,PAGEDN,NOTE        ; in screen.asm
        EXTRN   LOAD,SAVE                               ; in files.asm
        EXTRN   INSERT,DELETE,RUBOUT,LEFT,RIGHT         ; in text.asm
        EXTRN   HOME,LINEEND,UP,DOWN,REWIND

; An entry of the table of commands.
ON      MACRO   KEY,ROUTINE
        DB      KEY
        DW      ROUTINE
        ENDM

START:  LD      SP,STACK
        CALL    LOAD
        CALL    CLEAR
NEXT:   CALL    REFRESH
        CALL    COMMAND
        CALL    OBEY
        JP      NEXT

; Does what the command in A says.
OBEY:   LD      HL,TABLE
OBEY1:  LD      C,(HL)
        INC     HL
        LD      E,(HL)
        INC     HL
        LD      D,(HL)
        INC     HL
        CP      C
        JP      Z,OBEY2
        INC     C
        DEC     C
        JP      NZ,OBEY1
        CP      ' '
        RET     C
        CP      7FH
        RET     NC
        JP      TYPE
OBEY2:  EX      DE,HL
        JP      (HL)

; The commands as keys.asm returns them: 80H is added after ^K, 0A0H after ^Q.
TABLE:  ON      05H,UP
        ON      18H,DOWN
        ON      13H,LEFT
        ON      04H,RIGHT
        ON      12H,PAGEUP
        ON      03H,PAGEDN
        ON      0B3H,HOME
        ON      0A4H,LINEEND
        ON      0B2H,REWIND
        ON      0A3H,FINISH
        ON      08H,RUBOUT
        ON      7FH,RUBOUT
        ON      07H,DELETE
        ON      19H,CUTLINE
        ON      CR,SPLIT
        ON      TAB,TYPE
        ON      84H,DONE
        ON      93H,SAVE
        ON      91H,LEAVE
        ON      0,0

SPLIT:  LD      A,LF
TYPE:   CALL    INSERT
        RET     NC
        TELL    FULL
        RET

FINISH: CALL    RIGHT
        JP      NC,FINISH
        RET

CUTLINE:
        CALL    HOME
CUTLINE1:
        CALL    DELETE
        RET     C
        CP      LF
        JP      NZ,CUTLINE1
        RET

DONE:   CALL    SAVE
        RET     C
LEAVE:  CALL    CLEAR
        JP      BOOT

FULL:   DB      'The memory is full.',0
        DS      128
STACK:

        END     START
