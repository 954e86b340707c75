; HELLO prints a line.

        ORG     0100H

BDOS    EQU     0005H           ; the entry of the system
PRINT   EQU     9               ; prints the string at DE, up to $

START:  LD      DE,TEXT
        LD      C,PRINT
        CALL    BDOS
        RET                     ; back to CP/M

TEXT:   DB      'Hello, world',0DH,0AH,'$'

        END     START
