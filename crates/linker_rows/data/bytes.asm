DB 1,2,3,4,5
X:
; a note
DS 9,0E5H
	NOP ;	last