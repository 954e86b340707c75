;	TYPE prints a text file, in the style of ASM
;
false	equ	0
true	equ	not false
tabs	equ	true		;expand tabs?
;
bdos	equ	5
conout	equ	2		;print the character in E
print	equ	9
openf	equ	15
readf	equ	20
fcb	equ	5ch		;the file of the command line
dbuf	equ	80h
eof	equ	1ah
tab	equ	'I'-'@'
cr	equ	0dh
lf	equ	0ah
;
	org	100h
	lxi	h,0
	dad	sp
	shld	old$sp		;the stack of the CCP
	lxi	sp,stack
	lda	fcb+1
	cpi	' '
	jz	help
	lxi	d,fcb ! mvi c,openf ! call bdos
	inr	a		;0FFH: no file
	jz	no$file
	xra	a
	sta	fcb+32		;record 0
	sta	column
next$record:
	lxi	d,fcb ! mvi c,readf ! call bdos
	ora	a
	jnz	exit
	lxi	h,dbuf
	mvi	b,128
ld:	mov	a,m		;a label that is a word of Zilog
	cpi	eof
	jz	exit
	push	b ! push h
	call	put
	pop	h ! pop b
	inx	h
	dcr	b
	jnz	ld
	jmp	next$record
;
*	puts A on the console
put	mov	e,a
	cpi	cr
	jz	home
	cpi	' '		;a control character?
	jc	control
	lxi	h,column
	inr	m
	jmp	show
home:	xra	a
	sta	column
	jmp	show
control:
	if	tabs
	cpi	tab
	jnz	show
ex:	mvi	e,' '
	call	show
	lxi	h,column
	inr	m
	mov	a,m
	ani	0000$0111b
	jnz	ex
	ret
	endif
show:	mvi	c,conout
	jmp	bdos
;
help:	lxi	d,help$text
	jmp	say
no$file	lxi	d,none$text
say	mvi	c,print
	call	bdos
exit:	lhld	old$sp
	sphl
	ret
;
help$text:	db	'Name a file','$'
none$text:	db	'It isn''t here',cr,lf,'$'
column	ds	1
old$sp:	ds	2
	ds	32
stack	equ	$
	end
