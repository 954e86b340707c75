" Vim syntax file: sources of z80dev.
" Written by editors/generate from editors/templates/z80dev.vim and editors/words: change those.

if exists('b:current_syntax')
  finish
endif

syntax case ignore
syntax iskeyword @,48-57,_,?,64,.

" Where several rules fit at one place, Vim takes the last of them.
syntax match z80devNumber /\<[0-9][A-Za-z0-9]*\>/
syntax match z80devPlace /\$/
syntax match z80devRegister /\<\%(a\|b\|c\|d\|e\|h\|l\|i\|r\|af\|bc\|de\|hl\|ix\|iy\|sp\|nz\|z\|nc\|c\|po\|pe\|p\|m\)\>/
syntax match z80devOperator /\<\%(high\|low\|mod\|shl\|shr\|eq\|ne\|lt\|le\|gt\|ge\|not\|and\|or\|xor\)\>/
syntax match z80devDirective /\<\%(equ\|macro\)\>/

" Words that mean this only where a statement begins: at the beginning of the line, or after a label. Elsewhere they may be labels.
syntax match z80devInstruction /\%(^\s*\%([A-Za-z_?@.][A-Za-z0-9_?@.]*\s*:\s*\)\=\)\@<=\%(adc\|add\|and\|bit\|call\|ccf\|cp\|cpd\|cpdr\|cpi\|cpir\|cpl\|daa\|dec\|di\|djnz\|ei\|ex\|exx\|halt\|im\|in\|inc\|ind\|indr\|ini\|inir\|jp\|jr\|ld\|ldd\|lddr\|ldi\|ldir\|neg\|nop\|or\|otdr\|otir\|out\|outd\|outi\|pop\|push\|res\|ret\|reti\|retn\|rl\|rla\|rlc\|rlca\|rld\|rr\|rra\|rrc\|rrca\|rrd\|rst\|sbc\|scf\|set\|sla\|sra\|srl\|sub\|xor\)\>/
syntax match z80devDirective /\%(^\s*\%([A-Za-z_?@.][A-Za-z0-9_?@.]*\s*:\s*\)\=\)\@<=\%(db\|defb\|defm\|dw\|defw\|ds\|defs\|org\|public\|global\|extrn\|external\|end\|\.z80\)\>/
syntax match z80devBlock /\%(^\s*\%([A-Za-z_?@.][A-Za-z0-9_?@.]*\s*:\s*\)\=\)\@<=\%(rept\|endm\|local\|if\|else\|endif\)\>/
syntax match z80devLabel /^\s*\zs[A-Za-z_?@.][A-Za-z0-9_?@.]*\s*:/

" AF' is one word: its quote begins no string.
syntax match z80devRegister /\<AF'/
syntax region z80devString start=/\%(\<AF\)\@2<!'/ skip=/''/ end=/'/ oneline
syntax region z80devString start=/"/ skip=/""/ end=/"/ oneline
syntax match z80devComment /;.*$/ contains=z80devTodo
syntax keyword z80devTodo TODO FIXME XXX contained

highlight default link z80devLabel Label
highlight default link z80devNumber Number
highlight default link z80devPlace Special
highlight default link z80devString String
highlight default link z80devComment Comment
highlight default link z80devTodo Todo
highlight default link z80devInstruction Statement
highlight default link z80devRegister Identifier
highlight default link z80devOperator Operator
highlight default link z80devDirective PreProc
highlight default link z80devBlock Macro

let b:current_syntax = 'z80dev'
