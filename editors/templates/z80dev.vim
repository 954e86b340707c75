" Vim syntax file: sources of z80dev.
" Written by editors/generate from editors/templates/z80dev.vim and editors/words: change those.

if exists('b:current_syntax')
  finish
endif

syntax case ignore
syntax iskeyword @,48-57,_,?,64,.

" Where several rules fit at one place, Vim takes the last of them.
syntax match z80devNumber /\<[0-9][A-Za-z0-9]*\>/
syntax match z80devPlace /\$/
syntax match z80devRegister /\<\%(@register|condition@\)\>/
syntax match z80devOperator /\<\%(@operator@\)\>/
syntax match z80devDirective /\<\%(@definition@\)\>/

" Words that mean this only where a statement begins: at the beginning of the line, or after a label. Elsewhere they may be labels.
syntax match z80devInstruction /\%(^\s*\%([A-Za-z_?@.][A-Za-z0-9_?@.]*\s*:\s*\)\=\)\@<=\%(@instruction@\)\>/
syntax match z80devDirective /\%(^\s*\%([A-Za-z_?@.][A-Za-z0-9_?@.]*\s*:\s*\)\=\)\@<=\%(@directive@\)\>/
syntax match z80devBlock /\%(^\s*\%([A-Za-z_?@.][A-Za-z0-9_?@.]*\s*:\s*\)\=\)\@<=\%(@block@\)\>/
syntax match z80devLabel /^\s*\zs[A-Za-z_?@.][A-Za-z0-9_?@.]*\s*:/

" AF' is one word: its quote begins no string.
syntax match z80devRegister /\<AF'/
syntax region z80devString start=/\%(\<AF\)\@2<!'/ skip=/''/ end=/'/ oneline
syntax region z80devString start=/"/ skip=/""/ end=/"/ oneline
syntax match z80devComment /;.*$/ contains=z80devTodo
syntax keyword z80devTodo TODO FIXME XXX contained

highlight default link z80devLabel Label
highlight default link z80devNumber Number
highlight default link z80devPlace Special
highlight default link z80devString String
highlight default link z80devComment Comment
highlight default link z80devTodo Todo
highlight default link z80devInstruction Statement
highlight default link z80devRegister Identifier
highlight default link z80devOperator Operator
highlight default link z80devDirective PreProc
highlight default link z80devBlock Macro

let b:current_syntax = 'z80dev'
