" Vim compiler file: sources of z80dev.
" :compiler! z80dev, then :make builds the source in the buffer; for several sources
" :set makeprg=z80dev\ build\ --list\ --out\ game\ main.asm\ print.asm
" and for every error of the source in the buffer
" :set makeprg=z80dev\ explain\ %:S

if exists('current_compiler')
  finish
endif
let current_compiler = 'z80dev'

CompilerSet makeprg=z80dev\ build\ --list\ --out\ %:r:S\ %:S

" error: PATH(LINE): NAME; warning: PATH(LINE): TEXT; grown PATH(LINE)
CompilerSet errorformat=%Eerror:\ %f(%l):\ %m,%Wwarning:\ %f(%l):\ %m,%Igrown\ %f(%l)
" of explain: PATH:LINE:COLUMN: error: TEXT [NAME], warning: TEXT or note: TEXT; not its last line, which has the number of errors
CompilerSet errorformat+=%E%f:%l:%c:\ error:\ %m,%W%f:%l:%c:\ warning:\ %m,%I%f:%l:%c:\ note:\ %m,%-Gerror:\ %*\\d\ %.%#
" error: NAME, which has no line; all other lines are ignored
CompilerSet errorformat+=%Eerror:\ %m,%-G%.%#

" An error without a line leads nowhere, so the list is opened to show it.
function! s:Show() abort
  if &errorformat =~# '^%Eerror:\\\? %f(%l)' && !empty(filter(getqflist(), 'v:val.valid && !v:val.bufnr'))
    copen
    wincmd p
  endif
endfunction

augroup z80dev_errors
  autocmd!
  autocmd QuickFixCmdPost make call s:Show()
augroup END
