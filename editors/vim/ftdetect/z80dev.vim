" Files with these endings are sources of z80dev, whatever Vim itself takes them for (asm).
autocmd BufNewFile,BufRead *.asm,*.ASM,*.mac,*.MAC,*.z80,*.Z80 setlocal filetype=z80dev
