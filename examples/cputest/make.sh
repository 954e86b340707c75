z80dev build --out cputest cputest.asm
z80dev check cputest.siz cputest.crt
z80dev run cputest.com </dev/null
