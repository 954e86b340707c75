z80dev build --out dump dump.asm
z80dev check dump.siz dump.crt
z80dev blank dump.img
z80dev put dump.img some.bin SOME.BIN
z80dev run --disk dump.img dump.com some.bin </dev/null
z80dev run --disk dump.img dump.com some.bin 1 </dev/null
z80dev run --disk dump.img dump.com none.bin </dev/null
z80dev run --disk dump.img dump.com </dev/null
