z80dev build --out hello hello.asm
z80dev check hello.siz hello.crt
z80dev run hello.com </dev/null
