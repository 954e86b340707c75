z80dev build --list --out numbers main.asm print.asm table.asm
z80dev check numbers.siz numbers.crt
z80dev run numbers.com </dev/null
