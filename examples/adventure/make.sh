z80dev build --with world.inc --out adventure main.asm rules.asm disk.asm world.asm
z80dev check adventure.siz adventure.crt
z80dev blank adventure.img
z80dev run --disk adventure.img adventure.com <typed1
z80dev dir adventure.img
z80dev run --disk adventure.img adventure.com <typed2
