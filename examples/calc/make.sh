z80dev build --out calc main.asm eval.asm arith.asm console.asm
z80dev check calc.siz calc.crt
z80dev run calc.com <typed
