z80dev build --list --out sieve sieve.asm
z80dev check sieve.siz sieve.crt
grep 'JP  .*FINISH' sieve.lst
z80dev run sieve.com </dev/null
z80dev run sieve.com 100 </dev/null
z80dev run sieve.com 32001 </dev/null
