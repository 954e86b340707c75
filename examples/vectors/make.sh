z80dev build --list --out vectors vectors.asm
z80dev check vectors.siz vectors.crt
grep '+0$' vectors.lst
z80dev run vectors.com 0123 </dev/null

# Without the +0 the table's entries take two bytes: six bytes on, where the digit 2 leads, is the entry for 3.
sed '/^TABLE:/,/THREE+0/s/+0//' vectors.asm >short.asm
z80dev build --no-warn --list --out short short.asm
grep -A 3 'TABLE:' short.lst
z80dev run short.com 02 </dev/null
