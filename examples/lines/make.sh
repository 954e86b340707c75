z80dev build --out lines lines.asm
z80dev check lines.siz lines.crt
sed 's/$/\r/' tale.txt >tale.cpm
z80dev blank lines.img
z80dev put lines.img tale.cpm TALE.TXT
z80dev run --disk lines.img lines.com tale.txt tale.num </dev/null
z80dev dir lines.img
z80dev get lines.img TALE.NUM tale.num
tr -d '\r\032' <tale.num
z80dev run --disk lines.img lines.com tale.txt tale.txt </dev/null
z80dev run --disk lines.img lines.com none.txt tale.num </dev/null
