z80dev build --define VT52=0 --with editor.inc --out editor main.asm keys.asm screen.asm files.asm text.asm
z80dev check editor.siz editor.crt
z80dev blank editor.img
z80dev put --text editor.img letter.txt LETTER.TXT

# Down twice and to the right: takes "ro" out and types "or". Adds a line at the
# end, saves and ends: ^X ^X ^D .. ^G ^G or ^Q^C P.S. .. CR ^K^D.
{
    printf '\030\030\004\004\004\004\004\004\004\004\004\004\004\004\007\007or'
    printf '\021\003P.S. There is tea at four.\r\013\004'
} | z80dev run --disk editor.img editor.com letter.txt >screen
z80dev get --text editor.img LETTER.TXT letter.new
cat letter.new

# Types a word, and ends without saving: ^K^Q.
printf 'Oops\013\021' | z80dev run --disk editor.img editor.com letter.txt >screen
z80dev get --text editor.img LETTER.TXT letter.new
head -n 1 letter.new
z80dev dir editor.img
z80dev run --disk editor.img editor.com </dev/null
