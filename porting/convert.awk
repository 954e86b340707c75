# Converts a source of another assembler to the language of z80dev. `convert` calls it; the variables from, keep and file come from
# the environment; intel.awk has what is particular to sources in the mnemonics of the 8080. Written for the awk of POSIX.
#
# The source is read whole, with the files that it includes. A first walk over its lines collects what they define; a second one
# writes them. Both cut a line into tokens first, so what stands in a string or a comment is never changed. An expression is parsed
# by the precedence of its own assembler and written with the parentheses that z80dev's precedence needs. Where its value is known
# and z80dev would reckon another one (other assemblers have signs, or 32 bits), the number is written instead.

BEGIN {
    from = ENVIRON["from"]
    # Sources in the mnemonics of the 8080 follow the rules of M80, but for what intel.awk has.
    intel = from == "8080"
    if (intel) from = "m80"
    keep = ENVIRON["keep"] + 0; file = ENVIRON["file"]
    QUOTE = sprintf("%c", 39)
    # Stands for a byte 0 in a string, which not every awk can hold.
    ZERO = sprintf("%c", 28)
    start_tables()
    read_file(file, 0)
    if (intel) note_macros()
    walk(1)
    settle()
    walk(2)
    say_wanted()
    if (marks > 0) {
        sub(/^\.\//, "", file)
        printf("%s: %d line%s could not be converted: look for ;?? in the output\n", file, marks, marks == 1 ? "" : "s") >"/dev/stderr"
        exit 1
    }
    exit 0
}

# Names that are taken from elsewhere without a line that says so: `NAME##` of M80, and any of sdas with -g.
function say_wanted() {
    while (wants > 0) { print "\tEXTRN\t" name_for(wanted[wants]); wants-- }
}

# ---- Tables

function each_of(list, table, worth,    n, part, i) {
    n = split(list, part, " ")
    for (i = 1; i <= n; i++) table[part[i]] = worth
}

# The precedence of binary operators, 1 the loosest: "op=NAME op=NAME", where NAME is what it means.
function operators(level, list,    n, part, i, at) {
    n = split(list, part, " ")
    for (i = 1; i <= n; i++) {
        at = index(substr(part[i], 2), "=") + 1
        if (at == 1) { binary[part[i]] = part[i]; tight[part[i]] = level; continue }
        binary[substr(part[i], 1, at - 1)] = substr(part[i], at + 1)
        tight[substr(part[i], 1, at - 1)] = level
    }
}

# Operators before their term, and how loose the term is that follows.
function prefixes(level, list,    n, part, i, at) {
    n = split(list, part, " ")
    for (i = 1; i <= n; i++) {
        at = index(substr(part[i], 2), "=") + 1
        prefix[substr(part[i], 1, at - 1)] = substr(part[i], at + 1)
        looser[substr(part[i], 1, at - 1)] = level
    }
}

function directives(list, what,    n, part, i) {
    n = split(list, part, " ")
    for (i = 1; i <= n; i++) does[part[i]] = what
}

function start_tables() {
    each_of("ADC ADD AND BIT CALL CCF CP CPD CPDR CPI CPIR CPL DAA DEC DI DJNZ EI EX EXX HALT IM IN INC IND INDR INI INIR JP JR LD " \
        "LDD LDDR LDI LDIR NEG NOP OR OTDR OTIR OUT OUTD OUTI POP PUSH RES RET RETI RETN RL RLA RLC RLCA RLD RR RRA RRC RRCA RRD " \
        "RST SBC SCF SET SLA SLL SLI SRA SRL SUB XOR", instruction, 1)
    each_of("A B C D E H L I R AF BC DE HL IX IY SP IXH IXL IYH IYL AF' NZ Z NC C PO PE P M", register, 1)
    each_of("A B C D E H L I R AF BC DE HL IX IY SP NZ Z NC C PO PE P M EQ NE LT LE GT GE NOT AND OR XOR MOD SHL SHR HIGH LOW", reserved, 1)
    each_of("MOV MVI LXI LDA STA LHLD SHLD LDAX STAX XCHG ADI ACI SUI SBI SBB INR DCR INX DCX DAD ANA XRA ORA CMP ANI XRI ORI RAL RAR CMA STC CMC " \
        "JMP JC JNC JZ JNZ JM JPE JPO CC CNC CZ CNZ CM CPE CPO RC RNC RZ RNZ RM RPE RPO PCHL SPHL XTHL HLT", of_8080, 1)
    code["B"] = 0; code["C"] = 1; code["D"] = 2; code["E"] = 3; code["H"] = 4; code["L"] = 5; code["A"] = 7
    short["NZ"] = "20H"; short["Z"] = "28H"; short["NC"] = "30H"; short["C"] = "38H"
    rotate["RLC"] = 0; rotate["RRC"] = 8; rotate["RL"] = 16; rotate["RR"] = 24; rotate["SLA"] = 32; rotate["SRA"] = 40
    rotate["SLL"] = 48; rotate["SLI"] = 48; rotate["SRL"] = 56

    # Their levels in z80dev: 9 is a term.
    ours["*"] = 7; ours["/"] = 7; ours["MOD"] = 7; ours["SHL"] = 7; ours["SHR"] = 7; ours["+"] = 6; ours["-"] = 6
    ours["EQ"] = 5; ours["NE"] = 5; ours["LT"] = 5; ours["LE"] = 5; ours["GT"] = 5; ours["GE"] = 5
    ours["AND"] = 3; ours["OR"] = 2; ours["XOR"] = 2

    truth = 65535
    no_number = "not a number"
    too_wide = "a condition that may have more than 16 bits"
    directives("DB DEFB DEFM", "DB"); directives("DW DEFW", "DW"); directives("DS DEFS", "DS")
    directives("EQU", "EQU"); directives("ORG", "ORG"); directives("END", "END")
    directives("IF", "IF"); directives("ELSE", "ELSE"); directives("ENDIF", "ENDIF"); directives("MACRO", "MACRO"); directives("ENDM", "ENDM")
    directives("INCLUDE", "INCLUDE"); directives("INCBIN", "INCBIN")
    if (from != "sdas") directives("ELSEIF ELIF", "ELSEIF")
    if (from != "sdas") each_of("INCLUDE", swallows, 1)
    if (from == "m80") each_of("TITLE SUBTTL $TITLE .PRINTX .COMMENT .REQUEST MACLIB $INCLUDE", swallows, 1)
    if (from == "pasmo") each_of(".WARNING .ERROR", swallows, 1)
    if (from == "sjasmplus") each_of("OUTPUT DISPLAY", swallows, 1)
    if (from == "sdas") each_of(".TITLE .SBTTL .OPTSDCC .MODULE", swallows, 1)
    if (from == "m80") {
        operators(6, "* / MOD SHL SHR"); operators(5, "+ -"); operators(4, "EQ NE LT LE GT GE"); operators(2, "AND"); operators(1, "OR XOR")
        prefixes(7, "HIGH=HIGH LOW=LOW"); prefixes(6, "-=- +=+"); prefixes(3, "NOT=NOT"); prefixes(9, "NUL=NUL")
        directives("REPT", "REPT"); directives("LOCAL", "LOCAL"); directives("EXITM", "MARK")
        directives("IRP IRPC", "IRP"); directives("DC", "DC"); directives("DEFL ASET", "DEFL")
        directives("PUBLIC ENTRY GLOBAL", "PUBLIC"); directives("EXTRN EXT EXTERNAL", "EXTRN")
        directives("TITLE SUBTTL $TITLE PAGE $EJECT *EJECT NAME CSEG DSEG ASEG .Z80 .PRINTX .LIST .XLIST .CREF .XCREF .LALL .SALL .XALL .SFCOND .LFCOND .TFCOND .REQUEST", "DROP")
        directives("COND IFT", "IF"); directives("ENDC", "ENDIF"); directives("IFF IFE", "IFNOT"); directives("IF1", "IF1"); directives("IF2", "IF2")
        directives("IFDEF", "IFDEF"); directives("IFNDEF", "IFNDEF"); directives("IFB IFNB", "IFB"); directives("IFIDN IFDIF COMMON .PHASE .DEPHASE .8080", "MARK")
        directives(".COMMENT", "COMMENT"); directives(".RADIX", "RADIX"); directives("BYTE", "MARK"); directives("MACLIB $INCLUDE", "INCLUDE")
    } else if (from == "pasmo") {
        operators(8, "* / MOD %=MOD SHL SHR <<=SHL >>=SHR"); operators(7, "+ -")
        operators(6, "EQ NE LT LE GT GE ==EQ !==NE <=LT >=GT <==LE >==GE"); operators(4, "AND &=AND"); operators(3, "OR |=OR XOR")
        operators(2, "&&"); operators(1, "||")
        binary["="] = "EQ"; tight["="] = 6; binary["!="] = "NE"; tight["!="] = 6; binary["<="] = "LE"; tight["<="] = 6
        binary[">="] = "GE"; tight[">="] = 6; binary["<"] = "LT"; tight["<"] = 6; binary[">"] = "GT"; tight[">"] = 6
        prefixes(5, "NOT=NOT ~=NOT !=! +=+ -=-"); prefixes(0, "HIGH=HIGH LOW=LOW"); prefixes(9, "DEFINED=DEFINED NUL=NUL")
        directives("DEFL", "DEFL"); directives("REPT", "REPT"); directives("LOCAL", "LOCAL"); directives("EXITM .SHIFT", "MARK")
        directives("IRP", "IRP"); directives("PUBLIC", "PUBLIC"); directives("PROC", "PROC"); directives("ENDP", "ENDP")
        directives(".WARNING", "DROP"); directives(".ERROR", "MARK")
    } else if (from == "z80asm") {
        operators(8, "* / %=MOD"); operators(7, "+ -"); operators(6, "<<=SHL >>=SHR")
        operators(3, "&=AND"); operators(2, "^=XOR"); operators(1, "|=OR")
        binary["<="] = "LE"; binary[">="] = "GE"; binary["<"] = "LT"; binary[">"] = "GT"
        tight["<="] = tight[">="] = tight["<"] = tight[">"] = 5
        binary["=="] = binary["="] = "EQ"; binary["!="] = "NE"; tight["=="] = tight["="] = tight["!="] = 4
        prefixes(9, "~=NOT +=+ -=- ?=DEFINED")
        truth = 1
        directives("DM", "DB"); directives("SEEK", "MARK")
    } else if (from == "sjasmplus") {
        operators(10, "* / %=MOD MOD"); operators(9, "+ -"); operators(8, "<<=SHL >>=SHR SHL SHR")
        operators(5, "&=AND AND"); operators(4, "^=XOR XOR"); operators(3, "|=OR OR"); operators(2, "&&"); operators(1, "||")
        binary["<="] = "LE"; binary[">="] = "GE"; binary["<"] = "LT"; binary[">"] = "GT"
        tight["<="] = tight[">="] = tight["<"] = tight[">"] = 7
        binary["=="] = binary["="] = "EQ"; binary["!="] = "NE"; tight["=="] = tight["="] = tight["!="] = 6
        prefixes(11, "~=NOT NOT=! !=! +=+ -=- HIGH=HIGH LOW=LOW")
        truth = -1
        directives("DM BYTE .BYTE .DB", "DB"); directives("WORD .WORD .DW", "DW"); directives("BLOCK .BLOCK", "DS"); directives("DC", "DC"); directives("DZ ASCIZ", "DZ")
        directives("REPT DUP", "REPT"); directives("EDUP ENDR", "ENDM"); directives("DEFL", "DEFL")
        directives("DEVICE OUTPUT SAVEBIN SAVESNA SAVETAP PAGE SLOT ENCODING OPT", "DROP")
        directives("IFDEF IFNDEF", "MARK")
        directives("ALIGN DISP PHASE ENT UNPHASE DEPHASE STRUCT ENDS MODULE ENDMODULE DEFINE UNDEFINE LUA ENDLUA IFUSED IFNUSED ASSERT " \
            "DD DWORD DEFD D24 DH HEX DEFH DEFARRAY WHILE ENDW ENDT EXPORT INSERT INCLUDELUA DISPLAY BINARY INCHOB INCTRD TEXTAREA ENDTEXTAREA MAP ENDMAP", "MARK")
        directives("DISPLAY EXPORT", "DROP"); directives("INSERT", "INCBIN")
    } else {
        operators(6, "* / %=MOD"); operators(5, "+ -"); operators(4, "<<=SHL >>=SHR"); operators(3, "^=XOR"); operators(2, "&=AND"); operators(1, "|=OR")
        prefixes(7, "~=NOT +=+ -=- <=LOW >=HIGH")
        split("", does)
        directives(".DB .BYTE .FCB", "DB"); directives(".DW .WORD .FDB", "DW"); directives(".DS .BLKB .RMB .RS", "DS"); directives(".BLKW", "DSW")
        directives(".ASCII .STR", "DB"); directives(".ASCIZ .STRZ", "DZ"); directives(".ASCIS .STRS", "DC")
        directives(".ORG", "ORG"); directives(".GLOBL .GLOBAL", "GLOBL"); directives(".EQU .GBLEQU .LCLEQU", "EQU2")
        directives(".IF .IFNE", "IF"); directives(".IFEQ", "IFNOT"); directives(".ELSE", "ELSE"); directives(".ENDIF", "ENDIF")
        directives(".IFDEF", "IFDEF"); directives(".IFNDEF", "IFNDEF"); directives(".MACRO", "MACRO"); directives(".ENDM", "ENDM"); directives(".REPT", "REPT")
        directives(".Z80 .MODULE .OPTSDCC .TITLE .SBTTL .PAGE .LIST .NLIST .AREA .END", "DROP"); directives(".RADIX", "RADIX"); directives(".INCLUDE", "INCLUDE"); directives(".INCBIN", "INCBIN")
        directives(".IFGT .IFLT .IFGE .IFLE .IRP .IRPC .MEXIT .EVEN .ODD .BNDRY .BANK .DL .LONG .QUAD .MDELETE .NARG .NCHR .NTYP", "MARK")
        each_of(".ASCII .ASCIZ .ASCIS .STR .STRZ .STRS .INCLUDE .INCBIN", delimited, 1)
    }
    if (intel) intel_tables()
}

# ---- Reading

function folder_of(path) {
    sub(/[^\/]*$/, "", path)
    return path
}

# Reads a file into the lines, and where it includes another one, that one. The depth ends a circle of files.
function read_file(path, depth,    text, own, n, k, part, last_line) {
    own = ++files
    while (!last_line && (getline text <path) > 0) {
        sub(/\r$/, "", text)
        if (index(text, sprintf("%c", 26))) {
            text = substr(text, 1, index(text, sprintf("%c", 26)) - 1)
            last_line = 1
        }
        n = 1
        part[1] = text
        if (intel) n = cut_statements(text, part)
        for (k = 1; k <= n; k++) take_line(part[k], path, own, depth)
    }
    close(path)
}

# Notes a line, and reads the file that it includes.
function take_line(text, path, own, depth,    name, found, word) {
    lines++
    line[lines] = text
    file_of[lines] = own
    if (depth < 16 && match(toupper(text), /^[A-Z0-9_.:?@]*[ \t]*[.$]?(INCLUDE|MACLIB)[ \t]+/)) {
        name = substr(text, RLENGTH + 1)
        if (substr(name, 1, 1) ~ /["'<]/) {
            word = substr(name, 1, 1) == "<" ? ">" : substr(name, 1, 1)
            name = substr(name, 2)
            if (index(name, word)) name = substr(name, 1, index(name, word) - 1)
        } else {
            sub(/[ \t;].*/, "", name)
        }
        found = found_file(name, folder_of(path), intel ? ".LIB" : from == "m80" ? ".MAC" : "")
        if (several) alike[lines] = 1
        else if (found == "" && intel) found = found_file(name, folder_of(path), ".MAC")
        if (found != "") {
            included[lines] = 1
            if (!(found in open_now)) {
                open_now[found] = 1
                read_file(found, depth + 1)
                delete open_now[found]
            }
        }
    }
}

# Where a file is: beside the one that names it, where this is called, or in a folder that was given. If no file has the name as it is
# written, the one whose name differs in case alone is taken: CP/M has no lower case. M80 names a drive, and leaves .MAC out.
function found_file(name, folder, more,    n, part, i, t, k) {
    several = 0
    n = split(folder "\n" folder_of(file) "\n\n" ENVIRON["folders"], part, "\n")
    for (k = 1; k <= 4; k++) {
        if (k == 3 && more == "") break
        if (k == 3) { sub(/^[A-Pa-p]:/, "", name); if (name !~ /[.]/) name = name more }
        for (i = 1; i <= n; i++) {
            t = part[i] name
            if (k % 2 == 0) t = in_any_case(t)
            if (t != "" && (getline found_line <t) >= 0) { close(t); return t }
        }
    }
    return ""
}

# The one file of a path's folder that has its name but for the case, "" if there are none or several.
function in_any_case(path,    folder, name, command, t, found, n) {
    folder = folder_of(path)
    name = toupper(substr(path, length(folder) + 1))
    if (name == "" || name ~ /[^ -~]/) return ""
    t = folder == "" ? "." : folder
    gsub(QUOTE, QUOTE "\\" QUOTE QUOTE, t)
    command = "ls -a -- " QUOTE t QUOTE " 2>/dev/null"
    n = 0
    while ((command | getline t) > 0) if (toupper(t) == name) { n++; found = t }
    close(command)
    if (n > 1) several = 1
    return n == 1 ? folder found : ""
}

# ---- Tokens

# How a string of a kind of quote is read: 0 as it stands, 1 with a backslash for special characters.
function escapes(quote) {
    if (from == "pasmo" || from == "sjasmplus") return quote == "\""
    return from == "z80asm" || from == "sdas"
}

function digit_of(c) {
    return index("0123456789ABCDEF", toupper(c)) - 1
}

# The value of digits in a base, or -1.
function number_in(digits, base,    i, d, v) {
    v = 0
    if (digits == "") return -1
    for (i = 1; i <= length(digits); i++) {
        d = digit_of(substr(digits, i, 1))
        if (d < 0 || d >= base) return -1
        v = v * base + d
    }
    return v
}

function token(kind, value, begins, ends) {
    tokens++
    kind_of[tokens] = kind; value_of[tokens] = value
    begin_of[tokens] = begins; end_of[tokens] = ends
}

function hexadecimal(v,    s) {
    s = ""
    do { s = substr("0123456789ABCDEF", v % 16 + 1, 1) s; v = int(v / 16) } while (v > 0)
    if (length(s) % 2 == 1) s = "0" s
    return (s ~ /^[A-F]/ ? "0" : "") s "H"
}

# A number of a base: its text is written in the same base.
function number_token(digits, base, begins, ends,    v, s) {
    v = number_in(digits, base)
    if (v < 0) { wrong = no_number; v = 0 }
    if (intel && v > 65535) wrong = "a number above 65535"
    s = toupper(digits)
    if (base == 16) s = hexadecimal(v)
    else if (base == 2) s = s "B"
    else if (base == 8) s = s "O"
    else if (base == 10) { sub(/^0+/, "", s); if (s == "") s = "0" }
    else s = v ""
    if (v > 65535) s = hexadecimal(v % 65536)
    token("n", s, begins, ends)
    number_of[tokens] = v
}

# A number that begins with a digit.
function plain_number(word, begins, ends,    w, last) {
    w = toupper(word)
    if (from == "pasmo" || intel) gsub(/\$/, "", w)
    last = substr(w, length(w), 1)
    if (w ~ /^0X/) return number_token(substr(w, 3), 16, begins, ends)
    if (from == "sdas") {
        if (w ~ /^0[BODHQ][0-9A-F]+$/ || w ~ /^0[BODHQ]/)
            return number_token(substr(w, 3), substr(w, 2, 1) == "B" ? 2 : substr(w, 2, 1) == "D" ? 10 : substr(w, 2, 1) == "H" ? 16 : 8, begins, ends)
        return number_token(w, radix, begins, ends)
    }
    if (last == "H") return number_token(substr(w, 1, length(w) - 1), 16, begins, ends)
    if (from == "sjasmplus" && w ~ /^0B[01]+$/) return number_token(substr(w, 3), 2, begins, ends)
    if (from == "sjasmplus" && w ~ /^0Q[0-7]+$/) return number_token(substr(w, 3), 8, begins, ends)
    if (from == "sjasmplus" && w ~ /^[0-9]+[BF]$/ && (substr(w, 1, length(w) - 1) in counted) && after_jump()) {
        token("i", w, begins, ends)
        return
    }
    if (radix == 16) {
        number_token(w, 16, begins, ends)
        if (last == "B" || last == "D") wrong = "a number with B or D at its end, where the radix is 16"
        return
    }
    if (last == "B") return number_token(substr(w, 1, length(w) - 1), 2, begins, ends)
    if (last == "O" || last == "Q") return number_token(substr(w, 1, length(w) - 1), 8, begins, ends)
    if (last == "D") return number_token(substr(w, 1, length(w) - 1), 10, begins, ends)
    if (from == "z80asm" && w ~ /^0[0-7]+$/) return number_token(w, 8, begins, ends)
    return number_token(w, radix, begins, ends)
}

# Whether the statement so far is a jump, after which alone sjasmplus reads 1B and 1F as labels.
function after_jump(    k) {
    for (k = tokens; k > 0; k--) if (kind_of[k] == "i" && (toupper(value_of[k]) in instruction)) return toupper(value_of[k]) ~ /^(CALL|DJNZ|JP|JR)$/
    return 0
}

# Whether the last token ends a value, so that what follows is an operator.
function after_value() {
    return tokens > 0 && (kind_of[tokens] ~ /[nsi]/ && !((toupper(value_of[tokens]) in binary) || (toupper(value_of[tokens]) in prefix)) && !is_word(tokens) || value_of[tokens] == ")" || value_of[tokens] == "]")
}

# Whether a token is the word of its statement: an instruction, a directive or a macro, after a label at most.
function is_word(k,    v) {
    if (!is_command(k)) return 0
    if (k == 1) return 1
    v = value_of[k - 1]
    if (kind_of[k - 1] == "o") return v == "::" || v == ":" && (k == 3 || from == "sjasmplus")
    return k == 2 && kind_of[1] == "i" && (!is_command(1) || meaning(toupper(value_of[2])) == "MACRO")
}

function is_command(k,    v) {
    v = toupper(value_of[k])
    return kind_of[k] == "i" && ((v in instruction) || (v in does) || (known_as(value_of[k]) in macro))
}

# Whether what follows a name at the beginning of a line says that the line defines it.
function is_defined_here(rest) {
    rest = toupper(rest) " "
    sub(/^[ \t]+/, "", rest)
    if (from == "sjasmplus" && tokens == 1 && begin_of[1] == 1) return 1
    if (intel && tokens == 1 && rest ~ /^D[BSW][ \t]/) return 1
    return tokens == 1 && rest ~ /^(:|=|(EQU|DEFL|SET|ASET|MACRO)[ \t,])/
}

# Reads a string from its quote on; gives where it ends, 0 if it does not.
function string_token(s, i, quote,    n, c, text, d, k, from_quote) {
    n = length(s)
    from_quote = i
    text = ""
    for (i++; i <= n; i++) {
        c = substr(s, i, 1)
        if (c == quote) {
            # A quote written twice stands for itself.
            if (substr(s, i + 1, 1) == quote && (from == "m80" || quote == QUOTE && !escapes(quote))) { text = text c; i++; continue }
            token("s", text, from_quote, i)
            return i
        }
        if (c == "\\" && escapes(quote)) {
            i++
            c = substr(s, i, 1)
            if (c == "n") c = "\n"
            else if (c == "r") c = "\r"
            else if (c == "t") c = "\t"
            else if (c == "a" && from != "sdas") c = sprintf("%c", 7)
            else if (c == "b" && (from == "sdas" || from == "sjasmplus")) c = sprintf("%c", 8)
            else if (c == "f" && (from == "sdas" || from == "sjasmplus")) c = sprintf("%c", 12)
            else if (c == "v" && from == "sjasmplus") c = sprintf("%c", 11)
            else if (c == "e" && from == "sjasmplus") c = sprintf("%c", 27)
            else if (c == "d" && from == "sjasmplus") c = sprintf("%c", 127)
            else if (c == "x" && from == "pasmo") {
                d = number_in(substr(s, i + 1, 2), 16)
                if (d < 0) { wrong = "an escape that it does not know"; d = 0 }
                if (d == 28) wrong = "a byte 1CH in a string"
                c = d == 0 ? ZERO : sprintf("%c", d)
                i += 2
            } else if (c ~ /[0-7]/ && (from != "sjasmplus" || c == "0")) {
                d = 0
                for (k = 0; k < (from == "sjasmplus" ? 1 : 3) && substr(s, i, 1) ~ /[0-7]/; k++) d = d * 8 + substr(s, i++, 1)
                i--
                d = d % 256
                if (d == 28) wrong = "a byte 1CH in a string"
                c = d == 0 ? ZERO : sprintf("%c", d)
            } else if (from == "sdas") {
                # sdas knows no other ones: the backslash stays.
                text = text "\\"
            } else if (c !~ /[\\"'?]/ && from != "z80asm") {
                wrong = "an escape that it does not know"
            }
        }
        text = text c
    }
    return 0
}

# Cuts a line into tokens; its comment is put into comment.
function cut(s,    n, i, c, two, start, word, at, rest, q) {
    n = length(s)
    tokens = 0; comment = ""; wrong = ""; tail = n + 1
    for (i = 1; i <= n; i++) {
        c = substr(s, i, 1)
        if (c == " " || c == "\t" || c == "\f") continue
        two = substr(s, i, 2)
        if (c == "*" && i == 1 && intel) { comment = ";" substr(s, 2); tail = i; return }
        if (c == ";" || two == "//" && from == "sjasmplus") {
            comment = substr(s, i)
            tail = i
            if (c != ";") comment = ";" substr(comment, 3)
            return
        }
        if (two == "/*" && from == "sjasmplus") {
            at = index(substr(s, i + 2), "*/")
            comment = "; " (at ? substr(s, i + 2, at - 1) : substr(s, i + 2))
            if (!at) { in_comment = 1; tail = i; return }
            if (substr(s, i + 2 + at + 1) !~ /^[ \t]*$/) { s = substr(s, 1, i - 1) sprintf("%" (at + 3) "s", "") substr(s, i + 2 + at + 1); comment = ""; i--; continue }
            tail = i
            return
        }
        # Between any two equal characters, after these directives.
        if (tokens > 0 && kind_of[tokens] == "i" && (toupper(value_of[tokens]) in delimited) && end_of[tokens] < i) {
            at = index(substr(s, i + 1), c)
            if (!at) { wrong = "a string without an end"; return }
            if (c == "(") { wrong = "a value among strings"; return }
            rest = substr(s, i, at + 1)
            # Read as if it stood between double quotes.
            word = substr(rest, 2, length(rest) - 2)
            if (index(word, "\\")) { q = tokens; string_token("\"" word "\"", 1, "\""); if (tokens > q) { begin_of[tokens] = i; end_of[tokens] = i + at } }
            else token("s", word, i, i + at)
            i += at
            continue
        }
        if (c == QUOTE && tokens > 0 && toupper(value_of[tokens]) == "AF" && kind_of[tokens] == "i" && end_of[tokens] == i - 1) {
            value_of[tokens] = value_of[tokens] c
            end_of[tokens] = i
            continue
        }
        if (c == QUOTE && from == "m80" && tokens > 0 && toupper(value_of[tokens]) == "X" && kind_of[tokens] == "i" && end_of[tokens] == i - 1) {
            at = index(substr(s, i + 1), QUOTE)
            start = begin_of[tokens]
            tokens--
            number_token(substr(s, i + 1, at - 1), 16, start, i + at)
            i += at
            continue
        }
        if (from == "sdas" && c == QUOTE) {
            # One character, and a second quote if there is one.
            word = substr(s, i + 1, 1)
            start = i
            i++
            if (word == "\\") {
                # Its end is the same as of a string.
                string_token("\"" substr(s, i, 2) "\"", 1, "\"")
                begin_of[tokens] = start
                i++
            } else token("s", word, start, i)
            if (substr(s, i + 1, 1) == QUOTE) i++
            end_of[tokens] = i
            continue
        }
        if (c == QUOTE || c == "\"") {
            at = string_token(s, i, c)
            if (!at) { wrong = "a string without an end"; tail = n + 1; return }
            i = at
            continue
        }
        if (c ~ /[0-9]/) {
            start = i
            while (i <= n && substr(s, i, 1) ~ /[0-9A-Za-z_]/ || substr(s, i, 1) == "$" && (from == "pasmo" || from == "sdas" || intel) && i <= n) i++
            word = substr(s, start, i - start)
            i--
            if (from == "sdas" && word ~ /^[0-9]+\$$/) token("i", word, start, i)
            else if (from == "sjasmplus" && start == 1 && tokens == 0 && word ~ /^[0-9]+$/) token("i", word, start, i)
            else if ((from == "pasmo" || intel) && tokens == 0 && word ~ /^[0-9]+$/) continue
            else plain_number(word, start, i)
            continue
        }
        if (c == "$" && from != "m80" && from != "sdas" && substr(s, i + 1, 1) ~ /[0-9A-Fa-f]/ ||
            c == "#" && (from == "pasmo" || from == "sjasmplus") && substr(s, i + 1, 1) ~ /[0-9A-Fa-f]/) {
            start = i
            for (i++; i <= n && (substr(s, i, 1) ~ /[0-9A-Fa-f]/ || from == "pasmo" && substr(s, i, 1) == "$"); i++) ;
            word = substr(s, start + 1, i - start - 1)
            gsub(/\$/, "", word)
            i--
            number_token(word, 16, start, i)
            continue
        }
        if (c == "%" && from != "m80" && from != "sdas" && substr(s, i + 1, 1) ~ /[01]/ && !after_value()) {
            start = i
            for (i++; i <= n && substr(s, i, 1) ~ /[01$]/; i++) ;
            word = substr(s, start + 1, i - start - 1)
            gsub(/\$/, "", word)
            i--
            number_token(word, 2, start, i)
            continue
        }
        if (c == "&" && two != "&&" && (from == "pasmo" && substr(s, i + 1, 1) ~ /[0-9A-Fa-fHhOoXx]/ || from == "z80asm" && substr(s, i + 1, 1) ~ /[HhOoBb]/) && !after_value()) {
            start = i
            word = toupper(substr(s, i + 1, 1))
            at = word == "O" ? 8 : from == "z80asm" && word == "B" ? 2 : 16
            i += word ~ /[HOX]/ || from == "z80asm" ? 2 : 1
            q = i
            while (i <= n && substr(s, i, 1) ~ /[0-9A-Fa-f]/) i++
            word = substr(s, q, i - q)
            i--
            number_token(word, at, start, i)
            continue
        }
        if (c == "@" && from == "z80asm") {
            start = i
            at = digit_of(substr(s, i + 1, 1)) + 1
            for (i += 2; i <= n && substr(s, i, 1) ~ /[0-9A-Fa-f]/; i++) ;
            word = substr(s, start + 2, i - start - 2)
            i--
            number_token(word, at, start, i)
            continue
        }
        if (c ~ /[A-Za-z_.]/ || c ~ /[?@]/ && from != "z80asm" && !(c == "?" && from == "pasmo" && after_value()) || c == "$" && from == "m80" && substr(s, i + 1, 1) ~ /[A-Za-z]/ && !(intel && tokens)) {
            start = i
            i++
            while (i <= n && (substr(s, i, 1) ~ /[A-Za-z0-9_.]/ || substr(s, i, 1) ~ /[?@$]/ && from != "z80asm" && from != "sdas" || substr(s, i, 1) == "$" && from == "sdas" ||
                substr(s, i, 1) ~ /[!#]/ && from == "sjasmplus" && substr(s, i + 1, 1) ~ /[A-Za-z0-9_]/)) i++
            word = substr(s, start, i - start)
            i--
            if (word == "." && from == "sdas") word = "$"
            token("i", word, start, i)
            # What follows is no assembler text.
            if ((toupper(word) in swallows) && is_word(tokens) && !is_defined_here(substr(s, i + 1))) return
            continue
        }
        if (c == "$") { token("i", "$", i, i); continue }
        if (two ~ /^(<<|>>|<=|>=|!=|==|&&|\|\||##|::)$/) { token("o", two, i, i + 1); i++; continue }
        token("o", c, i, i)
    }
}

# ---- Names

# The name that z80dev gets for one of the source.
function name_for(name,    upper, n, k) {
    if (name == "$") return name
    upper = toupper(name)
    for (k = macros; k > 0; k--) if ((k, folded(name)) in parameter) return parameter_text(name)
    if (from == "sdas" && name ~ /^[0-9]+\$$/) return "L" (name + 0) "_" scope
    if (from == "sjasmplus") {
        if (name ~ /^[0-9]+[BFbf]$/) return "T" (name + 0) "_" (counter[name + 0] + (toupper(name) ~ /F$/))
        if (name ~ /^[0-9]+$/) return "T" (name + 0) "_" counter[name + 0]
        if (name ~ /^\./ && !macros) name = above name
        if (name ~ /^@/) name = substr(name, 2)
    }
    if (from == "z80asm" && name ~ /^\./ && !macros && file_of[here] > 1) name = name "_" file_of[here]
    for (n = procs; n > 0; n--) if ((n, name) in own_of) return own_of[n, name]
    if (known_as(name) in renamed) return renamed[known_as(name)]
    return clean(name)
}

function is_parameter(name,    k, key) {
    key = folded(name)
    for (k = macros; k > 0; k--) if ((k, key) in parameter) return k
    return 0
}

# A name as it is compared: where upper and lower case are the same, in upper case. ASM and MAC read over $ in a name.
function folded(name) {
    if (from != "m80") return name
    if (intel && name != "$") gsub(/\$/, "", name)
    return toupper(name)
}

# What a name is known as where it stands: upper and lower case may differ, and a range may have a name of its own.
function known_as(name,    n) {
    for (n = procs; n > 0; n--) if ((n, name) in own_of) return own_of[n, name]
    return folded(name)
}

# A name of characters that z80dev takes.
function clean(name) {
    if (from == "pasmo" || intel) gsub(/\$/, "", name)
    gsub(/[^A-Za-z0-9_?@.]/, "_", name)
    return name
}

# To read an element of an awk array makes it, so these are asked with care.
function what_is(key) {
    return key in defined ? defined[key] : ""
}

function meaning(word) {
    return word in does ? does[word] : ""
}

# Whether a name is given a value more than once.
function changes(name,    key) {
    key = known_as(name)
    return (key in times) && times[key] > 1
}

# Notes a name that a line defines, what as, and gives it another one where z80dev has none of that name or takes two for one.
function define(name, what,    key, other, n) {
    if (name in parameter_now) return
    key = known_as(name)
    if (key in defined) {
        if (what == "DEFL" && what_is(key) == "DEFL") times[key]++
        if ((key in dead_definition) && !is_dead()) { defined[key] = what; line_of[key] = here; delete dead_definition[key] }
        return
    }
    if (is_dead()) dead_definition[key] = 1
    defined[key] = what
    times[key] = 1
    line_of[key] = here
    other = toupper(clean(key))
    if (other in owner || other in reserved || what == "MACRO" && (other in written_word)) {
        n = other in owner ? 2 : 1
        while ((other "_" n) in owner) n++
        renamed[key] = clean(name) "_" n
        owner[other "_" n] = key
    } else owner[other] = key
}

# ---- Expressions
#
# parse() reads tokens from the one numbered p up to the one numbered last. It leaves the text in out_text, how tight its outermost
# operator is in out_level, whether its value is known in out_known, that value as the other assembler has it in out_value and as
# z80dev has it in out_ours, and whether an address is part of it in out_place.

function wrapped(text, level, least) {
    return level < least ? "(" text ")" : text
}

function term(v, text) {
    out_text = text; out_level = 9; out_known = 1; out_value = v; out_ours = unsigned(v); out_place = 0
    out_plain = 1; out_wide = 0; out_parameter = ""; out_base = ""; out_offset = v
}

# A string as the item of an expression.
function character_text(c) {
    if (c == QUOTE) return "\"" c "\""
    if (c ~ /[ -~]/ || byte_of(c) > 127) return QUOTE c QUOTE
    return byte_of(c) ""
}

function byte_of(c,    i) {
    if (!bytes_known) {
        for (i = 1; i < 256; i++) byte_code[sprintf("%c", i)] = i
        byte_code[ZERO] = 0
        bytes_known = 1
    }
    return c in byte_code ? byte_code[c] : 0
}

function signed(v,    m) {
    # How the other assembler calculates: 16 bits without signs, 32 bits without them (sdas), or 32 bits with them.
    if (from == "pasmo" || from == "m80") { v = v % 65536; return v < 0 ? v + 65536 : v }
    m = 4294967296
    v = v % m
    if (from == "sdas") return v < 0 ? v + m : v
    if (v >= m / 2) v -= m
    if (v < -m / 2) v += m
    return v
}

function unsigned(v) {
    v = v % 65536
    return v < 0 ? v + 65536 : v
}

# Bit by bit, on 32 bits.
function bits(a, b, op,    i, x, y, r, weight) {
    if (a < 0) a += 4294967296
    if (b < 0) b += 4294967296
    r = 0; weight = 1
    for (i = 0; i < 32; i++) {
        x = a % 2; y = b % 2
        if (op == "AND" && x && y || op == "OR" && (x || y) || op == "XOR" && x != y) r += weight
        a = int(a / 2); b = int(b / 2); weight *= 2
    }
    return r
}

# A product whose lowest 32 bits are right: numbers of awk are exact up to 53 bits.
function product(a, b,    low, high, less) {
    less = (a < 0) != (b < 0)
    if (a < 0) a = -a
    if (b < 0) b = -b
    low = a % 65536
    high = int(a / 65536) * b % 65536
    low = low * b + high * 65536
    return less ? -low : low
}

function power(n,    r) {
    r = 1
    while (n-- > 0) r *= 2
    return r
}

function compute(op, a, b, yes) {
    if (op == "+") return a + b
    if (op == "-") return a - b
    if (op == "*") return product(a, b)
    if (op ~ /^SH/ && (b < 0 || b > 31)) wrong = "a shift by more than 31 bits"
    if (op ~ /^(\/|MOD)$/ && b == 0) wrong = "a division by zero"
    if (op == "/") return b == 0 ? 0 : int(a / b)
    if (op == "MOD") return b == 0 ? 0 : a - b * int(a / b)
    if (op == "SHL") return b < 0 || b > 31 ? 0 : a * power(b)
    if (op == "SHR") return b < 0 || b > 31 ? 0 : a >= 0 ? int(a / power(b)) : -int((-a + power(b) - 1) / power(b))
    if (op == "EQ") return a == b ? yes : 0
    if (op == "NE") return a != b ? yes : 0
    if (op == "LT") return a < b ? yes : 0
    if (op == "LE") return a <= b ? yes : 0
    if (op == "GT") return a > b ? yes : 0
    if (op == "GE") return a >= b ? yes : 0
    return bits(a, b, op)
}

# Two values and an operator of z80dev.
function joined(op, lt, ll, lk, lv, lo, lp, rt, rl, rk, rv, ro, rp,    level, both) {
    if ((op == "&&" || op == "||") && lk) {
        # The right side does not count, or it alone.
        if (op == "&&" && lv == 0) { term(0, "0"); return }
        if (op == "||" && lv != 0) { term(truth, truth == 1 ? "1" : "0FFFFH"); return }
        out_text = wrapped(rt, rl, 6) " NE 0"; out_level = 5; out_known = rk; out_value = rv != 0 ? truth : 0; out_ours = ro != 0 ? 65535 : 0; out_place = rp
        return
    }
    if (op == "&&" || op == "||") {
        lt = wrapped(lt, ll, 6) " NE 0"; rt = wrapped(rt, rl, 6) " NE 0"
        lv = lv != 0 ? truth : 0; rv = rv != 0 ? truth : 0; lo = lo != 0 ? 65535 : 0; ro = ro != 0 ? 65535 : 0
        ll = rl = 5
        op = op == "&&" ? "AND" : "OR"
    }
    level = ours[op]
    both = wrapped(lt, ll, level) (op ~ /^[A-Z]/ ? " " op " " : op) wrapped(rt, rl, level + 1)
    out_known = lk && rk
    out_place = lp || rp
    if (out_known) {
        out_value = signed(compute(op, lv, rv, truth))
        out_ours = unsigned(compute(op, lo, ro, 65535))
    } else if (truth == 1 && level == 5) {
        both = "(" both ") AND 1"
        level = 3
    }
    out_text = both; out_level = level
}

# Whether a line above defines a name.
function is_seen(name,    key) {
    key = known_as(name)
    if (is_parameter(name)) wrong = "whether a parameter is defined"
    if (!(key in seen)) return 0
    if (seen[key] < 0) wrong = "whether a name is defined that a macro or an IF defines"
    return 1
}

function parse_prefix(op, least,    k, t) {
    if (from == "z80asm" && op ~ /^(-|NOT)$/ && (value_of[p] == "-" || value_of[p] == "~")) { wrong = "two signs: z80asm has an order of its own for them"; p = last + 1; term(0, "0"); return }
    if (op == "DEFINED") {
        t = value_of[p++]
        k = is_seen(t)
        if (k) term(truth, truth == 1 ? "1" : "0FFFFH"); else term(0, "0")
        remark = remark " " value_of[p - 1] (k ? " is" : " is not") " defined."
        return
    }
    if (op == "NUL") { wrong = "NUL: whether an argument is empty"; p = last + 1; term(0, "0"); return }
    if (intel) k = p - 1
    parse_level(least)
    if (intel) doubt_prefix(op, k)
    note_calculated()
    t = out_text; k = out_level
    if (op == "+") return
    rely(out_base, out_offset)
    if (out_base != "") out_base = "?"
    if (op == "!" && out_wide) wrong = too_wide
    out_plain = op ~ /^(HIGH|LOW)$/ || op == "!" && from != "sjasmplus"
    if (out_plain) out_wide = 0
    if (op == "-") { out_text = "-" wrapped(t, k, 8); out_level = 8; out_value = signed(-out_value); out_ours = unsigned(-out_ours) }
    else if (op == "NOT") { out_text = "NOT " wrapped(t, k, 4); out_level = 4; out_value = signed(-1 - out_value); out_ours = unsigned(-1 - out_ours) }
    else if (op == "!") { out_text = wrapped(t, k, 5) " EQ 0"; out_level = 5; out_value = out_value == 0 ? truth : 0; out_ours = out_ours == 0 ? 65535 : 0 }
    else if (op == "HIGH") { out_text = "HIGH " wrapped(t, k, 8); out_level = 8; out_value = int(unsigned(out_value) / 256); out_ours = int(out_ours / 256) }
    else { out_text = "LOW " wrapped(t, k, 8); out_level = 8; out_value = unsigned(out_value) % 256; out_ours = out_ours % 256 }
    if (out_base == "") out_offset = out_value
}

function parse_term(    v, key, n) {
    if (p > last) { wrong = "an expression without its end"; term(0, "0"); return }
    v = value_of[p]
    if (kind_of[p] == "n") { term(number_of[p], value_of[p]); p++; return }
    if (kind_of[p] == "s") {
        p++
        n = length(v)
        if (n == 1) { term(byte_of(v), character_text(v)); return }
        if (n == 2 && (from == "m80" || from == "sjasmplus")) {
            # The first character is the upper byte.
            term(256 * byte_of(substr(v, 1, 1)) + byte_of(substr(v, 2, 1)), "(" character_text(substr(v, 1, 1)) "*256+" character_text(substr(v, 2, 1)) ")")
            return
        }
        wrong = "a string in an expression"
        term(0, "0")
        return
    }
    if (kind_of[p] == "i") {
        if ((toupper(v) in prefix) && !(known_as(v) in defined) && !is_parameter(v)) { p++; parse_prefix(prefix[toupper(v)], looser[toupper(v)]); return }
        p++
        if (is_parameter(v)) {
            if (intel && !(as_argument && parse_first == last)) note_use(v, "v")
            term(0, parameter_text(v))
            out_known = 0; out_plain = 0; out_parameter = v; out_base = "?"
            n = is_parameter(v)
            if (!((n, folded(v)) in number_of_parameter)) {
                # A LOCAL label.
                out_base = "@" stack[n] " " toupper(v); out_plain = 1; out_offset = 0
            }
            return
        }
        if (from == "m80" && value_of[p] == "##" && p <= last) { p++; external[known_as(v)] = 1; if (walk_number == 2 && !(known_as(v) in declared)) { declared[known_as(v)] = 1; wanted[++wants] = v } }
        key = known_as(v)
        if (intel && value_of_word(v, key)) return
        if (what_is(key) == "DEFL" && (macro_depth() || walk_number == 2 && (key in tainted))) { term(0, name_for(v)); out_known = 0; wrong = "a name that changes its value"; return }
        if (key in constant) { term(constant[key], name_for(v)); out_ours = constant_ours[key]; if (what_is(key) == "DEFL") out_text = number_text(out_ours); return }
        term(0, name_for(v))
        out_known = 0
        out_base = v == "$" ? "#" here : key in base_of ? base_of[key] : key
        out_offset = key in base_of ? offset_of[key] : 0
        out_plain = v == "$" || what_is(key) == "LABEL" || (key in external) || (key in address_name)
        # In sdas a point is where its own item lies, here the line.
        if (v == "$" && item_at > 0) out_text = "($+" item_at ")"
        if (from == "sdas" && walk_number == 2 && v ~ /^[A-Za-z_.]/ && !(key in defined) && !(key in external) && !in_macro()) {
            external[key] = 1
            wanted[++wants] = key
        }
        out_place = v == "$" || (key in places) || (key in external) || !(key in defined) && !(in_macro())
        if (what_is(key) == "DEFL") wrong = "a name that changes its value"
        return
    }
    if (v == "[" && from == "z80asm") { wrong = "z80asm makes something else of [ ]"; p = last + 1; term(0, "0"); return }
    if (v == "(" || v == "[" && from != "m80") {
        p++
        parse_level(0)
        if (wrong) return
        if (value_of[p] != (v == "(" ? ")" : "]") || p > last) { wrong = "a parenthesis without its end"; return }
        p++
        # The argument may have operators that are looser than those around the parentheses.
        if (out_parameter != "") { out_text = "(" out_text ")"; out_parameter = "" }
        return
    }
    if (v in prefix) { p++; parse_prefix(prefix[v], looser[v]); return }
    wrong = "an expression that it does not know"
    p = last + 1
    term(0, "0")
}

# Notes that the body of a macro calculates with a parameter, so that an argument with operators may be read in another way here.
function note_calculated(    k) {
    if (out_parameter == "") return
    k = is_parameter(out_parameter)
    if (k && (k, folded(out_parameter)) in number_of_parameter)
        calculated[macro_of[k], number_of_parameter[k, folded(out_parameter)]] = 1
    out_parameter = ""
}

# ---- Lengths that code relies on
#
# An expression such as $+5 or NAME+3 relies on the lengths of what lies between. base is "#LINE" for $ on that line, "@BLOCK NAME" for
# a LOCAL label, the key of another name, "?" for what is none of these, and "" for a number; offset is what is added to it.

function rely(base, offset, unless) {
    if (walk_number != 1 || keep || base == "" || base == "?" || offset == 0) return
    relies++
    rely_base[relies] = base; rely_offset[relies] = offset; rely_line[relies] = here; rely_unless[relies] = unless
}

# Notes what an operator relies on, and gives base_now and offset_now of its result.
function rely_on_both(op, lb, lo, rb, ro) {
    base_now = "?"; offset_now = 0
    if (lb == "" && rb == "") { base_now = ""; return }
    if (op == "+" && rb == "") { base_now = lb; offset_now = lo + ro; return }
    if (op == "+" && lb == "") { base_now = rb; offset_now = lo + ro; return }
    if (op == "-" && rb == "") { base_now = lb; offset_now = lo - ro; return }
    if (op == "+") { rely(lb, "?", rb); rely(rb, "?", lb); return }
    if (op == "-" && lb != "") { rely(lb, rb == "?" ? "?" : lo, ""); rely(lb, "?", rb); rely(rb, ro, ""); return }
    rely(lb, lo, ""); rely(rb, ro, "")
}

# The line on which a base lies, 0 if it is no address; what is to be added to the offset is put into base_offset.
function line_of_base(base,    n) {
    base_offset = 0
    for (n = 0; n < 16 && (base in base_of); n++) { base_offset += offset_of[base]; base = base_of[base] }
    if (base ~ /^#/) return substr(base, 2) + 0
    if (base ~ /^@/) return (base in local_line) ? local_line[base] : 0
    return what_is(base) == "LABEL" ? line_of[base] : 0
}

# Finds the lines that have to keep their lengths.
function settle(    k, from_line, offset) {
    if (intel) spread_uses()
    for (k = 1; k <= relies; k++) {
        if (rely_unless[k] != "" && rely_unless[k] != "?" && line_of_base(rely_unless[k])) continue
        from_line = line_of_base(rely_base[k])
        if (!from_line) continue
        if (rely_offset[k] == "?") {
            if (rely_base[k] ~ /^#/) { uncertain[rely_line[k]] = "a distance from $ that is not known"; continue }
            offset = 256
        } else offset = rely_offset[k] + base_offset
        keep_lines(from_line, offset, rely_line[k])
    }
}

function keep_lines(from_line, n, asking,    i, step, block) {
    n = n % 65536
    if (n > 32767) n -= 65536
    if (n < -32768) n += 65536
    step = n < 0 ? -1 : 1
    block = block_at[from_line]
    if (step < 0) n = -n
    for (i = from_line; i >= 1 && i <= lines && n > 0; i += step) {
        if (block && step < 0 && i == block || block && step > 0 && (i in is_endm) && block_at[i] == block) {
            uncertain[asking] = "an address outside of its macro or repetition"
            return
        }
        steps[i] = 1
        if (i in call_of) keep_body(call_of[i])
        if (i == from_line && step < 0) continue
        if (block_at[i] == block && (i in least)) n -= least[i]
    }
}

# The body of a macro, wherever it is called.
function keep_body(name,    i) {
    if ((name in kept_body) || !(name in macro_line)) return
    kept_body[name] = 1
    for (i = macro_line[name] + 1; i <= lines && !((i in is_endm) && block_at[i] == macro_line[name]); i++) {
        steps[i] = 1
        if (i in call_of) keep_body(call_of[i])
    }
}

# ---- Tables of jumps
#
# JP lines without a condition, one after the other, of which the second and later have no label: only a computed jump reaches these, so
# the program enters a table by an index. NOP, RET, JR and data between them belong to the table. The first walk keeps the JP lines since
# the last label or other statement in run_line, and notes those of a table in in_table. A macro that begins and ends with such a JP may
# be one entry.

function end_run() {
    if (walk_number != 1 || is_dead()) return
    run_jumps = 0; body_begins = 0
}

function note_jump(    i) {
    if (walk_number != 1 || is_dead()) return
    run_line[++run_jumps] = here
    if (run_jumps > 1) for (i = 1; i <= run_jumps; i++) in_table[run_line[i]] = 1
    if (body_begins) first_jump[body_begins] = here
    body_begins = 0
}

# A statement that may be a part of a table.
function note_filler() {
    if (walk_number == 1 && !is_dead()) body_begins = 0
}

function note_call(name,    i, m) {
    if (walk_number != 1 || is_dead()) return
    m = name in macro_line ? macro_line[name] : 0
    if (!(m in last_jump)) { end_run(); return }
    if (!(m in first_jump)) run_jumps = 0
    else if (run_jumps > 0) {
        for (i = 1; i <= run_jumps; i++) in_table[run_line[i]] = 1
        in_table[first_jump[m]] = in_table[last_jump[m]] = 1
    }
    run_line[++run_jumps] = last_jump[m]
    body_begins = 0
}

function begin_body(is_macro) {
    if (walk_number != 1) return
    if (is_macro) run_jumps = 0
    body_begins = here
}

function end_body(begins, is_macro,    i) {
    if (walk_number != 1) return
    if (run_jumps > 0) {
        if (is_macro) last_jump[begins] = run_line[run_jumps]
        # The next repetition follows.
        else if (begins in first_jump) for (i = 1; i <= run_jumps; i++) in_table[run_line[i]] = 1
    }
    if (is_macro) run_jumps = 0
    body_begins = 0
}

# Notes how many bytes a line has at least.
function note_least(n,    k) {
    if (walk_number != 1) return
    for (k = if_depth; k > 0; k--) if (if_state[k] != 1) n = 0
    if (!(here in least) || least[here] > n) least[here] = n
}

# Whether a shift is by a parameter alone, which is noted: the calls have to give it a small number.
function shifts_by_parameter(    k, key) {
    if (out_parameter == "") return 0
    k = is_parameter(out_parameter)
    key = folded(out_parameter)
    if (!k || !((k, key) in number_of_parameter)) return 0
    shifts[macro_of[k], number_of_parameter[k, key]] = 1
    return 1
}

# Whether two operands give an operator the same value with signs and 32 bits as without them and 16.
function is_plain(known, v, unless_known) {
    return known ? v >= 0 && v < 65536 : unless_known
}

function signs_matter(op, lk, lv, lplain, rk, rv, rplain) {
    if (from == "pasmo" || from == "m80" || lk && rk || (op == "&&" || op == "||")) return 0
    if (op ~ /^(EQ|NE)$/) return !(lk && lv >= 0 && lv < 32768 || rk && rv >= 0 && rv < 32768 || is_plain(lk, lv, lplain) && is_plain(rk, rv, rplain))
    if (op ~ /^SH/ && (rk ? rv < 0 || rv > 31 : !rplain)) return 1
    if (op ~ /^(\/|MOD|SHR|LT|LE|GT|GE)$/) return !(is_plain(lk, lv, lplain) && is_plain(rk, rv, rplain))
    return 0
}

function plain_result(op, lk, lv, lplain, lp, rk, rv, rplain, rp,    l, r) {
    l = is_plain(lk, lv, lplain); r = is_plain(rk, rv, rplain)
    if (op ~ /^(EQ|NE|LT|LE|GT|GE|&&|\|\|)$/) return from != "sjasmplus"
    if (op == "AND") return l || r
    if (op ~ /^(\/|MOD|SHR|OR|XOR)$/) return l && r
    if (op == "+") return l && rk || lk && r
    if (op == "-") return lp && l && rk
    return 0
}

function parse_level(least,    op, lt, ll, lk, lv, lo, lp, lplain, plain_now, lbase, loffset, lwide, wide_now) {
    parse_term()
    while (p <= last && !wrong && kind_of[p] != "n" && kind_of[p] != "s") {
        op = toupper(value_of[p])
        if (!(op in binary) || tight[op] < least) break
        p++
        note_calculated()
        lt = out_text; ll = out_level; lk = out_known; lv = out_value; lo = out_ours; lp = out_place; lplain = out_plain; lbase = out_base; loffset = out_offset; lwide = out_wide
        # Comparisons of z80asm group to the right.
        parse_level(tight[op] + !(from == "z80asm" && ours[binary[op]] == 5))
        if (binary[op] ~ /^SH/ && (from == "pasmo" || from == "m80" ? (out_known ? out_value > 31 : !shifts_by_parameter()) : !out_known && out_plain)) wrong = "a shift by a number that is not known"
        if (intel && binary[op] ~ /^SH/ && out_known && out_value > 16) wrong = "a shift by more than 16 bits"
        note_calculated()
        if (signs_matter(binary[op], lk, lv, lplain, out_known, out_value, out_plain)) wrong = "a value that may be negative, in a division, shift or comparison"
        plain_now = plain_result(binary[op], lk, lv, lplain, lp, out_known, out_value, out_plain, out_place)
        if ((lwide || out_wide) && binary[op] ~ /^(EQ|NE|&&|\|\|)$/) wrong = too_wide
        # A product that is 0 on 16 bits need not be 0 on 32.
        wide_now = !plain_now && (lwide || out_wide || (binary[op] == "*" || binary[op] == "SHL") && !(lk && out_known) && from != "pasmo" && from != "m80")
        rely_on_both(binary[op], lbase, loffset, out_base, out_offset)
        joined(binary[op], lt, ll, lk, lv, lo, lp, out_text, out_level, out_known, out_value, out_ours, out_place)
        out_plain = plain_now; out_wide = wide_now
        out_base = base_now; out_offset = out_base == "" ? out_value : offset_now
    }
}

# CONDITION ? ONE : OTHER. If the condition is known, one of them; else both, masked.
function choice(    t, level, known, v, one, one_level, one_known, one_value, one_ours, one_place, in_place) {
    note_calculated()
    t = out_text; level = out_level; known = out_known; v = out_value; in_place = out_place
    p++
    parse_level(0)
    note_calculated()
    rely(out_base, out_offset, "")
    one = out_text; one_level = out_level; one_known = out_known; one_value = out_value; one_ours = out_ours; one_place = out_place
    if (wrong || value_of[p] != ":" || p > last) { wrong = "a choice that it does not know"; return }
    p++
    parse_level(0)
    note_calculated()
    rely(out_base, out_offset, "")
    if (p <= last && value_of[p] == "?") choice()
    out_base = "?"
    if (known) {
        if (v != 0) { out_text = one; out_level = one_level; out_known = one_known; out_value = one_value; out_ours = one_ours; out_place = one_place }
        return
    }
    out_text = wrapped(t, level, 6) " NE 0 AND " wrapped(one, one_level, 4) " OR " wrapped(t, level, 6) " EQ 0 AND " wrapped(out_text, out_level, 4)
    out_level = 2; out_known = 0; out_place = in_place || one_place || out_place
}

function number_text(v) {
    return v > 9 ? v > 255 ? hexadecimal(v) : v "" : v ""
}

# A whole expression, from one token to another.
function parse(a, b,    v) {
    p = parse_first = a; last = b
    parse_level(0)
    if (p <= b && !wrong && value_of[p] == "?" && kind_of[p] == "o" && (from == "pasmo" || from == "z80asm")) choice()
    if (p <= b && !wrong) wrong = "an expression that it does not know"
    rely(out_base, out_offset, "")
    # z80dev would reckon another value.
    if (out_known && unsigned(out_value) != out_ours) {
        out_text = number_text(unsigned(out_value)); out_level = 9
        out_ours = unsigned(out_value)
    }
}

# As parse, for a place that holds one byte: what the other assembler cuts off is cut off here by LOW.
function parse_byte(a, b) {
    parse(a, b)
    if ((out_place || out_known && out_ours > 255 && out_ours < 65408) && !(out_level == 8 && out_text ~ /^(LOW|HIGH) /)) {
        out_text = "LOW " wrapped(out_text, out_level, 9)
        out_level = 8
    }
}

# ---- Operands

# The partner of an opening bracket.
function partner(k, b,    depth, v) {
    depth = 0
    for (; k <= b; k++) {
        if (kind_of[k] != "o") continue
        v = value_of[k]
        if (v == "(" || v == "[") depth++
        else if (v == ")" || v == "]") if (--depth == 0) return k
    }
    return 0
}

# Reads the operands of an instruction from token a on: what_of is r for a register or condition, m for memory, e for a value.
function read_operands(a, b,    k, start, depth) {
    operands = 0
    start = a
    depth = 0
    if (a > b) return
    for (k = a; k <= b + 1; k++) {
        if (k == b + 1 || value_of[k] == "," && kind_of[k] == "o" && depth == 0) {
            operands++
            if (k > start) read_operand(start, k - 1, operands)
            else { what_of[operands] = "e"; text_of[operands] = ""; wrong = "an empty operand" }
            start = k + 1
        } else if (kind_of[k] == "o" && (value_of[k] == "(" || value_of[k] == "[")) depth++
        else if (kind_of[k] == "o" && (value_of[k] == ")" || value_of[k] == "]")) depth--
    }
}

function is_register(k,    v) {
    v = toupper(value_of[k])
    if (kind_of[k] == "i" && is_parameter(value_of[k])) return 0
    return kind_of[k] == "i" && ((v in register) || from == "sjasmplus" && v ~ /^(HX|LX|XH|XL|HY|LY|YH|YL)$/ || v == "F" && from != "m80") && !(known_as(value_of[k]) in defined)
}

function one_name(v) {
    v = toupper(v)
    if (v == "HX" || v == "XH") return "IXH"
    if (v == "LX" || v == "XL") return "IXL"
    if (v == "HY" || v == "YH") return "IYH"
    if (v == "LY" || v == "YL") return "IYL"
    return ""
}

# A displacement from IX or IY: its tokens begin with a sign.
function displacement(a, b,    sign, t, k) {
    if (a > b) return ""
    sign = value_of[a]
    if (sign != "+" && sign != "-") { wrong = "a displacement that it does not know"; return "" }
    if (from == "pasmo" || from == "m80") {
        # The sign belongs to all that follows it.
        parse(a + 1, b)
        note_calculated()
        t = wrapped(out_text, out_level, 7)
        # Whether M80 takes -5+2 for -7 or for -3 is not known here.
        for (k = a + 2; k <= b && from == "m80" && sign == "-"; k++) {
            if (value_of[k - 1] == "(" && kind_of[k - 1] == "o") k = partner(k - 1, b)
            if (k && value_of[k] ~ /^[+-]$/ && kind_of[k] == "o") wrong = "a displacement that can be read in two ways"
            if (!k) break
        }
        byte_value = sign == "-" ? -out_value : out_value
        return sign t
    }
    # A number 0 in front, and the sign is an operator between two values.
    kind_of[a - 1] = "n"; value_of[a - 1] = "0"; number_of[a - 1] = 0
    parse(a - 1, b)
    t = out_text
    if (t ~ /^0[+-]/ && out_level >= 6) return substr(t, 2)
    if (t ~ /^-/) return t
    return "+" wrapped(t, out_level, 7)
}

function read_operand(a, b, n,    v, k, had, value) {
    name_of[n] = ""; level_of[n] = 9; place_of[n] = 0; known_of[n] = 0; shift_of[n] = ""; first_of[n] = a; last_of[n] = b
    value = from == "sdas" && value_of[a] == "#"
    if (value) a++
    first_of[n] = a
    if (a > b) { wrong = "an empty operand"; what_of[n] = "e"; text_of[n] = ""; return }
    if (a == b && is_register(a)) {
        what_of[n] = "r"
        text_of[n] = one_name(value_of[a]) != "" ? one_name(value_of[a]) : value_of[a]
        name_of[n] = toupper(text_of[n])
        return
    }
    if (from == "sdas" && value_of[b] == ")" && toupper(value_of[b - 1]) ~ /^I[XY]$/ && value_of[b - 2] == "(" && b - 2 > a) {
        if (value_of[a] == "#") a++
        parse(a, b - 3)
        note_calculated()
        what_of[n] = "m"
        name_of[n] = toupper(value_of[b - 1])
        shift_of[n] = out_text ~ /^-/ && out_level >= 6 ? out_text : "+" wrapped(out_text, out_level, 7)
        text_of[n] = "(" value_of[b - 1] shift_of[n] ")"
        return
    }
    if (!value && !intel && (value_of[a] == "(" || value_of[a] == "[") && kind_of[a] == "o" && partner(a, b) == b && !(from == "z80asm" && value_of[a] == "[")) {
        what_of[n] = "m"
        if (a + 1 == b - 1 && is_register(a + 1)) {
            name_of[n] = toupper(value_of[a + 1])
            text_of[n] = "(" value_of[a + 1] ")"
            return
        }
        if (kind_of[a + 1] == "i" && toupper(value_of[a + 1]) ~ /^I[XY]$/) {
            v = value_of[a + 1]
            name_of[n] = toupper(v)
            shift_of[n] = displacement(a + 2, b - 1)
            text_of[n] = "(" v shift_of[n] ")"
            return
        }
        if (kind_of[b - 1] == "i" && toupper(value_of[b - 1]) ~ /^I[XY]$/ && value_of[b - 2] == "+") {
            parse(a + 1, b - 3)
            name_of[n] = toupper(value_of[b - 1])
            shift_of[n] = "+" wrapped(out_text, out_level, 7)
            text_of[n] = "(" value_of[b - 1] shift_of[n] ")"
            return
        }
        k = a + 1
        if (from == "sdas" && value_of[k] == "#") k++
        parse(k, b - 1)
        inner_of[n] = out_text
        inner_level[n] = out_level
        level_of[n] = out_level; place_of[n] = out_place; known_of[n] = out_known; worth_of[n] = out_ours
        text_of[n] = "(" out_text ")"
        return
    }
    what_of[n] = "e"
    had = wrong
    parse(a, b)
    # An argument of a macro may be anything.
    if (wrong && !had && as_argument) {
        wrong = ""; out_text = by_tokens(a, b); out_level = 9
        for (k = a; k <= b; k++) if (kind_of[k] == "o" && value_of[k] !~ /^[][()+-]$/) wrong = "an argument that it does not know"
    }
    text_of[n] = out_text
    level_of[n] = out_level; place_of[n] = out_place; known_of[n] = out_known; worth_of[n] = out_ours
    if (a == b && kind_of[a] == "i") name_of[n] = value_of[a]
    # An argument in parentheses is no memory after #.
    if (value && a == b && is_parameter(value_of[a])) { text_of[n] = "+" text_of[n]; level_of[n] = 8 }
    # So that a value that begins with a parenthesis is none in memory.
    if (text_of[n] ~ /^\(/ && ends_with_partner(text_of[n])) text_of[n] = "+" text_of[n]
}

function ends_with_partner(t,    i, depth, c) {
    depth = 0
    for (i = 1; i <= length(t); i++) {
        c = substr(t, i, 1)
        if (c == "(") depth++
        else if (c == ")" && --depth == 0) return i == length(t)
    }
    return 0
}

# Tokens as they stand, each one converted for itself.
function by_tokens(a, b,    k, s, v) {
    s = ""
    for (k = a; k <= b; k++) {
        v = value_of[k]
        if (kind_of[k] == "s") v = string_items(v)
        else if (kind_of[k] == "i") v = is_register(k) || (toupper(v) in instruction) ? v : name_for(v)
        else if (kind_of[k] == "o" && (v in binary) && binary[v] ~ /^[A-Z]/) v = " " binary[v] " "
        if (k > a && begin_of[k] > end_of[k - 1] + 1 && s !~ / $/) s = s " "
        s = s v
    }
    return s
}

# The items of a DB line for the bytes of a string.
function string_items(v,    i, c, s, open) {
    s = ""; open = 0
    for (i = 1; i <= length(v); i++) {
        c = substr(v, i, 1)
        if (c ~ /[ -~\t]/ || byte_of(c) > 126) {
            if (!open) s = s (s == "" ? "" : ",") QUOTE
            open = 1
            s = s (c == QUOTE ? QUOTE QUOTE : c)
        } else {
            if (open) s = s QUOTE
            open = 0
            s = s (s == "" ? "" : ",") byte_of(c)
        }
    }
    if (open) s = s QUOTE
    return s
}

# ---- Walks

function in_macro() {
    return macros > 0
}

# Takes lines up, in order. A block that is written out sets jump_to, the line after it.
function run(first, final,    i) {
    i = first
    while (i <= final) {
        here = i
        if (walk_number == 1) block_at[i] = macros ? block_of[macros] : 0
        jump_to = 0
        # What the main file includes after its END is not read either.
        if (ended && (file_of[i] == ended || ended == 1)) { if (walk_number == 2) print ";" line[i]; i++; continue }
        one_line(replaced(line[i]))
        i = jump_to ? jump_to : i + 1
    }
}

# ---- Branches
#
# if_state has a number for each IF that is open: 1 if the branch is taken, 0 if it is not, -1 if that is not known. chained has how
# many more its ENDIF closes, for an IF that was an ELSEIF.

function open_if(state, links) {
    if_state[++if_depth] = state
    chained[if_depth] = links + 0
}

function other_branch() {
    if (if_depth > 0 && if_state[if_depth] >= 0) if_state[if_depth] = 1 - if_state[if_depth]
}

function close_if() {
    if (if_depth > 0) if_depth--
}

# Whether this line is certainly not assembled.
function is_dead(    k) {
    for (k = if_depth; k > 0; k--) if (if_state[k] == 0) return 1
    return 0
}

# Whether it depends on a call, or on a condition of unknown value, what this line defines.
function is_unsure(    k) {
    if (macros) return 1
    for (k = if_depth; k > 0; k--) if (if_state[k] < 0) return 1
    return 0
}

# Notes that a name has been defined, for IFDEF: 1 for certain, -1 perhaps.
function note_seen(name,    key) {
    if (is_dead()) return
    key = known_as(name)
    if (!is_unsure()) seen[key] = 1
    else if (!(key in seen)) seen[key] = -1
}

# A line with the names of repetitions over lists replaced by their items.
function replaced(s,    n) {
    for (n = 1; n <= lists; n++) s = put_for(s, list_name[n], list_item[n])
    return s
}

# A line with one name replaced by a text, but in strings and comments.
function put_for(s, name, item,    out, i, c, quote, word) {
    out = ""; quote = ""
    for (i = 1; i <= length(s); i++) {
        c = substr(s, i, 1)
        if (quote != "") {
            if (c == "\\" && escapes(quote)) { out = out c; c = substr(s, ++i, 1) }
            else if (c == quote) quote = ""
        } else if (c == ";") return out substr(s, i)
        else if (c == "\"" || c == QUOTE && toupper(substr(s, i - 2, 2)) != "AF") quote = c
        else if (c ~ /[A-Za-z0-9_?@.$]/) {
            word = ""
            while (i <= length(s) && substr(s, i, 1) ~ /[A-Za-z0-9_?@.$]/) word = word substr(s, i++, 1)
            i--
            out = out (folded(word) == folded(name) ? item : word)
            continue
        } else if (substr(s, i, 2) == "##" && from == "pasmo") { i++; sub(/[ \t]+$/, "", out); while (substr(s, i + 1, 1) ~ /[ \t]/) i++; continue }
        out = out c
    }
    return out
}

# The words of a line, without its strings and its comment.
function bare(t) {
    t = " " toupper(t) " "
    gsub(/AF'/, "AF", t)
    gsub(/"[^"]*"/, " ", t)
    if (from != "sdas") gsub(/'[^']*'/, " ", t)
    sub(/;.*/, " ", t)
    gsub(/[\t:]/, " ", t)
    return t
}

# The line of the ENDM that closes the block whose line is here, 0 if there is none.
function end_of_block(    i, depth, t) {
    depth = 1
    for (i = here + 1; i <= lines; i++) {
        t = bare(line[i])
        if (t ~ / \.?(MACRO|REPT|IRP|IRPC) / || from == "sjasmplus" && t ~ / DUP /) depth++
        else if (t ~ / \.?ENDM / || from == "sjasmplus" && t ~ / (EDUP|ENDR) /) if (--depth == 0) return i
    }
    return 0
}

# Whether the branch of the IF whose line is here only prints: M80 assembles IF2 in its second pass.
function says_only(    i, depth, t) {
    depth = 1
    for (i = here + 1; i <= lines; i++) {
        t = bare(line[i])
        if (t ~ /^ *(IF|COND )/) depth++
        else if (t ~ /^ *(ENDIF|ENDC) / || depth == 1 && t ~ /^ *ELSE/) { if (--depth == 0) return 1 }
        else if (t !~ /^ *(ELSE |\.[A-Z]+ |$)/ || t ~ /^ *\.(RADIX|COMMENT|PHASE|DEPHASE|8080|Z80) /) return 0
    }
    return 0
}

# Whether the repetitions of a block have to be written out: a name changes its value there, or is one of each repetition.
function has_to_unroll(ends,    i, t) {
    for (i = here + 1; i < ends; i++) {
        t = bare(line[i])
        if (t ~ / (DEFL|ASET|LOCAL) / || from == "sjasmplus" && t ~ /^ [A-Z0-9_.]+ *=/) return 1
        if (from == "m80" && t ~ /^ [A-Z0-9_.?@$]+ +SET /) return 1
    }
    return 0
}

# Takes a block up several times. Each time has names of its own by LOCAL, and a value of its own if it counts.
function unroll(ends, count, name, first, step,    i, begins, key) {
    begins = here
    for (i = 0; i < count; i++) {
        procs++; proc_count++
        if (name != "") {
            own_of[procs, name] = clean(name) "_P" proc_count
            key = known_as(name)
            defined[key] = "DEFL"; times[key] = 2
            constant[key] = first + i * step
            constant_ours[key] = unsigned(first + i * step)
        }
        run_closed(begins + 1, ends - 1)
        drop_names(procs)
        procs--
    }
    jump_to = ends + 1
}

# Takes the lines of a block up once. Its ENDM closes what is open in it.
function run_closed(first, final,    depth) {
    depth = if_depth
    run(first, final)
    while (if_depth > depth) { if_depth--; if (walk_number == 2) print "\tENDIF" }
}

function drop_names(level,    k, part) {
    for (k in own_of) { split(k, part, SUBSEP); if (part[1] == level) delete own_of[k] }
}

function walk(number) {
    walk_number = number
    in_comment = 0; scope = 0; above = ""; macros = 0; procs = 0; proc_count = 0; radix = 10; lists = 0; ended = 0; said_org = 0
    # A source without .Z80 in which words of the 8080 are is one of the 8080, as M80 takes it.
    mode_8080 = number == 2 && begins_8080; says_z80 = 0
    if_depth = 0; run_jumps = 0; body_begins = 0
    segment = from == "m80" ? "CSEG" : "_CODE"; last_filled = ""; is_moved = 0; split("", filled); split("", absolute)
    split("", seen); split("", counter); split("", parameter); split("", parameter_now); split("", own_of); split("", constant); split("", constant_ours); split("", stack)
    run(1, lines)
    if (number == 2 && in_comment) mark("", "a comment without an end")
}

function one_line(s,    at, k, start, depth) {
    remark = ""
    marked = 0
    # A file that is included in a comment is not read, so its lines do not end the comment.
    if (in_comment && file_of[here] != comment_file) { if (walk_number == 2) plain(";" s); return }
    comment_file = file_of[here]
    if (in_comment == 1) {
        at = index(s, "*/")
        if (!at) { if (walk_number == 2) print ";" s; return }
        if (walk_number == 2) print ";" substr(s, 1, at + 1)
        in_comment = 0
        s = substr(s, at + 2)
        if (s ~ /^[ \t]*$/) return
    }
    if (in_comment == 2) {
        if (walk_number == 2) print ";" s
        if (index(s, comment_mark)) in_comment = 0
        return
    }
    source = s
    if (intel && s ~ /^\$[ \t]*[-+*A-Za-z]/ && toupper(s) !~ /^\$INCLUDE/) { if (walk_number == 2) plain(";" s); return }
    cut(s)
    if (intel && comment ~ /!/ && walk_number == 2 && has_statement(comment)) { mark("", "ASM reads a statement after the ! of a comment"); return }
    line_wrong = wrong
    if (tokens == 0 && !wrong) {
        s = substr(s, 1, tail - 1)
        # A line number of ASM.
        if (intel) sub(/^[ \t]*[0-9]+/, "", s)
        if (walk_number == 2) plain(comment == "" ? "" : s comment)
        return
    }
    if (from == "sjasmplus") {
        # Statements of one line, divided by colons.
        start = 1; parts = 0
        depth = label_end(1, tokens)
        for (k = depth + 1; k <= tokens + 1; k++) {
            if (k == tokens + 1 || value_of[k] == ":" && kind_of[k] == "o") {
                if (k <= tokens || parts > 0) split_line = 1
                part_from[++parts] = start; part_to[parts] = k - 1
                start = k + 1
            }
        }
        saved = comment
        for (k = 1; k <= parts; k++) {
            comment = k == parts ? saved : ""
            wrong = line_wrong
            if (part_to[k] >= part_from[k] || comment != "") statement(part_from[k], part_to[k])
        }
        return
    }
    statement(1, tokens)
}

# The last token of the label of a statement, 0 where it has none.
function label_end(a, b,    v, w) {
    if (a > b || kind_of[a] != "i") return 0
    v = toupper(value_of[a])
    w = a < b ? toupper(value_of[a + 1]) : ""
    if (w == ":" && kind_of[a + 1] == "o") {
        if (from == "sjasmplus" && (v in instruction) && begin_of[a] > 1) return 0
        return a + 1
    }
    if (w == "::") return a + 1
    if (w == "=" || meaning(w) ~ /^(EQU|DEFL|MACRO)$/ && meaning(v) != "MACRO" && from != "sdas") {
        if (w == "=" && from == "pasmo") return 0
        return a
    }
    if (from == "sdas" && (w == "==" || meaning(w) == "EQU2")) return a
    if (w == "SET" && from == "m80") return a
    if (intel) return intel_label(a, b, v, w)
    if ((v in instruction) || (v in does) || (known_as(value_of[a]) in macro)) return 0
    if (from == "pasmo") {
        for (w = macros; w > 0; w--) if ((w, value_of[a]) in parameter) return begin_of[a] == 1 ? a : 0
        return a
    }
    if (from == "sjasmplus") return begin_of[a] == 1 ? a : 0
    return 0
}

# What of a line of a macro's body would be replaced here and not there, or there and not here.
function trouble_with_parameters(a, b,    k, t, part, n, i) {
    if (from == "m80") return ""
    for (t = a; t <= b; t++) {
        # sdas replaces whole words in strings, too.
        if (kind_of[t] == "s" && from == "sdas") for (k in parameter) { split(k, part, SUBSEP); if (index(value_of[t], part[2])) return "a parameter inside of a string" }
        if (kind_of[t] != "i") continue
        for (k = macros; k > 0; k--) if ((k, toupper(value_of[t])) in name_in_case && name_in_case[k, toupper(value_of[t])] != value_of[t]) return "a name that differs from a parameter in its case alone"
        if (from == "sjasmplus" && index(value_of[t], "_")) {
            n = split(value_of[t], part, "_")
            for (i = 1; i <= n; i++) if (n > 1 && is_parameter(part[i])) return "a parameter inside of a longer word"
        }
    }
    return ""
}

function statement(a, b,    k, label, public, word, does_it, a_first, why) {
    k = label_end(a, b)
    label = ""; public = 0; a_first = a
    if (from == "z80asm" && macros && walk_number == 2) {
        if (inside_of_word(a, b)) { mark("", "a parameter inside of a longer word"); return }
        if (is_twice()) { mark("", "z80asm damages a line that has a parameter twice"); return }
    }
    if (k) {
        label = value_of[a]
        public = value_of[k] == "::"
        if (from == "sjasmplus" && begin_of[a] == 1 && (toupper(label) in instruction) && value_of[k] != ":") { k = 0; label = "" }
    }
    a = k ? k + 1 : a
    if (intel && walk_number == 2 && label != "" && a > b && a == a_first + 1 && !is_label_alone(a_first)) { mark("", "a word that it does not know"); return }
    if (intel && walk_number == 2 && label != "" && (folded(label) in register) && !is_parameter(label)) { mark(label, "a label with the name of a register"); return }
    if (intel && walk_number == 2 && label != "" && !is_parameter(label) && same_to_asm(label) != "") { mark(label, "ASM reads sixteen characters of a name, which are those of " same_to_asm(label)); return }
    # A line that is no more than a label.
    if (a > b) { place(label, public); if (walk_number == 2) { if (line_wrong) mark(label, line_wrong); else say(label, "") } return }
    word = kind_of[a] == "i" ? toupper(value_of[a]) : value_of[a]
    does_it = meaning(word)
    if (word == "=" && kind_of[a] == "o" || from == "sdas" && word == "==") does_it = "SETEQ"
    if (word == "SET" && from == "m80" && label != "" && k == a - 1 && (intel || value_of[k] != ":")) does_it = "DEFL"
    if (known_as(value_of[a]) in macro && kind_of[a] == "i" && does_it !~ /^(ENDM|MACRO)$/) does_it = "CALL"
    if (from == "sjasmplus" && begin_of[a] == 1 && (word in instruction) && walk_number == 2) {
        mark(label, "sjasmplus takes a word in the first column for a label")
        return
    }
    if (does_it ~ /^(EQU|EQU2|DEFL|SETEQ|MACRO)$/) { if (public) public_name(label) }
    else if (label != "") place(label, public)
    # The list of an IRPC is characters, not numbers.
    if (line_wrong == no_number && word == "IRPC" && does_it == "IRP") line_wrong = wrong = ""
    why = ""
    if (line_wrong && does_it !~ /^(DROP|COMMENT|INCLUDE|RADIX)$/) why = line_wrong
    if (from == "m80" && (macros || lists)) for (k = a; k <= b; k++) if (kind_of[k] == "s" && index(value_of[k], "&")) why = "pasting by & in a string"
    if (macros && walk_number == 2 && does_it != "ENDM" && (k = trouble_with_parameters(a_first, b)) != "") why = k
    if (walk_number == 2 && !keep && (here in uncertain)) why = uncertain[here]
    # A block is opened all the same: its end will come.
    if (why != "" && does_it !~ /^(IF|ELSEIF|REPT|MACRO|IRP)/) { mark(label, why); return }
    wrong = why
    directive(label, word, does_it, a, b)
}

# Whether a parameter stands inside of a longer word or a string: z80asm replaces it there too.
function inside_of_word(a, b,    k, t, part, name) {
    for (k in parameter) {
        split(k, part, SUBSEP)
        name = part[2]
        if (name ~ /^\./) continue
        for (t = a; t <= b; t++) {
            if (kind_of[t] ~ /[is]/ && value_of[t] != name && index(value_of[t], name)) return 1
            if (kind_of[t] ~ /[ns]/ && index(substr(source, begin_of[t], end_of[t] - begin_of[t] + 1), name)) return 1
        }
    }
    return 0
}

# Whether a line has a parameter twice, be it in its comment: z80asm 1.8 replaces the last one alone, and cuts a letter off the others.
function is_twice(    k, part, at) {
    for (k in parameter) {
        split(k, part, SUBSEP)
        # A label such as .here is one of the call.
        if (part[2] ~ /^\./) continue
        at = index(source, part[2])
        if (at && at < tail && index(substr(source, at + length(part[2])), part[2])) return 1
    }
    return 0
}

function public_name(label) {
    if (walk_number == 1) exported[known_as(label)] = 1
    else if (!(known_as(label) in said_public)) { said_public[known_as(label)] = 1; print "\tPUBLIC\t" name_for(label) }
}

# Defines a label at its place.
function place(label, public,    k) {
    if (label == "") return
    end_run()
    if (from == "sdas" && label !~ /\$$/ && walk_number > 0) scope++
    if (from == "sjasmplus" && label ~ /^[0-9]+$/) { counter[label + 0]++; counted[label + 0] = 1; return }
    if (from == "sjasmplus" && label !~ /^\./ && !macros) above = label ~ /^@/ ? substr(label, 2) : label
    note_seen(label)
    # A parameter of a macro, or a name that is LOCAL in it, is no label of the source: elsewhere the name may be a register.
    if (macros && is_parameter(label)) {
        local_line["@" stack[is_parameter(label)] " " toupper(label)] = here
        if (!public) return
    }
    if (walk_number == 1) {
        if (macros && label ~ /^\./ && (from == "z80asm" || from == "sjasmplus")) { local_of[stack[macros]] = local_of[stack[macros]] "," clean(label); return }
        k = from == "sjasmplus" && label ~ /^\./ ? above label : label
        if (from == "sdas" && label ~ /\$$/) return
        define(k, "LABEL")
        places[known_as(k)] = 1
    }
    if (public) public_name(label)
}

# ---- Writing

function plain(s) {
    while (length(s) > 250) { print substr(s, 1, 250); s = ";" substr(s, 251) }
    print s
}

# Writes a statement with its label and the comment of its line.
function say(label, text,    s, note) {
    if (walk_number != 2) return
    note = comment
    comment = ""
    if (remark != "") note = note " ;" remark
    remark = ""
    sub(/^ ;/, ";", note)
    s = label == "" ? "" : name_for(label) ":"
    if (text != "") s = s (flush_left ? "" : "\t") text
    flush_left = 0
    if (text != "" && text !~ /^(EQU|PUBLIC|EXTRN|END|ORG|IF|ELSE|REPT|LOCAL)/ && !macros) {
        filled[segment] = 1; last_filled = segment
        if (!(segment in absolute)) is_moved = 1
    }
    if (s == "" && note == "") return
    if (length(s) + length(note) > 240 && note != "") { plain(note); note = "" }
    if (note != "") s = s (s == "" ? "" : "\t") note
    if (length(s) > 250) long_line(s); else print s
}

# A line of data that is too long is cut after an item.
function long_line(s,    head, i, c, quote, at, depth) {
    if (s !~ /^[^\t]*\tD[BW]\t/) { print s "\t;?? longer than 255 bytes"; marks++; return }
    head = s
    sub(/\tD[BW]\t.*/, "", head)
    c = substr(s, length(head) + 1, 4)
    s = substr(s, length(head) + 5)
    while (length(s) > 200) {
        quote = ""; at = 0; depth = 0
        for (i = 1; i <= 200; i++) {
            if (quote != "") { if (substr(s, i, 1) == quote) quote = "" }
            else if (substr(s, i, 1) ~ /["']/) quote = substr(s, i, 1)
            else if (substr(s, i, 1) == "(") depth++
            else if (substr(s, i, 1) == ")") depth--
            else if (substr(s, i, 1) == "," && depth == 0) at = i
        }
        if (!at && c == "\tDB\t" && substr(s, 1, 1) == QUOTE && substr(s, 180, 2) !~ QUOTE) {
            print head c substr(s, 1, 180) QUOTE
            s = QUOTE substr(s, 181)
            head = ""
            continue
        }
        if (!at) break
        print head c substr(s, 1, at - 1)
        s = substr(s, at + 1)
        head = ""
    }
    print head c s
}

# Writes a line as it was, and why it is not converted.
function mark(label, why,    s) {
    if (walk_number != 2) return
    if (marked) return
    marked = 1
    marks++
    s = substr(source, 1, tail - 1)
    sub(/[ \t]+$/, "", s)
    if (length(s) + length(why) > 240) { plain(";" s); s = "" }
    print s "\t;?? " why
    if (comment != "") { plain(comment); comment = "" }
}

# A statement before which no label may stand.
function say_alone(label, text) {
    if (walk_number != 2) return
    if (label != "") print name_for(label) ":"
    say("", text)
}

# ---- Directives

# Whether a directive goes on with a segment after lines of another one. Other linkers join the parts of a segment; here they stay where
# they are. L80 and sdld put the code first, so data before it would come to stand in the wrong place. An absolute area of sdas has an
# address of its own.
function is_late_segment(word, a,    to) {
    if (from == "m80" && toupper(word) ~ /^(CSEG|DSEG|ASEG)$/) to = toupper(word)
    else if (from == "sdas" && toupper(word) == ".AREA") to = value_of[a + 1]
    else return 0
    if (to == segment) return 0
    segment = to
    if (from == "sdas" && toupper(source) ~ /\([^)]*ABS/) absolute[to]
    return last_filled != to && ((to in filled) || is_moved && (to == "CSEG" || to == "_CODE"))
}

# Why an expression cannot be known in time: an address, or a name of no line.
function at_an_address(what, a, b,    k) {
    for (k = a; k <= b; k++) if (kind_of[k] == "i" && value_of[k] != "$" && !(toupper(value_of[k]) in prefix) && !(toupper(value_of[k]) in binary) &&
        !(known_as(value_of[k]) in defined) && !(known_as(value_of[k]) in external) && !is_parameter(value_of[k])) return what " with a name that no line defines"
    return what " that depends on an address"
}

function names_after(a, b, list,    k, n) {
    n = 0
    for (k = a; k <= b; k++) if (kind_of[k] == "i") { list[++n] = value_of[k]; referred[known_as(value_of[k])] = 1 }
    return n
}

# An expression whose value is known from what stands above it.
function note_constant(name, a, b,    key) {
    key = known_as(name)
    parse(a, b)
    if (is_dead()) return
    if (out_known && !wrong && !is_unsure()) {
        constant[key] = out_value
        constant_ours[key] = out_ours
    } else delete constant[key]
    if (out_place) places[key] = 1
    if (out_place && out_plain) address_name[key] = 1
    if (out_base != "" && out_base != "?" && out_base != key && !is_parameter(name)) { base_of[key] = out_base; offset_of[key] = out_offset }
}

function data_items(a, b, bytes,    k, start, depth, s, item, n) {
    s = ""; start = a; depth = 0; item_at = 0; item_bytes = 0
    for (k = a; k <= b + 1; k++) {
        if (k == b + 1 || value_of[k] == "," && kind_of[k] == "o" && depth == 0) {
            if (from == "sdas" && start > a) item_at += bytes ? 1 : 2
            if (from == "sdas" && value_of[start] == "#" && kind_of[start] == "o") start++
            if (intel && start > a) for (n = start; n < k; n++) if (value_of[n] == "$" && kind_of[n] == "i") wrong = "$ after the first item: assemblers differ on its address"
            item_bytes += !bytes ? 2 : start == k - 1 && kind_of[start] == "s" ? length(value_of[start]) : 1
            if (bytes && start == k - 1 && kind_of[start] == "s") {
                item = string_items(value_of[start])
                if (item == "" && from == "m80") wrong = "an empty string"
            }
            else if (start > k - 1) { if (k == b + 1 && s != "" && from == "sjasmplus") break; wrong = "an empty item"; item = "" }
            else { if (bytes) parse_byte(start, k - 1); else parse(start, k - 1); item = out_text }
            if (item == "" && !wrong) { start = k + 1; continue }
            s = s (s == "" ? "" : ",") item
            start = k + 1
        } else if (kind_of[k] == "o" && (value_of[k] == "(" || value_of[k] == "[")) depth++
        else if (kind_of[k] == "o" && (value_of[k] == ")" || value_of[k] == "]")) depth--
    }
    item_at = 0
    return s
}

function directive(label, word, what, a, b,    s, k, n, list, t, links) {
    if (what ~ /^D[BWCSZ]/) note_filler()
    else if (what ~ /^(ORG|INCBIN|MARK)$/) end_run()
    if (what == "DB") {
        s = data_items(a + 1, b, 1)
        if (from == "sdas" && !(word in delimited)) for (k = a + 1; k <= b; k++) if (kind_of[k] == "s" && length(value_of[k]) > 1) wrong = "a string of which sdas takes the first character"
        note_least(s == "" ? 0 : item_bytes)
        if (wrong) { mark(label, wrong); return }
        say(label, s == "" ? "" : "DB\t" s)
    } else if (what == "DW") {
        s = data_items(a + 1, b, 0)
        note_least(item_bytes)
        if (wrong) mark(label, wrong); else say(label, "DW\t" s)
    } else if (what == "DC" || what == "DZ") {
        if (b == a + 1 && kind_of[b] == "s" && what == "DZ") { t = string_items(value_of[b]); say(label, "DB\t" t (t == "" ? "" : ",") "0") }
        else if (what == "DZ") { s = data_items(a + 1, b, 1); if (wrong) mark(label, wrong); else say(label, "DB\t" s ",0") }
        else if (b == a + 1 && kind_of[b] == "s" && length(value_of[b]) > 0) {
            t = value_of[b]
            s = length(t) > 1 ? string_items(substr(t, 1, length(t) - 1)) "," : ""
            say(label, "DB\t" s character_text(substr(t, length(t), 1)) "+80H")
        } else mark(label, "DC with more than one string")
    } else if (what == "DS" || what == "DSW") {
        for (k = a + 1; k <= b; k++) if (value_of[k] == "," && kind_of[k] == "o") break
        n = a + 1
        if (from == "sdas" && value_of[n] == "#") n++
        parse(n, k - 1)
        if (what == "DSW") note_calculated()
        s = what == "DSW" ? "2*" wrapped(out_text, out_level, 8) : out_text
        if (out_known && what == "DS") note_least(out_ours)
        if (out_place && !wrong) wrong = at_an_address("a size", n, k - 1)
        if (k <= b && !wrong) { parse_byte(k + 1, b); s = s "," out_text }
        if (wrong) mark(label, wrong); else say(label, "DS\t" s)
    } else if (what == "EQU" || what == "SETEQ" || what == "EQU2") {
        n = a + 1
        if (what == "EQU2" && label == "") { label = value_of[a + 1]; n = a + 3 }
        if (label == "") { mark(label, "no name"); return }
        if (label == "$") { mark("", "no counterpart"); return }
        if (from == "sdas" && value_of[n] == "#") n++
        if (walk_number == 1) {
            if (what == "SETEQ" && from == "sjasmplus") define(label, "DEFL"); else define(label, "EQU")
        }
        note_seen(label)
        if (what == "SETEQ" && from == "sjasmplus" && walk_number == 1 && is_unsure() && !is_dead()) tainted[known_as(label)] = 1
        if (what == "SETEQ" && from == "sjasmplus" && changes(label)) { changing(label, n, b); return }
        if (what == "SETEQ" && from == "sjasmplus" && walk_number == 2) defined[known_as(label)] = "EQU"
        note_constant(label, n, b)
        if (walk_number == 2) {
            if (wrong) mark(label, wrong)
            else { t = name_for(label); say_name(t "\tEQU\t" out_text) }
        }
    } else if (what == "DEFL") {
        if (walk_number == 1) define(label, "DEFL")
        note_seen(label)
        if (changes(label) || walk_number == 1) { changing(label, a + 1, b); return }
        note_constant(label, a + 1, b)
        defined[known_as(label)] = "EQU"
        if (wrong) mark(label, wrong); else say_name(name_for(label) "\tEQU\t" out_text)
    } else if (what == "ORG") {
        if (intel && skips_bytes(a + 1, b)) { if (wrong) mark(label, wrong); else say(label, "DS\t" out_text); return }
        parse(a + 1, b)
        if (wrong) mark(label, wrong)
        else if (out_known && out_ours == 256 && !said_org) { said_org = 1; say_alone(label, "ORG\t" out_text) }
        else mark(label, "only ORG 0100H, once, before the program")
    } else if (what == "PUBLIC" || what == "EXTRN") {
        n = names_after(a + 1, b, list)
        s = ""
        for (k = 1; k <= n; k++) {
            if (what == "EXTRN") note_seen(list[k])
            if (walk_number == 1) { if (what == "EXTRN") external[known_as(list[k])] = declared[known_as(list[k])] = 1; else exported[known_as(list[k])] = 1 }
            else if (what == "PUBLIC" && what_is(known_as(list[k])) != "LABEL") wrong = "PUBLIC of what is no label of this file"
            if (walk_number == 2 && what == "PUBLIC") { if (known_as(list[k]) in said_public) continue; said_public[known_as(list[k])] = 1 }
            s = s (s == "" ? "" : ",") name_for(list[k])
        }
        if (s == "" && !wrong) { say(label, ""); return }
        if (from == "pasmo") {
            # It writes a file of one module, so the names are public to nothing.
            if (walk_number == 2 && label != "") print name_for(label) ":"
            if (walk_number == 2) plain(";" source)
            return
        }
        if (wrong) mark(label, wrong); else say_alone(label, what "\t" s)
    } else if (what == "GLOBL") {
        n = names_after(a + 1, b, list)
        for (k = 1; k <= n; k++) {
            if (walk_number == 1) { wanted_global[list[k]] = 1; continue }
            if (what_is(list[k]) == "LABEL") { if (!(list[k] in exported)) say("", "PUBLIC\t" name_for(list[k])) }
            else if (list[k] in defined) mark(label, "PUBLIC of what is no label")
            else { external[list[k]] = 1; say("", "EXTRN\t" name_for(list[k])) }
        }
        if (walk_number == 1) for (k = 1; k <= n; k++) if (!(list[k] in defined)) external[list[k]] = 1
    } else if (what == "END") {
        if (b > a) referred[known_as(value_of[b])] = 1
        # In a branch that is not taken it does nothing, there or here.
        if (is_dead()) { say(label, "END"); return }
        if (is_unsure()) { mark(label, "an END in a macro, or in an IF of unknown condition"); return }
        ended = file_of[here]
        if (walk_number == 2 && file_of[here] == 1) say_wanted()
        if (label != "" && walk_number == 2) print name_for(label) ":"
        if (from == "m80" && b == a + 1 && what_is(known_as(value_of[b])) == "LABEL") say("", "END\t" name_for(value_of[b]))
        else if (file_of[here] > 1) { ended = 0; say("", ""); if (walk_number == 2) plain(";" source) }
        else { if (b > a) remark = remark " " substr(source, begin_of[a], end_of[b] - begin_of[a] + 1) ": the entry is left out"; say("", "END") }
        # An IF that is open is closed after it.
        if (ended && walk_number == 2) for (k = if_depth; k > 0; k--) print "\tENDIF"
    } else if (what == "IF" || what == "IFNOT" || what == "IF1" || what == "IF2" || what == "IFDEF" || what == "IFNDEF" || what == "ELSEIF") {
        # An IF in the ELSE branch of the one before; its ENDIF closes both.
        k = 0
        if (what == "ELSEIF") {
            if (if_depth == 0) { mark(label, "ELSEIF without IF"); return }
            k = 1 + chained[if_depth]
            other_branch()
            if (walk_number == 2 && label != "") print name_for(label) ":"
            if (walk_number == 2) print "\tELSE"
            label = ""
        }
        links = k
        if (what == "IF1") { s = "1"; n = 1 }
        else if (what == "IF2") {
            s = "0"; n = 0
            if (!says_only()) wrong = "IF2 with more than messages"
        }
        else if (what ~ /DEF/) {
            k = is_seen(value_of[a + 1])
            remark = " " value_of[a] " " value_of[a + 1]
            n = k == (what == "IFDEF")
            s = n ? "1" : "0"
        } else {
            parse(a + 1, b)
            n = !out_known ? -1 : what == "IFNOT" ? out_value == 0 : out_value != 0
            if (what == "IFNOT") note_calculated()
            if (out_wide) wrong = too_wide
            if (intel && out_known && out_value != 0 && out_value % 2 == 0) wrong = doubtful_condition
            if (intel && out_parameter != "") note_condition(out_parameter)
            if (out_known && (out_value != 0) != (out_ours != 0)) { out_text = out_value != 0 ? "1" : "0"; out_level = 9 }
            s = what == "IFNOT" ? wrapped(out_text, out_level, 6) " EQ 0" : out_text
            if (out_place && !wrong) wrong = at_an_address("a condition", a + 1, b)
        }
        open_ifs[macros]++
        open_if(wrong ? -1 : n, links)
        if (wrong && what == "ELSEIF") {
            # The mark is at an IF, so that what follows is not taken for a part of the branch before.
            s = "\tIF" substr(source, end_of[a] + 1)
            tail += length(s) - length(source)
            source = s
        }
        if (wrong) mark(label, wrong); else say_alone(label, "IF\t" s)
    } else if (what == "ELSE") {
        other_branch()
        say_alone(label, "ELSE")
    } else if (what == "ENDIF") {
        if (walk_number == 2 && label != "") print name_for(label) ":"
        for (k = if_depth > 0 ? chained[if_depth] : 0; k > 0; k--) { open_ifs[macros]--; close_if(); if (walk_number == 2) print "\tENDIF" }
        open_ifs[macros]--; close_if(); say("", "ENDIF")
    }
    else if (what == "REPT") repetition(label, a, b)
    else if (what == "MACRO") begin_macro(label, a, b)
    else if (what == "ENDM") {
        is_endm[here] = 1
        if (macros) end_body(block_of[macros], stack[macros] != "REPT")
        if (from == "pasmo") while (macros > 0 && open_ifs[macros]-- > 0) if (walk_number == 2) print "\tENDIF"
        for (k in parameter) { split(k, list, SUBSEP); if (list[1] == macros) delete parameter[k] }
        if (macros > 0) { if_depth = if_base[macros]; macros-- }
        say_alone(label, "ENDM")
    } else if (what == "LOCAL") {
        n = names_after(a + 1, b, list)
        if (procs && !macro_depth()) {
            for (k = 1; k <= n; k++) own_of[procs, list[k]] = clean(list[k]) "_P" proc_count
            say("", "")
        } else if (macros && stack[macros] != "REPT") {
            if (walk_number == 1) for (k = 1; k <= n; k++) {
                local_of[stack[macros]] = local_of[stack[macros]] "," clean(list[k])
            }
            for (k = 1; k <= n; k++) set_parameter(macros, list[k])
            # Written at the head of the macro.
            if (comment != "") say("", "")
        } else mark(label, "LOCAL outside of a macro")
    } else if (what == "PROC") {
        procs++; proc_count++
        say(label, "")
    } else if (what == "ENDP") {
        drop_names(procs)
        if (procs > 0) procs--
        say(label, "")
    } else if (what == "DROP") {
        if (word == ".Z80") { says_z80 = 1; mode_8080 = 0 }
        if (label != "" && walk_number == 2) print name_for(label) ":"
        if (walk_number == 2 && is_late_segment(word, a)) mark("", "code after data: lines stay in their order here")
        else if (walk_number == 2) plain(";" source)
    } else if (what == "COMMENT") {
        t = substr(source, end_of[a] + 1)
        sub(/^[ \t]+/, "", t)
        comment_mark = substr(t, 1, 1)
        if (!index(substr(t, 2), comment_mark)) in_comment = 2
        if (walk_number == 2) plain(";" source)
    } else if (what == "RADIX") {
        t = toupper(substr(source, end_of[a] + 1, tail - end_of[a] - 1))
        gsub(/[ \t]/, "", t)
        if (from == "m80") k = t == "2" || t == "8" || t == "10" || t == "16" ? t + 0 : 0
        else k = t == "" || t == "D" ? 10 : t == "H" || t == "X" ? 16 : t == "O" || t == "Q" ? 8 : t == "B" ? 2 : 0
        if (!is_dead()) radix = k ? k : 10
        if (!k) mark(label, "a radix that it does not know")
        else if (is_unsure() && !is_dead()) mark(label, "a radix in a macro, or in an IF of unknown condition")
        else if (walk_number == 2) plain(";" source)
    } else if (what == "INCLUDE") {
        if (label != "" && walk_number == 2) print name_for(label) ":"
        if (here in included) { if (walk_number == 2) plain("; " source) }
        else mark(label, here in alike ? "several files differ from this one in case alone" : "the file is not here")
    } else if (what == "INCBIN") {
        if (walk_number == 2) include_bytes(label, a, b)
    } else if (what == "IRP") over_list(label, word, a, b)
    else if (what == "MARK" || what == "IFB") {
        if (word == ".8080") mode_8080 = 1
        if (word ~ /^\.?IF/) { open_ifs[macros]++; open_if(-1) }
        mark(label, what == "IFB" ? word ": whether an argument is empty" : intel && word == ".Z80" ? "the mnemonics of Zilog follow" : "no counterpart")
    }
    else if (what == "CALL") {
        if (walk_number == 1) call_of[here] = known_as(value_of[a])
        note_call(known_as(value_of[a]))
        for (k = a + 1; k <= b; k++) if (kind_of[k] == "i" && is_parameter(value_of[k])) { out_parameter = value_of[k]; note_calculated() }
        as_argument = 1
        read_operands(a + 1, b)
        as_argument = 0
        for (k = 1; k <= operands; k++) { if (intel) intel_argument(known_as(value_of[a]), k); argument(known_as(value_of[a]), k) }
        s = ""
        for (k = 1; k <= operands; k++) s = s (k > 1 ? "," : "") (what_of[k] == "e" && text_of[k] ~ /^\+\(/ ? substr(text_of[k], 2) : text_of[k])
        if (wrong == "an empty operand") wrong = ""
        for (k = a + 1; k <= b; k++) if (value_of[k] == "<" || value_of[k] == "%" && from == "m80") wrong = "an argument in < >, or by its value"
        if (wrong) mark(label, wrong); else say(label, name_for(value_of[a]) (s == "" ? "" : "\t" s))
    } else if (intel && (word in instruction)) intel_instruction(label, word, a, b)
    else if (word in instruction) {
        # JP and CP of the 8080 jump and call if the sign is plus.
        if (from == "m80" && mode_8080 && (word == "JP" || word == "CP")) { mark(label, "an 8080 mnemonic, which is another instruction of the Z80"); return }
        note_least(word == "CALL" ? 3 : word ~ /^(JR|DJNZ)$/ ? 2 : 1)
        read_operands(a + 1, b)
        if (word == "JP" && operands == 1 && what_of[1] != "r" && (what_of[1] != "m" || name_of[1] == "")) note_jump()
        else if (operands == 0 && (word == "NOP" || word == "RET") || operands == 1 && (word == "JP" || word == "JR")) note_filler()
        else end_run()
        instructions(label, word, value_of[a], a, b)
    } else {
        end_run()
        for (k = macros; k > 0; k--) if ((k, known_as(value_of[a])) in parameter) {
            if (intel) { mark(label, "a parameter as an instruction"); return }
            for (n = a; n <= b; n++) if (kind_of[n] == "i" && is_parameter(value_of[n])) { out_parameter = value_of[n]; note_calculated() }
            say(label, by_tokens(a, b))
            return
        }
        if (walk_number == 1 && (word in of_8080) && !says_z80) begins_8080 = 1
        # Perhaps a condition: an ENDIF will come for it.
        if (word ~ /^\.?IF/) { open_ifs[macros]++; open_if(-1) }
        mark(label, from == "m80" && !intel && (word in of_8080) ? "an 8080 mnemonic" : "a word that it does not know")
    }
}

# An argument of a macro: what the body may read in another way than that of the other assembler.
function argument(name, k,    t, v) {
    if (first_of[k] == last_of[k] && kind_of[first_of[k]] == "s" && length(value_of[first_of[k]]) > 1) text_of[k] = string_items(value_of[first_of[k]])
    for (t = first_of[k]; t <= last_of[k]; t++) {
        if (kind_of[t] != "s") continue
        v = string_items(value_of[t])
        if (from == "sdas" && length(value_of[t]) > 1) wrong = "an argument that is a string"
        if (v !~ /^'([^']|'')*'$/ && v !~ /^[0-9]+$/) wrong = "an argument that is a string with special characters"
    }
    v = text_of[k]
    if (((name, k) in shifts) && !(known_of[k] && worth_of[k] < 32)) wrong = "an argument that is the number of bits of a shift"
    if (v ~ /^\+\(/) v = substr(v, 2)
    if (what_of[k] == "e" && last_of[k] > first_of[k] && ((name, k) in calculated) && !(v ~ /^\(/ && ends_with_partner(v))) wrong = "an argument with operators, in a macro that calculates with it"
}

function say_name(text) {
    if (walk_number != 2) return
    flush_left = 1
    say("", text)
}

# A name that is given another value.
function changing(label, a, b,    key) {
    key = known_as(label)
    if (is_dead()) { if (walk_number == 2) plain(";" source); return }
    if (is_unsure() || walk_number == 2 && (key in tainted)) {
        tainted[key] = 1
        delete constant[key]
        mark(label, "a name that changes its value, in a macro, a repetition or an IF")
        return
    }
    note_constant(label, a, b)
    defined[key] = "DEFL"
    if (walk_number != 2) return
    if (wrong || !(key in constant)) mark(label, wrong ? wrong : "a name that changes its value by an address")
    else plain(";" source)
}

function set_parameter(level, name,    key) {
    key = folded(name)
    parameter[level, key] = 1
    if ((level, toupper(name)) in name_in_case && name_in_case[level, toupper(name)] != name) wrong = "two parameters that differ in case alone"
    name_in_case[level, toupper(name)] = name
}

function begin_macro(label, a, b,    k, n, list, name, s, first, part) {
    first = a + 1
    name = label
    if (name == "") {
        name = value_of[a + 1]
        first = a + 2
    }
    if (macros) wrong = "a macro that is defined in another block"
    macros++
    stack[macros] = block_of[macros] = here
    if (walk_number == 1) macro_line[known_as(name)] = here
    begin_body(1)
    open_ifs[macros] = 0
    if_base[macros] = if_depth
    macro_of[macros] = known_as(name)
    n = names_after(first, b, list)
    s = ""
    for (k in number_of_parameter) { split(k, part, SUBSEP); if (part[1] == macros) delete number_of_parameter[k] }
    for (k in name_in_case) { split(k, part, SUBSEP); if (part[1] == macros) delete name_in_case[k] }
    for (k = 1; k <= n; k++) {
        set_parameter(macros, list[k])
        number_of_parameter[macros, folded(list[k])] = k
        if (list[k] ~ /^\?/ && from == "sdas") wrong = "a parameter that makes a label"
        if (!intel && toupper(list[k]) ~ /^(A|H|L|DB|DW|DS|JP|JR|IF|LOW|HIGH|NOT|AND|OR|XOR|MOD|SHL|SHR|EQ|NE|LT|LE|GT|GE)$/) wrong = "a parameter with a name that z80dev needs in what is written"
        s = s (s == "" ? "" : ",") parameter_text(list[k])
    }
    for (k = first; k <= b; k++) if (kind_of[k] == "o" && value_of[k] != ",") wrong = "a parameter with a default"
    if (walk_number == 1) { macro[known_as(name)] = 1; define(name, "MACRO") }
    k = macros; macros = 0; note_seen(name); macros = k
    # In z80asm a name of a macro's body that begins with a point is one of the call, also where it stands above its definition.
    if (local_of[here] != "") {
        n = split(substr(local_of[here], 2), list, ",")
        for (k = 1; k <= n; k++) set_parameter(macros, list[k])
    }
    if (wrong) { mark("", wrong); return }
    k = macros; macros = 0
    name = name_for(name)
    macros = k
    say_name(name "\tMACRO" (s == "" ? "" : "\t" s))
    if (walk_number == 2 && local_of[here] != "") {
        s = ""
        n = split(substr(local_of[here], 2), list, ",")
        for (k = 1; k <= n; k++) s = s (k > 1 ? "," : "") parameter_text(list[k])
        print "\tLOCAL\t" s
    }
}

# REPT. One that counts, or in which a name changes its value, is written out.
function repetition(label, a, b,    k, n, ends, part, count, name, first, step) {
    for (k = a + 1; k <= b + 1; k++) if (k == b + 1 || value_of[k] == "," && kind_of[k] == "o") part[++n] = k
    parse(a + 1, part[1] - 1)
    count = out_known ? out_ours : -1
    ends = end_of_block()
    if (!wrong && out_place) wrong = at_an_address("a number of repetitions", a + 1, part[1] - 1)
    if (!wrong && ends && (n > 1 || has_to_unroll(ends))) {
        if (count < 0 || count > 4096 || macro_depth()) wrong = "a repetition that counts or has names of its own, and cannot be written out"
        else {
            name = n > 1 ? value_of[part[1] + 1] : ""
            first = 0; step = 1
            if (n > 2) { parse(part[2] + 1, part[3] - 1); if (out_known) first = out_value; else wrong = "a repetition that counts" }
            if (n > 3) { parse(part[3] + 1, part[4] - 1); if (out_known) step = out_value; else wrong = "a repetition that counts" }
            if (!wrong) {
                say(label, "")
                if (walk_number == 2) plain(";" source)
                unroll(ends, count, name, first, step)
                return
            }
        }
    }
    macros++
    stack[macros] = "REPT"; block_of[macros] = here
    open_ifs[macros] = 0
    if_base[macros] = if_depth
    begin_body(0)
    if (wrong) mark(label, wrong); else say_alone(label, "REPT\t" out_text)
}

# Whether a parameter of a macro is a word of a text.
function names_parameter(t,    n, part, i) {
    gsub(/[^A-Za-z0-9_?@.$]/, " ", t)
    n = split(t, part, " ")
    for (i = 1; i <= n; i++) if (is_parameter(part[i])) return 1
    return 0
}

# Whether this is the body of a macro.
function macro_depth(    k) {
    for (k = macros; k > 0; k--) if (stack[k] != "REPT") return 1
    return 0
}

# IRP and IRPC: the block is written out once for each item.
function over_list(label, word, a, b,    ends, t, n, item, i, c, depth, begins, name, quote, why) {
    ends = end_of_block()
    name = value_of[a + 1]
    t = substr(source, end_of[a + 1] + 1, tail - end_of[a + 1] - 1)
    sub(/^[ \t]*,[ \t]*/, "", t)
    sub(/[ \t]+$/, "", t)
    why = ""
    if (t ~ /^<.*>$/) t = substr(t, 2, length(t) - 2)
    # M80 takes what is between < and > as it is, also a semicolon; cut() took that for a comment.
    else if (from == "m80" && (word == "IRP" || t ~ /^</)) why = "a repetition over a list"
    # Brackets in a list hold an item together, ! and % have a meaning of their own.
    if (from == "m80" && word == "IRP" && t ~ /[<>!%]/) why = "a repetition over a list"
    n = 1; item[1] = ""; depth = 0; quote = ""
    for (i = 1; i <= length(t); i++) {
        c = substr(t, i, 1)
        if (word == "IRPC") { item[n++] = c; continue }
        if (quote != "") {
            if (c == "\\" && escapes(quote)) { item[n] = item[n] c; c = substr(t, ++i, 1) }
            else if (c == quote) quote = ""
        } else if (c == "\"" || c == QUOTE) quote = c
        else if (c == "(") depth++
        else if (c == ")") depth--
        if (c == "," && depth == 0 && quote == "") { item[++n] = ""; continue }
        item[n] = item[n] c
    }
    if (word == "IRPC") n--
    # The other assembler puts the arguments of a macro in place of its parameters first, and then reads the list.
    if (is_parameter(name) || names_parameter(t)) why = "a repetition over a parameter"
    for (i = 1; i <= n && word == "IRPC"; i++) if (is_parameter(item[i])) why = "a repetition over a parameter"
    if (!ends || word != "IRP" && from != "m80") why = "a repetition over a list"
    if (wrong) why = wrong
    if (why != "") {
        macros++; stack[macros] = "REPT"; block_of[macros] = here; open_ifs[macros] = 0; if_base[macros] = if_depth
        mark(label, why)
        return
    }
    say(label, "")
    if (walk_number == 2) plain(";" source)
    begins = here
    for (i = 1; i <= n; i++) {
        sub(/^[ \t]+/, "", item[i]); sub(/[ \t]+$/, "", item[i])
        lists++
        list_name[lists] = name; list_item[lists] = item[i]
        procs++; proc_count++
        run_closed(begins + 1, ends - 1)
        drop_names(procs)
        procs--
        lists--
    }
    jump_to = ends + 1
}

# The bytes of a file as DB lines.
function include_bytes(label, a, b,    path, word, s, n, part, i, t, command, any) {
    path = substr(source, end_of[a] + 1, tail - end_of[a] - 1)
    sub(/^[ \t]+/, "", path)
    sub(/[ \t]+$/, "", path)
    word = substr(path, 1, 1)
    if (word ~ /["'<]/) {
        if (word == "<") word = ">"
        path = substr(path, 2)
        if (substr(path, index(path, word) + 1) !~ /^[ \t]*$/) { mark(label, "a part of a file"); return }
        path = substr(path, 1, index(path, word) - 1)
    }
    t = found_file(path, folder_of(file), "")
    if (t == "") { mark(label, several ? "several files differ from this one in case alone" : "the file is not here"); return }
    gsub(QUOTE, QUOTE "\\" QUOTE QUOTE, t)
    command = "od -An -v -tu1 " QUOTE t QUOTE
    plain("; " source)
    if (label != "") print name_for(label) ":"
    while ((command | getline t) > 0) {
        n = split(t, part, " ")
        s = ""
        for (i = 1; i <= n; i++) s = s (i > 1 ? "," : "") part[i]
        if (n) print "\tDB\t" s
    }
    close(command)
}

# ---- Instructions

# An operand as a value, without the parentheses that stood around it.
function as_value(k) {
    if (what_of[k] == "m" && name_of[k] == "") {
        if (place_of[k] && !(inner_level[k] == 8 && inner_of[k] ~ /^(LOW|HIGH) /)) return "LOW " wrapped(inner_of[k], inner_level[k], 9)
        return ends_with_partner(inner_of[k]) && inner_of[k] ~ /^\(/ ? "+" inner_of[k] : inner_of[k]
    }
    return text_of[k]
}

# A value that has to fit a byte.
function byte_text(k,    t) {
    if (what_of[k] == "m" && name_of[k] == "") { what_of[k] = "e"; t = inner_of[k]; level_of[k] = inner_level[k] }
    else t = text_of[k]
    if (what_of[k] != "e") return t
    if (t ~ /^\+\(/) { t = substr(t, 2); level_of[k] = 9 }
    if ((place_of[k] || known_of[k] && worth_of[k] > 255 && worth_of[k] < 65408) && !(level_of[k] == 8 && t ~ /^(LOW|HIGH) /)) return "LOW " wrapped(t, level_of[k], 9)
    return ends_with_partner(t) && t ~ /^\(/ ? "+" t : t
}

# A value that is an address.
function word_text(k,    t) {
    if (what_of[k] == "m" && name_of[k] == "") { t = inner_of[k]; return t ~ /^\(/ && ends_with_partner(t) ? "+" t : t }
    return text_of[k]
}

function is_half(k) {
    return what_of[k] == "r" && name_of[k] ~ /^I[XY][HL]$/
}

# An instruction on the halves of IX or IY: the byte that goes before it, and it with H and L.
function halves(label, op,    k, s, which, t) {
    which = ""
    s = ""
    for (k = 1; k <= operands; k++) {
        t = what_of[k] == "e" || what_of[k] == "m" && name_of[k] == "" ? byte_text(k) : text_of[k]
        if (is_half(k)) {
            if (which != "" && which != substr(name_of[k], 1, 2)) { mark(label, "halves of IX and IY in one instruction"); return }
            which = substr(name_of[k], 1, 2)
            t = substr(name_of[k], 3)
        } else if (what_of[k] == "m" && name_of[k] != "" || what_of[k] == "r" && name_of[k] ~ /^[HL]$/) { mark(label, "no such instruction"); return }
        s = s (k > 1 ? "," : "") t
    }
    if (walk_number == 2) {
        k = comment; comment = ""
        say(label, "DB\t" (which == "IX" ? "0DDH" : "0FDH"))
        comment = k
    }
    say("", op "\t" s)
}

function instructions(label, word, op, a, b,    k, s, n, t, byte, c) {
    if (wrong) { mark(label, wrong); return }
    n = operands
    # z80asm 1.8 takes AND A,5 for AND A, ADC A for ADC A,IXL, and in arithmetic IXH for IXL.
    if (from == "z80asm" && (word ~ /^(AND|OR|XOR|CP)$/ && n == 2 && name_of[1] == "A" && name_of[2] != "A" || word ~ /^(ADC|SBC)$/ && n == 1 ||
        word ~ /^(ADD|ADC|SUB|SBC|AND|OR|XOR|CP)$/ && (n > 0 && is_half(n)))) { mark(label, "z80asm makes another instruction of it"); return }
    # One operand more or less than Zilog writes.
    if ((word == "SUB" || word == "AND" || word == "OR" || word == "XOR" || word == "CP") && n == 2 && what_of[1] == "r" && name_of[1] == "A") { shift_operands(); n = 1 }
    if ((word == "ADD" || word == "ADC" || word == "SBC") && n == 1) { insert_a(); n = 2 }
    if (word == "EX" && n == 2 && name_of[1] == "AF" && name_of[2] ~ /^AF/) { say(label, op "\t" text_of[1] "," text_of[1] QUOTE); return }
    if (word == "JP" && n == 1 && what_of[1] == "r" && name_of[1] ~ /^(HL|IX|IY)$/) { say(label, op "\t(" text_of[1] ")"); return }
    if ((word == "IN" && (n == 1 && name_of[1] == "C" && what_of[1] == "m" || n == 2 && name_of[1] == "F" && name_of[2] == "C"))) { say(label, "DB\t0EDH,70H"); return }
    if (word == "OUT" && n == 2 && what_of[1] == "m" && name_of[1] == "C" && what_of[2] == "e") {
        if (known_of[2] && worth_of[2] == 0) say(label, "DB\t0EDH,71H"); else mark(label, "no such instruction")
        return
    }
    # Several at once, of sjasmplus.
    if (from == "sjasmplus" && n > 1 && word ~ /^(PUSH|POP|INC|DEC)$/) {
        for (k = 1; k <= n; k++) { say(k == 1 ? label : "", op "\t" text_of[k]) }
        return
    }
    if (from == "sjasmplus" && word == "LD" && n == 2 && what_of[1] == "r" && what_of[2] == "r" && name_of[1] ~ /^(BC|DE|HL)$/ && name_of[2] ~ /^(BC|DE|HL)$/) {
        say(label, op "\t" substr(text_of[1], 1, 1) "," substr(text_of[2], 1, 1))
        say("", op "\t" substr(text_of[1], 2, 1) "," substr(text_of[2], 2, 1))
        return
    }
    for (k = 1; k <= n; k++) if (is_half(k)) {
        if (word ~ /^(LD|ADD|ADC|SUB|SBC|AND|XOR|OR|CP|INC|DEC)$/) { halves(label, op); return }
        mark(label, "no such instruction")
        return
    }
    # Shifts that Zilog does not name, and those whose result goes to a register as well.
    if ((word == "SLL" || word == "SLI") && n == 1) {
        if (what_of[1] == "r" && name_of[1] in code) say(label, "DB\t0CBH," hexadecimal(48 + code[name_of[1]]))
        else if (what_of[1] == "m" && name_of[1] == "HL") say(label, "DB\t0CBH,36H")
        else if (what_of[1] == "m" && name_of[1] ~ /^I[XY]$/) say(label, indexed(1) ",36H")
        else mark(label, "no such instruction")
        return
    }
    # z80asm reads no further than Zilog's operands.
    if (from == "z80asm" && ((word in rotate) && n > 1 || (word == "SET" || word == "RES") && n > 2 || word ~ /^(PUSH|POP|INC|DEC|CALL)$/ && n > 1 && word != "CALL")) {
        mark(label, "z80asm does not read the last operand")
        return
    }
    if ((word in rotate) && n == 2 && what_of[1] == "m" && name_of[1] ~ /^I[XY]$/ && what_of[2] == "r" && (name_of[2] in code)) {
        say(label, indexed(1) "," hexadecimal(rotate[word] + code[name_of[2]]))
        return
    }
    if ((word == "SET" || word == "RES") && n == 3 && what_of[2] == "m" && name_of[2] ~ /^I[XY]$/ && known_of[1] && (name_of[3] in code)) {
        say(label, indexed(2) "," hexadecimal((word == "SET" ? 192 : 128) + 8 * worth_of[1] + code[name_of[3]]))
        return
    }
    if (word == "JP" || word == "JR" || word == "DJNZ" || word == "CALL") { jump(label, word, op); return }
    if (word == "RST" || word == "IM") { say(label, op "\t" as_value(1)); return }
    if ((word == "BIT" || word == "SET" || word == "RES") && n == 2) { say(label, op "\t" as_value(1) "," text_of[2]); return }
    if (word ~ /^(ADD|ADC|SBC)$/ && name_of[1] == "A" || word ~ /^(SUB|AND|OR|XOR|CP)$/) {
        s = ""
        for (k = 1; k <= n; k++) s = s (k > 1 ? "," : "") byte_text(k)
        say(label, op "\t" s)
        return
    }
    if (word == "LD" && n == 2) {
        if (what_of[1] == "r" && name_of[1] ~ /^[BCDEHL]$/ || what_of[1] == "m" && name_of[1] != "") {
            # No register but A is loaded from an address.
            say(label, op "\t" text_of[1] "," byte_text(2))
            return
        }
        if (what_of[1] == "r" && name_of[1] == "A" && what_of[2] == "e") { say(label, op "\t" text_of[1] "," byte_text(2)); return }
    }
    s = ""
    for (k = 1; k <= n; k++) s = s (k > 1 ? "," : "") text_of[k]
    say(label, op (s == "" ? "" : "\t" s))
}

# The first bytes of an instruction on (IX+d) that is written as data.
function indexed(k,    d) {
    d = shift_of[k] == "" ? "0" : shift_of[k] ~ /^\+/ ? substr(shift_of[k], 2) : shift_of[k]
    return "DB\t" (name_of[k] == "IX" ? "0DDH" : "0FDH") ",0CBH," d
}

function shift_operands(    k) {
    for (k = 1; k < operands; k++) move_operand(k + 1, k)
    operands--
}

function insert_a() {
    move_operand(1, 2)
    operands = 2
    what_of[1] = "r"; text_of[1] = "A"; name_of[1] = "A"
}

function move_operand(f, t) {
    what_of[t] = what_of[f]; text_of[t] = text_of[f]; name_of[t] = name_of[f]; level_of[t] = level_of[f]; place_of[t] = place_of[f]
    known_of[t] = known_of[f]; worth_of[t] = worth_of[f]; shift_of[t] = shift_of[f]; inner_of[t] = inner_of[f]; inner_level[t] = inner_level[f]
}

# JP, JR, DJNZ and CALL. The last operand is where they go.
function jump(label, word, op,    n, condition, to, simple, key, opcode) {
    n = operands
    condition = n > 1 ? toupper(text_of[1]) : ""
    if (n == 0 || n > 2 || n == 2 && what_of[1] != "r") { mark(label, "no such instruction"); return }
    if (word == "DJNZ" && n == 2) { if (name_of[1] != "B") { mark(label, "no such instruction"); return } move_operand(2, 1); n = operands = 1; condition = "" }
    if (what_of[n] == "m" && name_of[n] != "") {
        # (HL), (IX), (IY)
        say(label, op "\t" (n > 1 ? text_of[1] "," : "") text_of[n])
        return
    }
    if (what_of[n] == "r" && !(word == "CALL")) { mark(label, "no such instruction"); return }
    to = word_text(n)
    simple = what_of[n] == "e" && name_of[n] != "" && name_of[n] != "$"
    if (simple) sub(/^\+/, "", to)
    key = known_as(name_of[n])
    if (word == "CALL") { say(label, op "\t" (n > 1 ? text_of[1] "," : "") to); return }
    if (word == "JP") {
        if ((keep || here in steps) && simple && (condition == "" || condition in short)) to = to "+0"
        else if ((here in in_table) && simple && condition == "" && what_is(key) != "EQU") {
            remark = remark " 3 bytes: it may be in a table of jumps"
            to = to "+0"
        }
        say(label, op "\t" (n > 1 ? text_of[1] "," : "") to)
        return
    }
    if (n > 1 && !(condition in short)) { mark(label, "no such instruction"); return }
    if (to ~ /^\$([+-][0-9][0-9A-F]*[HBOQD]?)?$/) { say(label, op "\t" (n > 1 ? text_of[1] "," : "") to); return }
    if (simple && (!(key in defined) || what_is(key) == "LABEL" || in_macro())) {
        if (word == "JR" && !keep && !(here in steps)) op = op == "jr" ? "jp" : "JP"
        say(label, op "\t" (n > 1 ? text_of[1] "," : "") to)
        return
    }
    # Where it goes is no label: the instruction as its bytes.
    opcode = word == "DJNZ" ? "10H" : n > 1 ? short[condition] : "18H"
    remark = remark " " op " " (n > 1 ? text_of[1] "," : "") to
    say(label, "DB\t" opcode ",LOW (" wrapped(to, level_of[n], 6) "-$-2)")
}
