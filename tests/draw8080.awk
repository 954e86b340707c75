# Writes programs for the 8080 that are drawn at random, as ASM and MAC read them, and without the lines that the converter marks.
# usage: awk -v seed=N -v count=N -f draw8080.awk
# The programs are the files drawn.1, drawn.2 and so on. With -v expressions=N it prints one source with N lines of DW instead, with
# operators anywhere, so that assemblers differ on some of them.

BEGIN {
    srand(seed)
    quote = sprintf("%c", 39)
    none = "NOP RLC RRC RAL RAR DAA CMA STC CMC HLT RET XTHL PCHL XCHG DI SPHL EI RNZ RZ RNC RC RPO RPE RP RM"
    reg = "ADD ADC SUB SBB ANA XRA ORA CMP INR DCR"
    immediate = "ADI ACI SUI SBI ANI XRI ORI CPI IN OUT"
    memory = "LDA STA LHLD SHLD"
    jumps = "JMP JNZ JZ JNC JC JPO JPE JP JM CALL CNZ CZ CNC CC CPO CPE CP CM"
    pairs = "INX DCX DAD"
    # Names that mean something to Zilog, to z80dev or to another assembler, and names with ? @ and $.
    names = "LOOP START$UP ?X @Y A1 LD IX IY DJNZ EXX NEG RES BIT INC DEC HL BC DE AF I R Z NZ NC P PE PO EX CPL HALT LDIR JR NUL DEFS1 Q?@ " \
        "a$very$long$name$here MSG BUFFER NEXT SLL IXH F OTIR RETI PUBLIC1 DONE X1 X2 X3"
    # Labels that only a colon makes labels: words of the 8080, of which M80 takes these.
    colon = "IN CPI STC PUSH"
    # Directives of other assemblers that are names in ASM.
    names = names " NAME ENTRY BYTE EXT GLOBAL"
    if (expressions) print "EARLY\tEQU\t300"
    # The converter writes a long line that it marks as two.
    while (expressions-- > 0) {
        do value = doubtful(2)
        while (length(value) > 150)
        print "\tDW\t" value
    }
    for (n = 1; n <= count; n++) {
        file = "drawn." n
        program()
        close(file)
    }
}

function below(k) { return int(k * rand()) }

function one_of(list,    k, part) { k = split(list, part, " "); return part[1 + below(k)] }

function cased(s) { return below(4) ? s : tolower(s) }

# A name as it may be written: in either case, with a $ somewhere.
function spelled(s,    k) {
    if (!below(12) && length(s) > 2) { k = 1 + below(length(s) - 1); s = substr(s, 1, k) "$" substr(s, k + 1) }
    return cased(s)
}

function dollars(s,    k) {
    if (below(8) || length(s) < 2) return s
    k = 1 + below(length(s) - 1)
    return substr(s, 1, k) "$" substr(s, k + 1)
}

function number_of(v,    r, s, d) {
    r = below(6)
    if (r < 2) return dollars(v "")
    if (r == 2) return dollars(v "D")
    if (r == 3) { s = sprintf("%XH", v); return cased(dollars(s ~ /^[A-F]/ ? "0" s : s)) }
    if (r == 4) return dollars(sprintf("%o", v) one_of("O Q"))
    s = ""
    for (d = v; d > 0; d = int(d / 2)) s = d % 2 s
    return dollars((s == "" ? "0" : s) "B")
}

function any_number() { return number_of(below(3) ? below(256) : below(65536)) }

# ---- Expressions

function constant_term(depth) {
    if (depth > 0 && !below(3)) return "(" constant(depth - 1) ")"
    if (constants && !below(3)) return spelled(constant_name[1 + below(constants)])
    if (!below(10)) return quote one_of("A z 0 ; ! , <") quote
    if (!below(14)) return quote quote quote quote
    if (!below(14)) return one_of("B C D E H L M A SP PSW")
    if (!below(20)) return one_of("MOV MVI JMP RET CALL XCHG LXI RST")
    return any_number()
}

# Divisions and shifts have a number on their right.
function constant(depth,    s, k, op) {
    s = constant_term(depth)
    if (!below(8)) s = "-" s
    else if (!below(8)) s = one_of("NOT not") " " s
    for (k = below(3); k > 0; k--) {
        op = one_of("+ - + - * AND OR XOR" (s ~ /^-/ ? "" : " / MOD SHL SHR") (mac ? " EQ NE LT LE GT GE" : ""))
        if (op ~ /^(SHL|SHR)$/) s = s " " cased(op) " " below(9)
        else if (op ~ /^(\/|MOD)$/) s = s " " cased(op) " " number_of(1 + below(300))
        else if (op ~ /^[A-Z]/) s = s " " cased(op) " " constant_term(depth)
        else s = s (below(2) ? op : " " op " ") constant_term(depth)
        # A sign before a product is the product of a negative number in each reading, one before a sum is not in doubt.
    }
    if (mac && !below(6)) s = one_of("HIGH LOW low") " (" s ")"
    return s
}

function label() { return labels ? spelled(label_name[1 + below(labels)]) : "5" }

function word(    r) {
    r = below(12)
    if (r < 4) return label()
    if (r == 4) return label() one_of("+ -") number_of(below(20))
    if (r == 5) return "$" one_of("+ -") number_of(below(20))
    if (r == 6) return quote one_of("AB xy ;!") quote
    if (r == 7) return label() "-" label()
    if (r == 8) return "(" label() "+" number_of(below(9)) ") " one_of("AND SHR") " 8"
    if (r == 9) return "(" constant(1) ")" (below(2) ? "+" label() : "")
    return constant(2)
}

function byte(    r) {
    r = below(10)
    if (r < 3) return number_of(below(256))
    if (r == 3) return quote one_of("A z 0 ; ! ,") quote
    if (r == 4) return label() "-" label()
    if (r == 5) return "(" word() ") AND 0FFH"
    if (r == 6) return one_of("B C H A M")
    if (r == 7 && mac) return one_of("LOW HIGH") " (" word() ")"
    if (r == 8) return "-" number_of(1 + below(128))
    return "(" constant(2) ") and " number_of(below(256))
}

function doubtful_term(depth,    r) {
    r = below(12)
    if (r < 3) return one_of("- - + NOT HIGH LOW") " " doubtful_term(depth)
    if (r < 5 && depth > 0) return "(" doubtful(depth - 1) ")"
    if (r < 7) return one_of("EARLY LATE")
    return one_of("0 1 2 3 5 7 255 256 300 1000 32767 32768 65535")
}

# A division or a shift has a number on its right.
function doubtful(depth,    s, k, op) {
    s = doubtful_term(depth)
    for (k = below(4); k > 0; k--) {
        op = one_of("+ - * / MOD SHL SHR AND OR XOR EQ NE LT LE GT GE")
        s = s " " op " " (op ~ /^(\/|MOD)$/ ? one_of("- - 1*") " " one_of("1 2 3 256") : op ~ /^SH/ ? one_of("1 2 8 15 16") : doubtful_term(depth))
    }
    gsub(/1\* /, "", s)
    return s
}

# ---- Statements

function register(    k) {
    if (below(8)) return cased(one_of("B C D E H L M A"))
    k = below(8)
    if (!below(3)) return "REG$0"
    return below(2) ? k : k > 2 ? (k - 2) "+2" : "1*" k
}

function pair(last) {
    if (below(10)) return cased(one_of("B D H " last))
    return one_of("0 2 4 6 D+2")
}

function instruction(    w, a, b) {
    w = one_of("none none reg reg reg reg immediate immediate memory jumps jumps pairs mov mov mov mov mvi lxi stack rst ldax")
    if (w == "none") return cased(one_of(none))
    if (w == "reg") return cased(one_of(reg)) " " register()
    if (w == "immediate") return cased(one_of(immediate)) "\t" byte()
    if (w == "memory") return cased(one_of(memory)) " " (below(5) ? word() : "(" word() ")")
    if (w == "jumps") return cased(one_of(jumps)) " " (below(4) ? label() : word())
    if (w == "pairs") return cased(one_of(pairs)) " " pair("SP")
    if (w == "mvi") return cased("MVI") " " register() "," byte()
    if (w == "lxi") return cased("LXI") " " pair("SP") ", " word()
    if (w == "stack") return one_of("PUSH POP push") " " pair("PSW")
    if (w == "rst") return "RST " (below(3) ? below(8) : "1+" below(7))
    if (w == "ldax") return one_of("LDAX STAX stax") " " one_of("B D b d 0 2")
    a = one_of("B C D E H L M A"); b = one_of("B C D E H L M A")
    if (a == "M" && b == "M") b = "A"
    return cased("MOV") " " a (below(3) ? "," : " , ") b
}

function text(    k, s) {
    s = ""
    for (k = 1 + below(12); k > 0; k--) s = s one_of("a b C D 1 2 ; ! , < > ( ) $ & \" *")
    return quote s (below(4) ? "" : quote quote) quote
}

function data(    s, k) {
    if (!below(4)) return "DS " number_of(below(6))
    if (below(2)) {
        s = "DW " word()
        for (k = below(3); k > 0; k--) s = s "," (below(2) ? label() : constant(1))
        return s
    }
    s = cased("DB") " " (below(2) ? text() : byte())
    for (k = below(4); k > 0; k--) s = s "," (below(2) ? text() : below(2) ? number_of(below(256)) : label() "-" label())
    return s
}

function remark() { return below(4) ? "" : one_of(";note ;;it" quote "s ;a!_b ;<x> ;\"") }

# A line: statements divided by !, with a label that is still to come.
function line(    s, k, name) {
    s = ""
    if (next_label < labels && !below(3)) {
        name = label_name[++next_label]
        s = spelled(name) (name in needs_colon || below(2) ? ":" : "")
        if (!below(8)) s = "  " s
        if (!below(6) && s ~ /:$/) { print s >file; s = "" }
    }
    if (!below(30)) s = below(9999) " " s
    s = s "\t" (below(5) ? instruction() : data())
    for (k = below(8) ? 0 : 1 + below(3); k > 0; k--) s = s one_of("! ! !_") instruction()
    gsub(/!_/, " ! ", s)
    print s "\t" remark() >file
}

function some_lines(k) { while (k-- > 0) line() }

# Lines without labels.
function plain_lines(k) { while (k-- > 0) print "\t" instruction() >file }

function condition() {
    if (mac && below(2)) return constant_term(1) " " one_of("EQ NE LT LE GT GE") " " constant_term(1)
    return below(2) ? one_of("YES NO") : below(2) ? "NOT " one_of("ALL NO") : one_of("0 1 0FFFFH")
}

# A label of a branch that is not taken would not be defined, so there are none.
function branches(depth) {
    print "\t" cased("IF") " " condition() >file
    plain_lines(below(3))
    if (mac && depth > 0 && !below(3)) branches(depth - 1)
    if (mac && below(2)) { print "\t" cased("ELSE") >file; plain_lines(1 + below(2)) }
    print "\tENDIF" >file
}

# Parameters that are a register, a pair and a number, with names that mean something to z80dev.
function macros() {
    print "MAC1\tMACRO\tR,V\n\tMVI\tR,V\n\tORA\tR\t;;or\n\tADI\tV\n\tENDM" >file
    print "MAC2\tMACRO\t?RP,NUM\n\tLOCAL\tHERE\nHERE:\tINX\t?RP\n\tLXI\t?RP,NUM*2\n\tJNZ\tHERE\n\tDB\tNUM\n\tENDM" >file
    print "MAC3\tMACRO\tHL,Z,LD\n\tPUSH\tHL\n\tLDA\tZ\n\tCNZ\tZ\n\tMAC1\tC,LD\n\tIF\tLD GT 3\n\tNOP\n\tELSE\n\tHLT\n\tENDIF\n\tENDM" >file
}

function call(    r) {
    r = below(3)
    if (r == 0) print "\tMAC1\t" one_of("B c M A 3 H REG0") "," one_of("5 'x' (2+3) 1+2 B REG0 0FFH") >file
    else if (r == 1) print "\tMAC2\t" one_of("B d H SP 4") " , " one_of("7 (2+3) 'q' M K1X") >file
    else print "\tMAC3\t" one_of("B H PSW d") "," label() (below(2) ? "" : "+1") "," one_of("1 7 (2*3) D") >file
}

# Macros that are drawn. A parameter has a kind: r, p, q and x as registers and pairs are used, v a word, b a byte. `bound` is set for one
# that the body calculates with, so that its arguments are of one term or in parentheses.
function drawn_macros(    m, k, s, lines) {
    drawn_count = below(4)
    for (m = 1; m <= drawn_count; m++) {
        parameters[m] = 1 + below(3)
        for (k = 1; k <= parameters[m]; k++) {
            kind[m, k] = one_of("r r p q x px v v b")
            parameter[m, k] = one_of("P1 E L Z HL ?N @X SP LD DS M NOT1 R BC V$1 HIGH1 C NZ IN JP") (k > 1 ? k : "")
            bound[m, k] = 0
        }
    }
    for (m = 1; m <= drawn_count; m++) {
        s = ""
        for (k = 1; k <= parameters[m]; k++) s = s (k > 1 ? " , " : "") parameter[m, k]
        print "DRAWN" m (below(2) ? "" : ":") "\tMACRO\t" s >file
        for (lines = 1 + below(5); lines > 0; lines--) body_line(m, 1 + below(parameters[m]))
        print "\tENDM" >file
    }
}

function body_line(m, k,    name, r, q, i) {
    name = spelled(parameter[m, k])
    r = kind[m, k]
    # Another macro, further up or down, that has a parameter of this kind and no other; what it does is not known here.
    q = 1 + below(drawn_count)
    if (!below(4) && q > m && parameters[q] == 1 && kind[q, 1] == r) { bound[m, k] = 1; bound[q, 1] = 1; print "\tDRAWN" q " " name >file; return }
    if (r == "r") s = one_of("MOV_A,@ ADD_@ INR_@ MVI_@,5 MOV_@,B CMP_@ MOV_@,A")
    else if (r == "p") s = one_of("LXI_@,5 DAD_@ INX_@ DCX_@")
    else if (r == "q") s = one_of("PUSH_@ POP_@")
    else if (r == "x") s = one_of("LDAX_@ STAX_@")
    else if (r == "px") s = one_of("LDAX_@ PUSH_@ DAD_@ LXI_@,@@")
    else if (r == "b") s = one_of("MVI_B,@ DB_@ CPI_@ DB_@_AND_0FH DB_5,@ RST_@_AND_7 DB_-@_AND_0FH")
    else s = one_of("LXI_H,@ LDA_@ DW_@ DW_5,@ JMP_@ CALL_@ DW_@+1 DW_2*@ DW_(@)*2 CNZ_@ SHLD_@ LXI_D,@-1")
    if (s ~ /[-+*]|AND/) bound[m, k] = 1
    gsub(/_/, " ", s)
    gsub(/@@/, "7", s)
    gsub(/@/, name, s)
    print "\t" s >file
}

function drawn_argument(m, k,    r) {
    r = kind[m, k]
    if (r == "r") return register()
    if (r == "p") return pair("SP")
    if (r == "q") return pair("PSW")
    if (r ~ /x/) return one_of("B D b d 0 2")
    if (r == "b") return one_of("5 'x' (1+2) B M 0FFH K1X REG0 255 JMP")
    if (!bound[m, k] && !below(3)) return label() "+" below(9)
    return below(3) ? label() : one_of("5 1234H (1+2) 'x' K1X C (K1X) " label())
}

function call_drawn(    m, k, s) {
    if (!drawn_count) return
    m = 1 + below(drawn_count)
    s = ""
    for (k = 1; k <= parameters[m]; k++) s = s (k > 1 ? "," : "") drawn_argument(m, k)
    print "\tDRAWN" m "\t" s >file
}

function repeats(    r) {
    r = below(4)
    if (r == 0) { print "\tREPT " below(4) >file; plain_lines(1 + below(2)); print "\tENDM" >file }
    else if (r == 1) print "\tIRP\tX9,<B,H , D>\n\tINX X9\n\tDCR\tX9\n\tLXI X9,5\n\tENDM" >file
    else if (r == 2) print "\tIRPC\tX9,1A2\n\tDB 0,X9,'X9'\n\tENDM" >file
    else print "CNT\tSET\tCNT+1\n\tDB CNT\n\tREPT 2\nCNT\tSET (CNT*2+1) AND 0FH\n\tDB CNT\n\tENDM" >file
}

# Takes a name out of the pool.
function draw_name(    k, name) {
    k = 1 + below(pool_size)
    name = pool[k]
    pool[k] = pool[pool_size--]
    return name
}

function program(    k, name) {
    mac = below(3) > 0
    constants = 0; labels = 0; next_label = 0
    split("", needs_colon)
    pool_size = split(names, pool, " ")
    if (!below(3)) print "\tTITLE\t'x'" >file
    print "*\ta comment! which MVI begins" >file
    print "TPA\tEQU\t100H" >file
    if (below(2)) print "\tORG\t" one_of("100H 0100H 256 TPA") >file
    print "YES\tEQU\t" (below(4) ? one_of("1 0FFFFH -1") : "NOT 0") "\nNO\tEQU\t0\nALL\tEQU\tNOT NO\nREG0\tEQU\tC\nCNT\tSET\t3\nK1X\tequ\t1+2" >file
    constants = 1
    constant_name[1] = "K1X"
    for (k = below(5); k > 0; k--) {
        name = draw_name()
        print spelled(name) "\tEQU\t" constant(1) >file
        constant_name[++constants] = name
    }
    if (mac) { macros(); drawn_macros() }
    else if (below(2)) { constant_name[++constants] = "HIGH"; constant_name[++constants] = "EQ"; print "HIGH\tEQU 200\nEQ\tEQU\t7" >file }
    for (k = 3 + below(8); k > 0; k--) label_name[++labels] = draw_name()
    if (!below(4)) { name = one_of(colon); label_name[++labels] = name; needs_colon[name] = 1 }
    for (k = 5 + below(25); k > 0; k--) {
        if (!below(8)) branches(2)
        else if (!below(10)) repeats()
        else if (mac && !below(8)) call()
        else if (mac && !below(4)) call_drawn()
        else line()
    }
    while (next_label < labels) print label_name[++next_label] ":" >file
    if (below(3)) print "\tEND" >file
}
