# What is particular to sources in the mnemonics of the 8080 (--from 8080): those of ASM and MAC of Digital Research, and of M80 without
# .Z80. convert.awk has the rest, and calls these functions if the variable intel is set. Where these three assemblers read a line in two
# ways, the line is marked.

# ---- Tables

# An instruction: a letter for each operand, what it is written as (1 and 2 stand for the operands), its length and its first byte.
#   r  a register or M          p  a register pair           q  a pair of PUSH and POP     x  B or D, for memory
#   v  a byte                   w  a word                    a  an address of memory       i  a port
#   j  where a jump goes        n  the number of RST
function intel_row(word, form, text, bytes, value) {
    instruction[word] = 1
    form_of[word] = form; written_as[word] = text; bytes_of[word] = bytes; opcode_of[word] = value
}

# Words without operands: "8080=Zilog=value" each, _ for the tab.
function intel_plain(list,    n, part, field, i) {
    n = split(list, part, " ")
    for (i = 1; i <= n; i++) {
        split(part[i], field, "=")
        gsub(/_/, "\t", field[2])
        intel_row(field[1], "", field[2], 1, field[3] + 0)
    }
}

function intel_tables(    n, part, field, i, k, word) {
    # The words that are written. A macro or a parameter with one of these names gets another name.
    for (word in reserved) written_word[word] = 1
    each_of("LD EX ADD ADC SUB SBC CP INC DEC DAA RLCA RRCA RLA RRA CPL CCF SCF JP CALL RET RST PUSH POP IN OUT EI DI HALT NOP " \
        "DB DW DS ORG END EQU PUBLIC EXTRN IF ELSE ENDIF REPT MACRO ENDM LOCAL", written_word, 1)
    # Words that are hardly a label if they are alone on a line: instructions of other processors, or macros of a file that is not here.
    for (word in instruction) elsewhere[word] = 1
    each_of("RIM SIM", elsewhere, 1)
    split("", instruction); split("", register)
    n = split("B C D E H L M A", part, " ")
    for (i = 1; i <= n; i++) { register[part[i]] = 1; number_of_register[part[i]] = i - 1; name_of_register[i - 1] = part[i] }
    name_of_register[6] = "(HL)"
    each_of("SP PSW", register, 1)
    number_of_register["SP"] = number_of_register["PSW"] = 6
    pair[0] = "BC"; pair[2] = "DE"; pair[4] = "HL"

    intel_plain("NOP=NOP=0 RLC=RLCA=7 RRC=RRCA=15 RAL=RLA=23 RAR=RRA=31 DAA=DAA=39 CMA=CPL=47 STC=SCF=55 CMC=CCF=63 HLT=HALT=118 " \
        "RET=RET=201 XTHL=EX_(SP),HL=227 PCHL=JP_(HL)=233 XCHG=EX_DE,HL=235 DI=DI=243 SPHL=LD_SP,HL=249 EI=EI=251")
    intel_row("MOV", "rr", "LD\t1,2", 1, 64); intel_row("MVI", "rv", "LD\t1,2", 2, 6)
    intel_row("LXI", "pw", "LD\t1,2", 3, 1); intel_row("INX", "p", "INC\t1", 1, 3); intel_row("DCX", "p", "DEC\t1", 1, 11)
    intel_row("DAD", "p", "ADD\tHL,1", 1, 9); intel_row("LDAX", "x", "LD\tA,(1)", 1, 10); intel_row("STAX", "x", "LD\t(1),A", 1, 2)
    intel_row("PUSH", "q", "PUSH\t1", 1, 197); intel_row("POP", "q", "POP\t1", 1, 193)
    intel_row("INR", "r", "INC\t1", 1, 4); intel_row("DCR", "r", "DEC\t1", 1, 5)
    intel_row("LDA", "a", "LD\tA,(1)", 3, 58); intel_row("STA", "a", "LD\t(1),A", 3, 50)
    intel_row("LHLD", "a", "LD\tHL,(1)", 3, 42); intel_row("SHLD", "a", "LD\t(1),HL", 3, 34)
    intel_row("IN", "i", "IN\tA,(1)", 2, 219); intel_row("OUT", "i", "OUT\t(1),A", 2, 211); intel_row("RST", "n", "RST\t1", 1, 199)
    n = split("ADD=ADI=ADD_A, ADC=ACI=ADC_A, SUB=SUI=SUB_ SBB=SBI=SBC_A, ANA=ANI=AND_ XRA=XRI=XOR_ ORA=ORI=OR_ CMP=CPI=CP_", part, " ")
    for (i = 1; i <= n; i++) {
        split(part[i], field, "=")
        gsub(/_/, "\t", field[3])
        intel_row(field[1], "r", field[3] "1", 1, 120 + 8 * i)
        intel_row(field[2], "v", field[3] "1", 2, 190 + 8 * i)
    }
    intel_row("JMP", "j", "JP\t1", 2, 195); intel_row("CALL", "j", "CALL\t1", 3, 205)
    n = split("NZ Z NC C PO PE P M", part, " ")
    for (i = 1; i <= n; i++) {
        k = 8 * (i - 1)
        intel_row("R" part[i], "", "RET\t" part[i], 1, 192 + k)
        # A JR has two bytes; the other conditions have none.
        intel_row("J" part[i], "j", "JP\t" part[i] ",1", i > 4 ? 3 : 2, 194 + k)
        intel_row("C" part[i], "j", "CALL\t" part[i] ",1", 3, 196 + k)
    }

    # Directives of MAC and M80 alone, whose names may be labels in sources of ASM.
    each_of("TITLE SUBTTL PAGE NAME BYTE COMMON CSEG DSEG ASEG INCLUDE MACLIB INCBIN", weak, 1)
    each_of("ENTRY GLOBAL PUBLIC EXT EXTRN EXTERNAL DC COND ENDC IFT IFF IFE LOCAL IRP IRPC REPT DEFB DEFM DEFW DEFS ELIF ELSEIF DEFL ASET EXITM", weak, 2)
    directives(".8080", "DROP")
    directives(".Z80", "MARK")
    doubtful_condition = "a condition that is neither 0 nor odd: some assemblers read its lowest bit"
}

# ---- Lines

# Cuts a line into its statements, which ! divides, and gives how many there are. ASM reads on after the ! of a comment too, but such a
# line is left whole: see has_statement. A text of M80 has no quotes, and may have a !.
function cut_statements(text, part,    i, c, n, start, quoted, depth) {
    n = 0; start = 1; quoted = ""; depth = 0
    i = toupper(text) ~ /^\*|^[ \t]*([.](PRINTX|COMMENT)|(TITLE|SUBTTL)[ \t]+[^D' \t])/ ? length(text) + 1 : 1
    for (; i <= length(text); i++) {
        c = substr(text, i, 1)
        if (quoted != "") { if (c == quoted) quoted = ""; continue }
        if (c == ";") break
        if (c == QUOTE || c == "\"") quoted = c
        # Brackets of a macro's argument or of a list, which is marked if it has a ! in it.
        else if (c == "<") depth++
        else if (c == ">" && depth > 0) depth--
        else if (c == "!" && depth == 0) {
            part[++n] = (n > 1 ? " " : "") substr(text, start, i - start)
            start = i + 1
        }
    }
    text = substr(text, start)
    if (n == 0) { part[1] = text; return 1 }
    if (text !~ /^[ \t]*$/) part[++n] = " " text
    return n
}

# Notes the names of macros before the first walk: what the body of one does with a parameter may depend on a macro further down.
function note_macros(    i, part) {
    for (i = 1; i <= lines; i++) if (bare(line[i]) ~ /^ +[A-Z?@.][A-Z0-9?@.$]* +MACRO /) {
        split(bare(line[i]), part, " ")
        macro[folded(part[1])] = 1
    }
}

function first_word(s) {
    return match(s, /^[A-Za-z?@.][A-Za-z0-9$?@.]*/) ? substr(s, 1, RLENGTH) : ""
}

function is_operation(w) {
    return (w in instruction) || w ~ /^(DB|DW|DS|ORG|IF|END|ENDIF|ENDM|ELSE)$/ || (folded(w) in macro)
}

# Whether a comment has a ! with a statement after it. ASM ends a comment there; M80 does not. Words that ASM would refuse are a comment.
function has_statement(t,    n, part, k, s, w) {
    n = split(t, part, "!")
    for (k = 2; k <= n; k++) {
        s = toupper(part[k])
        gsub(/'[^']*'/, "X", s)
        sub(/;.*/, "", s)
        sub(/^[ \t]*([A-Za-z?@][A-Za-z0-9$?@]*:)?[ \t]*/, "", s)
        sub(/[ \t]+$/, "", s)
        w = first_word(s)
        # A label without a colon.
        if (w != "" && !is_operation(w)) {
            sub(/^[^ \t]+[ \t]*/, "", s)
            w = first_word(s)
            if (w == "EQU" || w == "SET") return 1
        }
        if (w == "") continue
        s = substr(s, length(w) + 1)
        sub(/^[ \t]+/, "", s)
        # Operands have no spaces between two words, but beside the words of operators.
        if (s ~ /^(AND|OR|XOR|MOD|SHL|SHR|EQ|NE|LT|LE|GT|GE)[ \t]/) continue
        gsub(/[ \t]+(AND|OR|XOR|MOD|SHL|SHR|EQ|NE|LT|LE|GT|GE)[ \t]+/, ",", s)
        gsub(/(NOT|HIGH|LOW)[ \t]+/, ",", s)
        gsub(/[ \t]*[-+*\/,()][ \t]*/, ",", s)
        if (s ~ /[ \t]/) continue
        if (w in instruction) { if ((form_of[w] == "") == (s == "") && (length(form_of[w]) < 2 || s ~ /,/)) return 1 }
        else if (w ~ /^(DB|DW|DS|ORG|IF)$/) { if (s != "") return 1 }
        else if (w ~ /^(END|ENDIF|ENDM|ELSE)$/ || (folded(w) in macro)) return 1
    }
    return 0
}

# The last token of a label, 0 if there is none. ASM and MAC take each word for a label that is not the word of an instruction, a
# directive or a macro.
function intel_label(a, b, v, w,    next_is_word) {
    next_is_word = a < b && is_command(a + 1)
    if (v == "SET") return 0
    if (is_command(a)) {
        if (!(v in weak) || !next_is_word || (w in weak) || (known_as(value_of[a]) in macro)) return 0
        # What a list of names, or of other operands, may begin with.
        if (weak[v] == 2 && ((known_as(value_of[a + 1]) in macro) || (w in instruction) && form_of[w] != "" && b == a + 1)) return 0
        return a
    }
    if (is_parameter(value_of[a])) return next_is_word ? a : 0
    return a == b || next_is_word ? a : 0
}

# Whether a word that is alone on its line is a label. In the first column it is; elsewhere it may be a macro of a file that is not here,
# so something has to refer to it.
function is_label_alone(a) {
    return begin_of[a] == 1 && !(toupper(value_of[a]) in elsewhere) || (known_as(value_of[a]) in referred) || is_parameter(value_of[a])
}

# ---- Names and expressions

# The name of a parameter. One that is a word of z80dev would be replaced in what is written.
function parameter_text(name,    n) {
    name = clean(name)
    if (!intel || !(toupper(name) in written_word)) return name
    n = 1
    while ((toupper(name) "_" n) in owner) n++
    return name "_" n
}

# The value of a register or of an instruction's word: both are numbers in an expression.
function value_of_word(v, key,    w) {
    referred[key] = 1
    w = folded(v)
    if (w in number_of_register) term(number_of_register[w], number_of_register[w] "")
    else if ((w in opcode_of) && !(key in defined)) term(opcode_of[w], hexadecimal(opcode_of[w]))
    else return 0
    if (!of_register && !(as_argument && parse_first == last)) remark = remark " " v " is " out_text "."
    return 1
}

# Marks what the assemblers read in two ways: the operator before token k + 1, whose term has been read up to token p - 1.
function doubt_prefix(op, k,    i, depth, v, before) {
    v = toupper(value_of[k - 1])
    before = k > parse_first && (v in binary) && value_of[k - 1] != ")" ? tight[v] : 0
    if (op ~ /^(HIGH|LOW)$/) {
        # The loosest operators of MAC, the tightest of M80.
        if (p <= last && (toupper(value_of[p]) in binary)) wrong = op ": MAC and M80 differ on where its term ends"
    } else if (op == "NOT") {
        if (before > 3) wrong = "NOT after an operator that binds tighter"
    } else if (op ~ /^[-+]$/) {
        # -A/B is -(A/B) of M80, and may be (-A)/B of ASM. A product is the same in both.
        depth = 0
        for (i = k + 1; i < p; i++) {
            v = toupper(value_of[i])
            if (kind_of[i] == "o" && v == "(") depth++
            else if (kind_of[i] == "o" && v == ")") depth--
            else if (depth == 0 && kind_of[i] != "s" && v ~ /^([*\/]|MOD|SHL|SHR)$/ && (before > 5 || op == "-" && v ~ /^(\/|MOD|SHR)$/))
                wrong = "a sign before a division, a shift or a product, which can be read in two ways"
        }
    }
}

# Another label whose name has the same first sixteen characters, which are all that ASM and MAC read; "" if there is none.
function same_to_asm(label,    key) {
    key = folded(label)
    if (length(key) < 17) return ""
    if (!(substr(key, 1, 16) in long_name)) long_name[substr(key, 1, 16)] = key
    return long_name[substr(key, 1, 16)] == key ? "" : long_name[substr(key, 1, 16)]
}

# ORG $+n leaves n bytes out: a DS.
function skips_bytes(a, b) {
    if (b < a + 2 || value_of[a] != "$" || value_of[a + 1] != "+") return 0
    parse(a + 2, b)
    return out_known && out_level >= 6
}

# ---- Parameters
#
# A register is a number to an 8080 assembler, and H is the pair HL to some instructions. So it is noted what the body of a macro does with
# each parameter (use_of, letters as in intel_row, v for a number), and each argument is written as that needs it.

function note_use(name, kind,    k, key) {
    k = is_parameter(name)
    if (!((k, folded(name)) in number_of_parameter)) return
    key = macro_of[k] SUBSEP number_of_parameter[k, folded(name)]
    if (!(key in use_of)) use_of[key] = ""
    if (!index(use_of[key], kind)) use_of[key] = use_of[key] kind
}

# What a macro does with an argument that is a parameter of another one, the other one does; and parentheses go the other way.
function spread_uses(    k, i, again, c) {
    do {
        again = 0
        for (k = 1; k <= passes; k++) {
            if ((pass_from[k] in parenthesised) && !(pass_to[k] in parenthesised)) { parenthesised[pass_to[k]] = 1; again = 1 }
            if (!(pass_to[k] in use_of)) continue
            if (!(pass_from[k] in use_of)) use_of[pass_from[k]] = ""
            for (i = 1; i <= length(use_of[pass_to[k]]); i++) {
                c = substr(use_of[pass_to[k]], i, 1)
                if (!index(use_of[pass_from[k]], c)) { use_of[pass_from[k]] = use_of[pass_from[k]] c; again = 1 }
            }
        }
    } while (again)
}

# Notes that IF asks for a parameter alone.
function note_condition(name,    k) {
    k = is_parameter(name)
    if ((k, folded(name)) in number_of_parameter) is_condition[macro_of[k], number_of_parameter[k, folded(name)]] = 1
}

# Whether a name is a parameter for which a call has an expression in parentheses, and keeps them. z80dev would take it for memory.
function may_have_parentheses(name,    k, key) {
    k = is_parameter(name)
    if (!k || !((k, folded(name)) in number_of_parameter)) return 0
    key = macro_of[k] SUBSEP number_of_parameter[k, folded(name)]
    return (key in calculated) && (key in parenthesised)
}

# What an argument is written as, for one use.
function argument_for(kind, k,    n, known) {
    if (what_of[k] == "r") { known = 1; n = number_of_register[name_of[k]] }
    else { known = known_of[k]; n = worth_of[k] }
    if (kind == "v") return what_of[k] == "r" ? number_text(n) : text_of[k]
    if (!known) { wrong = "a register that it does not know"; return "" }
    return register_text(kind, n)
}

function intel_argument(name, k,    v, u, i, t, n, f, l) {
    f = first_of[k]; l = last_of[k]
    for (i = f; i <= l; i++) if (value_of[i] == "," && kind_of[i] == "o") wrong = "a comma in an argument: other assemblers end the argument there"
    u = (name, k) in use_of ? use_of[name, k] : ""
    v = value_of[f]
    if (((name, k) in is_condition) && known_of[k] && worth_of[k] != 0 && worth_of[k] % 2 == 0) wrong = doubtful_condition
    if (f == l && kind_of[f] == "i" && (n = is_parameter(v))) {
        if (walk_number == 1 && ((n, folded(v)) in number_of_parameter)) {
            pass_from[++passes] = macro_of[n] SUBSEP number_of_parameter[n, folded(v)]
            pass_to[passes] = name SUBSEP k
        }
        if (u == "v" && may_have_parentheses(v)) text_of[k] = "+" text_of[k]
        return
    }
    n = value_of[f] == "(" && kind_of[f] == "o" && partner(f, l) == l
    if (n) parenthesised[name, k] = 1
    # The body has it in a marked line alone, or nowhere.
    if (u == "" && f == l && kind_of[f] == "i" && (toupper(v) in opcode_of) && !(known_as(v) in defined)) text_of[k] = v
    if (u == "") return
    t = argument_for(substr(u, 1, 1), k)
    for (i = 2; i <= length(u); i++) if (argument_for(substr(u, i, 1), k) != t) wrong = "an argument that its macro uses in two ways: as a register, and as a pair or a number"
    if (u == "v" && n && ((name, k) in calculated)) t = "(" (t ~ /^\+\(/ ? substr(t, 2) : t) ")"
    text_of[k] = t
    if (what_of[k] == "r") what_of[k] = "e"
    # A register that was an expression has no operators any more.
    if (u !~ /v/) last_of[k] = f
}

# ---- Instructions

# The register of a number, for one use.
function register_text(kind, n) {
    if (kind == "r" && (n in name_of_register)) return name_of_register[n]
    if (n in pair) if (kind != "x" || n < 4) return pair[n]
    if (n == 6 && kind == "p") return "SP"
    if (n == 6 && kind == "q") return "AF"
    wrong = kind == "r" ? "a register that it does not know" : "not a register pair of this instruction"
    return ""
}

# An operand from one token to another, of a kind as in intel_row.
function intel_operand(kind, a, b, lower,    t) {
    if (kind ~ /[rpqx]/) {
        if (a == b && kind_of[a] == "i" && is_parameter(value_of[a])) { note_use(value_of[a], kind); return parameter_text(value_of[a]) }
        of_register = 1
        parse(a, b)
        of_register = 0
        if (wrong) return ""
        if (!out_known) { wrong = "a register that it does not know"; return "" }
        t = register_text(kind, out_ours)
        return lower ? tolower(t) : t
    }
    if (kind ~ /[vi]/) parse_byte(a, b)
    else parse(a, b)
    t = out_text
    if (kind ~ /[ai]/) return t
    if (kind == "n") {
        note_calculated()
        if (out_known && out_ours > 7) wrong = "RST has a number from 0 to 7"
        return out_known ? hexadecimal(8 * out_ours) : wrapped(t, out_level, 7) "*8"
    }
    if (kind ~ /[vwj]/ && a == b && may_have_parentheses(value_of[a])) return "+" t
    return t ~ /^\(/ && ends_with_partner(t) ? "+" t : t
}

function intel_instruction(label, word, a, b,    form, n, k, start, depth, from_token, to_token, text, s, c, lower, operand) {
    form = form_of[word]
    lower = value_of[a] ~ /[a-z]/
    note_least(bytes_of[word])
    if (word == "JMP") note_jump()
    else if (word ~ /^(NOP|RET|PCHL)$/) note_filler()
    else end_run()
    n = 0; start = a + 1; depth = 0
    for (k = a + 1; k <= b + 1 && b > a; k++) {
        if (k == b + 1 || value_of[k] == "," && kind_of[k] == "o" && depth == 0) {
            from_token[++n] = start; to_token[n] = k - 1
            if (start > k - 1) wrong = "an empty operand"
            start = k + 1
        } else if (kind_of[k] == "o" && value_of[k] == "(") depth++
        else if (kind_of[k] == "o" && value_of[k] == ")") depth--
    }
    if (!wrong && n != length(form)) wrong = "no such instruction"
    for (k = 1; k <= n && !wrong; k++) operand[k] = intel_operand(substr(form, k, 1), from_token[k], to_token[k], lower)
    if (wrong) { mark(label, wrong); return }
    text = written_as[word]
    if (lower) text = tolower(text)
    if (form == "j") {
        # As convert.awk has a JP or a CALL with its operands.
        operands = 1
        if (text ~ /,/) {
            operands = 2
            c = text
            sub(/^[^\t]*\t/, "", c); sub(/,.*/, "", c)
            what_of[1] = "r"; text_of[1] = c; name_of[1] = toupper(c)
        }
        what_of[operands] = "e"; text_of[operands] = operand[1]; level_of[operands] = out_level; name_of[operands] = ""
        # A name in parentheses is a name, too.
        for (k = from_token[1]; value_of[k] == "(" && kind_of[k] == "o" && partner(k, to_token[1]) == to_token[1]; to_token[1]--) k++
        if (k == to_token[1] && kind_of[k] == "i" && operand[1] == name_for(value_of[k])) name_of[operands] = value_of[k]
        sub(/\t.*/, "", text)
        jump(label, toupper(text), text)
        return
    }
    s = ""
    for (k = 1; k <= length(text); k++) {
        c = substr(text, k, 1)
        s = s (c ~ /[12]/ ? operand[c + 0] : c)
    }
    if (word == "MOV" && operand[1] == operand[2] && operand[1] ~ /^\(/) {
        s = lower ? "halt" : "HALT"
        remark = remark " the 8080 halts at MOV M,M."
    }
    say(label, s)
}
