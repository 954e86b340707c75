"""The programs that are measured, each the same for a dialect as for any other, and at any time."""

JUMPS = 18_999
STATEMENTS = 20_000
# The last jumps of a chain, which go back to its first statement.
BACK = 70
# Labels of a ladder, of 24 bytes.
LONG = "THE_LADDER_S_LABEL_{:05}"


class Chance:
    """Numbers that look like chance and are always the same."""

    def __init__(self, seed):
        self.state = seed

    def below(self, count):
        self.state = (self.state * 6364136223846793005 + 1442695040888963407) % 2**64
        return (self.state >> 33) % count

    def of(self, items):
        return items[self.below(len(items))]


def lines_of(lines):
    return "\n".join(lines) + "\n"


# -- ladders

def ladder(dialect, label="L{}"):
    """Jumps, each over the next 63 statements: all reach but the last 63, and each of these pushes out others, until all are long."""
    lines = dialect.begin("ladder", [], [])
    for k in range(JUMPS):
        lines.append(dialect.jump(label.format(k), "", label.format(k + 64)))
    lines.append(dialect.room(label.format(JUMPS), 4))
    for k in range(JUMPS + 1, JUMPS + 64):
        lines.append(dialect.numbers(label.format(k), ["1", "2"]))
    return lines_of(lines)


def chain(dialect, distance):
    """Jumps from each statement to the one so many on, and from the last ones to the first."""
    lines = dialect.begin("chain", [], [])
    for k in range(STATEMENTS):
        lines.append(dialect.jump(f"L{k}", "", f"L{k + distance}" if k < STATEMENTS - BACK else "L0"))
    return lines_of(lines)


# -- programs without macros, and with some

FORMS = (
    "LD A,5", "LD HL,TAB+2", "ADD A,(IX+3)", "JP NZ,{label}", "CALL {label}", "INC HL",
    "DB 1,2,'AB'", "LD (HL),A", "DW {label}", "BIT 3,(HL)", "PUSH BC", "LD DE,100H*2+1",
)


def statement(k, count):
    """Statement k of so many of twelve forms in turn, a label every ten lines."""
    own = f"L{k}:" if k % 10 == 0 else ""
    near = min(k // 10 + 7 * k % 5, count // 10 - 1)
    return f"{own}\t{FORMS[k % 12].format(label=f'L{10 * near}')}"


def plain():
    """20,000 statements, no macro: in the language of z80dev alone."""
    return lines_of(["TAB EQU 4000H"] + [statement(k, STATEMENTS) for k in range(STATEMENTS)])


def macros():
    """20,000 statements, 200 of them by a hundred calls of a macro: in the language of z80dev alone."""
    count = STATEMENTS - 200
    lines = ["TAB EQU 4000H", "PUT MACRO WHAT", "\tLD A,WHAT", "\tLD (TAB),A", "\tENDM"]
    for k in range(count):
        lines.append(statement(k, count))
        if k % (count // 100) == 57:
            lines.append(f"\tPUT {k % 250}")
    return lines_of(lines)


# -- lines that are empty or comments

SHORT = (
    ("LD", "A,B"), ("INC", "HL"), ("ADD", "A,C"), ("PUSH", "BC"), ("LD", "(HL),A"), ("EX", "DE,HL"),
    ("OR", "A"), ("DEC", "BC"), ("XOR", "D"), ("POP", "BC"), ("SCF", ""), ("RET", ""),
)
COMMENTS = (
    "; Reads the next record of the file into the buffer",
    "; ---------------------------------------------------------------",
    ";",
    "\t; HL is the address of the entry, and B counts",
    "; Changed: A, B, HL. Carry is set at the end of the file.",
)


def sparse(dialect, empty, comments):
    """20,000 short statements of twelve forms in turn, a label every ten, and after each of them some empty lines and some comments."""
    lines = dialect.begin("sparse", [], [])
    for k in range(STATEMENTS):
        lines.append(dialect.line(f"L{k}" if k % 10 == 0 else "", *SHORT[k % len(SHORT)]))
        lines += [""] * empty
        lines += [COMMENTS[(k + each) % len(COMMENTS)] for each in range(comments)]
    return lines_of(lines)


# -- a program that is run

def machine(rounds):
    """A sieve of 4,096 bytes, so many times over, that calls no system: in the language of z80dev."""
    return f"""\
        LD      BC,{rounds}
ROUND:  PUSH    BC
        LD      HL,SIEVE
        LD      BC,4096
CLEAR:  LD      (HL),1
        INC     HL
        DEC     BC
        LD      A,B
        OR      C
        JP      NZ,CLEAR
        LD      HL,SIEVE
        LD      DE,3
NEXT:   LD      A,(HL)
        OR      A
        JP      Z,AFTER
        PUSH    HL
CROSS:  ADD     HL,DE
        LD      A,H
        CP      HIGH (SIEVE+4096)
        JP      NC,DONE
        LD      (HL),0
        JP      CROSS
DONE:   POP     HL
AFTER:  INC     HL
        INC     DE
        INC     DE
        LD      A,H
        CP      HIGH (SIEVE+4096)
        JP      C,NEXT
        POP     BC
        DEC     BC
        LD      A,B
        OR      C
        JP      NZ,ROUND
        RET
SIEVE   EQU     1000H
"""


# -- a file that is put on a disk

def noise(count):
    """Bytes that look like chance."""
    chance = Chance(7)
    return bytes(chance.below(256) for _ in range(count))


# -- modules of one statement

def single(dialect, number, count):
    here, there = f"M{number}", f"M{(number + 1) % count}"
    return lines_of([*dialect.begin(f"m{number}", [here], [there]), dialect.jump(here, "", there)])


# -- a program of the whole language

BYTES = ("A", "B", "C", "D", "E", "H", "L")
WORDS = ("BC", "DE", "HL")
INDEXES = ("IX", "IY")
CONDITIONS = ("NZ", "Z", "NC", "C")
ALONE = ("RET", "RET", "RET", "NOP", "EXX", "LDIR", "LDI", "CPIR", "SCF", "CCF", "CPL", "RLCA", "RRA", "NEG", "DAA", "EI", "RETI")
STEMS = ("LOOP", "NEXT", "DONE", "PUT", "GET", "READ", "TAB", "FLAG", "COUNT", "BUFFER", "PRINT", "SKIP")
TEXTS = ("File not found", "Disk full", "OK", "Usage", "Error in line ", "Bye", "Ready", "Name?")
REMARKS = ("the next one", "is there more?", "leave it as it was", "all done", "count in B")
CONSTANTS = 120

# What the lines of a hundred are: a kind, how many of it, and how many statements one comes to.
KINDS = (
    ("operands", 40, 1),
    ("jump", 12, 1),
    ("alone", 12, 1),
    ("bytes", 9, 1),
    ("text", 4, 1),
    ("words", 8, 1),
    ("room", 3, 1),
    ("move", 2, 2),
    ("wait", 2, 2),
    ("avoid", 2, 4),
    ("choose", 2, 1),
    ("repeat", 2, 6),
    ("if", 2, 2),
)
SIZES = {kind: size for kind, _, size in KINDS}


# Those that call a macro.
CALLS = ("move", "wait", "avoid", "choose")


class Mix:
    """A program of so many statements, with calls of macros or without. Of a module, `publics` are labels of it and `externals` those of
    another one."""

    def __init__(self, dialect, statements, seed, module="main", publics=(), externals=(), calls=True):
        self.dialect = dialect
        self.calls = calls
        self.chance = Chance(seed)
        self.module = module
        self.publics = list(publics)
        self.externals = list(externals)
        self.constants = []
        self.lines = []
        self.kinds = self.plan(statements)
        count = (len(self.kinds) + 2) // 3
        self.labels = [self.publics[k] if k < len(self.publics) else f"{self.chance.of(STEMS)}{k}" for k in range(count)]

    def plan(self, statements):
        each = [kind for kind, weight, _ in KINDS if self.calls or kind not in CALLS for _ in range(weight)]
        kinds = []
        while statements > 0:
            kind = self.chance.of(each)
            if SIZES[kind] > statements:
                kind = "alone"
            kinds.append(kind)
            statements -= SIZES[kind]
        return kinds

    # -- names and numbers

    def label_near(self, at, reach):
        """A label at most so many labels away."""
        low = max(0, at // 3 - reach)
        high = min(len(self.labels), at // 3 + reach + 1)
        return self.labels[low + self.chance.below(high - low)]

    def target(self, at):
        if self.externals and self.chance.below(8) == 0:
            return self.chance.of(self.externals)
        return self.label_near(at, 15 if self.chance.below(4) else 300)

    def constant(self):
        return self.chance.of(self.constants)[0]

    def number(self):
        """An expression of at most a byte, without labels."""
        d, chance = self.dialect, self.chance
        return (
            lambda: str(chance.below(256)),
            lambda: d.hexadecimal(chance.below(256)),
            lambda: self.constant(),
            lambda: f"{self.constant()}+{chance.below(50)}",
            lambda: f"2*({self.constant()}+1)",
            lambda: d.both(self.constant(), "AND", d.hexadecimal(15)),
            lambda: d.both(d.both(self.constant(), "MOD", "16"), "SHL", "2"),
            lambda: d.both(f"{self.constant()}*2", "OR", "1"),
        )[chance.below(8)]()

    def byte(self, at):
        """An expression of a byte."""
        part = self.chance.below(8)
        if part == 0:
            return self.dialect.low(self.label_near(at, 40))
        if part == 1:
            return self.dialect.high(self.label_near(at, 40))
        return self.number()

    def word(self, at):
        """An expression of a word."""
        d, chance = self.dialect, self.chance
        first = chance.below(len(self.labels))
        second = first + chance.below(len(self.labels) - first)
        return (
            lambda: self.target(at),
            lambda: self.target(at),
            lambda: self.label_near(at, 60),
            lambda: f"{self.label_near(at, 60)}+{chance.below(20)}",
            lambda: f"{self.label_near(at, 60)}+{self.constant()}*2",
            lambda: f"{self.labels[second]}-{self.labels[first]}+1",
            lambda: d.hexadecimal(chance.below(65536)),
            lambda: f"{self.constant()}*{chance.below(100)}",
        )[chance.below(8)]()

    # -- statements

    def operands(self, at):
        """A word and the operands of an instruction."""
        d, c = self.dialect, self.chance
        value = lambda: d.value(self.byte(at))
        place = lambda: d.place(c.of(INDEXES), c.below(256) - 128)
        r = lambda: c.of(BYTES)
        rr = lambda: c.of(WORDS)
        return (
            lambda: ("LD", f"{r()},{r()}"),
            lambda: ("LD", f"{r()},{r()}"),
            lambda: ("LD", f"{r()},{value()}"),
            lambda: ("LD", f"{r()},{value()}"),
            lambda: ("LD", f"{r()},(HL)"),
            lambda: ("LD", f"(HL),{r()}"),
            lambda: ("LD", f"{rr()},{d.value(self.word(at))}"),
            lambda: ("LD", f"{rr()},{d.value(self.word(at))}"),
            lambda: ("LD", f"A,({self.label_near(at, 60)})"),
            lambda: ("LD", f"({self.label_near(at, 60)}+1),A"),
            lambda: ("LD", f"HL,({self.label_near(at, 60)})"),
            lambda: ("LD", f"{r()},{place()}"),
            lambda: ("LD", f"{place()},{value()}"),
            lambda: ("ADD", f"A,{r()}"),
            lambda: ("ADC", f"A,{value()}"),
            lambda: ("SUB", r()),
            lambda: ("CP", d.value(d.character(chr(65 + c.below(26))))),
            lambda: ("CP", value()),
            lambda: ("AND", value()),
            lambda: ("OR", "(HL)"),
            lambda: ("XOR", r()),
            lambda: ("XOR", place()),
            lambda: ("INC", r()),
            lambda: ("DEC", rr()),
            lambda: ("INC", "(HL)"),
            lambda: ("PUSH", c.of(("AF", "BC", "DE", "HL", "IX"))),
            lambda: ("POP", c.of(("AF", "BC", "DE", "HL", "IX"))),
            lambda: ("ADD", f"HL,{rr()}"),
            lambda: ("SBC", f"HL,{rr()}"),
            lambda: ("EX", c.of(("DE,HL", "(SP),HL"))),
            lambda: ("BIT", f"{c.below(8)},{r()}"),
            lambda: ("SET", f"{c.below(8)},(HL)"),
            lambda: ("RES", f"{c.below(8)},{place()}"),
            lambda: ("SLA", r()),
            lambda: ("RL", "(HL)"),
            lambda: ("IN", f"A,({d.hexadecimal(c.below(256))})"),
            lambda: ("OUT", f"(C),{r()}"),
            lambda: ("RET", c.of(CONDITIONS)),
        )[c.below(38)]()

    def jump(self, at, label):
        d, c = self.dialect, self.chance
        part = c.below(20)
        if part < 8:
            return d.jump(label, c.of(CONDITIONS), self.target(at))
        if part < 12:
            return d.jump(label, "", self.target(at))
        if part < 16:
            return d.line(label, "CALL", self.target(at))
        if part < 17:
            return d.line(label, "CALL", f"{c.of(CONDITIONS)},{self.target(at)}")
        if part < 19:
            return d.line(label, "DJNZ", self.labels[at // 3])
        return d.line(label, "JP", "(HL)")

    def item(self, at, kind, label):
        """The lines of one item; a label stands alone before a block."""
        d, c = self.dialect, self.chance
        if kind == "operands":
            return [d.line(label, *self.operands(at))]
        if kind == "jump":
            return [self.jump(at, label)]
        if kind == "alone":
            return [d.line(label, c.of(ALONE))]
        if kind == "bytes":
            return [d.numbers(label, [self.byte(at) for _ in range(1 + c.below(6))])]
        if kind == "text":
            return d.text(label, c.of(TEXTS), [13, 10])
        if kind == "words":
            return [d.words(label, [self.word(at) for _ in range(1 + c.below(3))])]
        if kind == "room":
            return [d.room(label, 1 + c.below(6))]
        if kind == "move":
            return [d.line(label, "MOVE", f"{c.of(BYTES)},{c.of(('B', 'C', '(HL)'))}")]
        if kind in ("wait", "avoid", "choose"):
            return [d.line(label, kind.upper(), self.constant())]
        alone = [f"{label}:"] if label else []
        if kind == "repeat":
            return [*alone, d.repeat(3), d.line("", "INC", c.of(WORDS)), d.line("", "RRCA"), "\t" + d.end_of_repeat]
        return [
            *alone,
            d.condition(f"{self.constant()}/50"),
            d.line("", "LD", f"A,{d.value(self.number())}"),
            d.line("", "CPL"),
            "\t" + d.else_word,
            d.line("", "LD", f"B,{d.value(self.number())}"),
            d.line("", "SCF"),
            "\t" + d.end_of_if,
        ]

    # -- the text

    def define(self, name, parameters, local, body):
        lines, said = self.dialect.macro(name, parameters, local)
        self.lines += [*lines, *body(said), "\t" + self.dialect.end]

    def macros(self):
        d = self.dialect
        self.define("MOVE", ["TO", "FROM"], "", lambda p: [
            d.line("", "LD", f"A,{p('FROM')}"),
            d.line("", "LD", f"{p('TO')},A"),
        ])
        self.define("WAIT", ["TURNS"], "BACK", lambda p: [
            d.line("", "LD", f"B,{d.value(p('TURNS'))}"),
            d.line(p("BACK"), "DJNZ", p("BACK")),
        ])
        self.define("AVOID", ["WANT"], "AWAY", lambda p: [
            d.line("", "CP", d.value(p("WANT"))),
            d.jump("", "NZ", p("AWAY")),
            d.line("", "INC", "HL"),
            d.line(p("AWAY"), "DEC", "DE"),
        ])
        self.define("CHOOSE", ["WHICH"], "", lambda p: [
            d.condition(f"{p('WHICH')}/50"),
            d.line("", "LD", f"A,{d.value(p('WHICH'))}"),
            "\t" + d.else_word,
            d.line("", "LD", f"A,{d.value('1')}"),
            "\t" + d.end_of_if,
        ])

    def equates(self):
        for k in range(CONSTANTS):
            if k % 3 == 2:
                name, worth = self.chance.of(self.constants)
                if worth < 90:
                    self.constants.append((f"K{k}", worth + 5))
                    self.lines.append(self.dialect.equ(f"K{k}", f"{name}+5"))
                    continue
            worth = self.chance.below(90)
            self.constants.append((f"K{k}", worth))
            self.lines.append(self.dialect.equ(f"K{k}", str(worth)))

    def source(self):
        self.lines = self.dialect.begin(self.module, self.publics, self.externals)
        self.equates()
        if self.calls:
            self.macros()
        for at, kind in enumerate(self.kinds):
            made = self.item(at, kind, self.labels[at // 3] if at % 3 == 0 else "")
            if at % 8 == 0:
                made[-1] += f"\t; {self.chance.of(REMARKS)}"
            self.lines += made
        return lines_of(self.lines)


def mixed(dialect, statements, calls=True):
    return Mix(dialect, statements, 23, calls=calls).source()


# -- a program as a compiler writes it

class Compiled:
    """A program of functions, each with its variables at IX, and after it those that stay and its texts. It defines no constants and no
    macros, and each of its lines is a statement."""

    # The fewest statements of a function, and how many more it may have. Some functions have several times as many, so that not every jump
    # in them can be short.
    LEAST = 30
    MORE = 40
    LONGER = 4
    # How many statements a function ends with, the most that a step of it has, and the most of a simple step.
    END = 5
    STEP = 12
    SIMPLE = 4

    def __init__(self, dialect, statements, seed):
        self.dialect = dialect
        self.chance = Chance(seed)
        self.sizes = self.shares(statements)
        self.lines = []
        self.count = 0
        self.labels = 0
        # The function that is written, and the label of the next statement.
        self.at = 0
        self.label = ""

    def shares(self, statements):
        """How many statements each function has, which is decided first: a call may name a later function."""
        sizes = []
        while statements > self.LONGER * (self.LEAST + self.MORE) + self.LEAST:
            size = self.LEAST + self.chance.below(self.MORE + 1)
            sizes.append(size if self.chance.below(6) else self.LONGER * size)
            statements -= sizes[-1]
        return [*sizes, statements]

    # -- lines

    def add(self, write, *operands):
        """One statement, with the label that waits for it."""
        label, self.label = self.label, ""
        made = write(label, *operands)
        self.lines += made if isinstance(made, list) else [made]
        self.count += 1

    def put(self, word, operands=""):
        self.add(self.dialect.line, word, operands)

    def jump(self, condition, target):
        self.add(self.dialect.jump, condition, target)

    def new_label(self):
        self.labels += 1
        return f"L{self.labels}"

    # -- operands

    def local(self):
        """A byte of the function's own variables."""
        return self.dialect.place("IX", -2 * (1 + self.chance.below(6)))

    def near(self):
        """A function: often one that stands near, so that names are used soon after each other, as in a program of parts."""
        if self.chance.below(3) == 0:
            return self.chance.below(len(self.sizes))
        return min(max(self.at - 6 + self.chance.below(10), 0), len(self.sizes) - 1)

    def variable(self):
        return f"V{self.at if self.chance.below(2) else self.near()}"

    def small(self):
        """A number of a byte."""
        d, c = self.dialect, self.chance
        return d.value(str(c.below(100)) if c.below(3) else d.hexadecimal(c.below(256)))

    def large(self):
        """A number of a word."""
        d, c = self.dialect, self.chance
        return d.value(str(c.below(1000)) if c.below(2) else d.hexadecimal(c.below(65536)))

    def address(self):
        c = self.chance
        words = (f"T{self.near()}", self.variable(), f"{self.variable()}+1", f"{self.variable()}+{2 + c.below(4)}")
        return self.dialect.value(words[c.below(4)])

    # -- steps without a jump

    def load(self):
        """Reads a variable of the function, or writes it."""
        at = -2 * (1 + self.chance.below(6))
        low, high = self.dialect.place("IX", at), self.dialect.place("IX", at + 1)
        for operands in self.chance.of(((f"L,{low}", f"H,{high}"), (f"E,{low}", f"D,{high}"), (f"{low},L", f"{high},H"))):
            self.put("LD", operands)

    def fetch(self):
        self.put("LD", self.chance.of(("HL,({})", "HL,({})", "A,({})", "DE,({})", "A,({}+1)")).format(self.variable()))

    def keep(self):
        self.put("LD", self.chance.of(("({}),HL", "({}),HL", "({}),A", "({}+1),A", "({}),DE")).format(self.variable()))

    def number(self):
        c = self.chance
        part = c.below(6)
        if part < 3:
            self.put("LD", f"{c.of(WORDS)},{self.large()}")
        elif part < 5:
            self.put("LD", f"{c.of(BYTES)},{self.small()}")
        else:
            self.put("LD", f"{self.local()},{self.small()}")

    def sum(self):
        for word, operands in self.chance.of((
            [("ADD", "HL,DE")], [("ADD", "HL,HL")], [("ADD", "HL,BC")], [("INC", "HL")], [("DEC", "HL")], [("INC", "DE")], [("EX", "DE,HL")],
            [("OR", "A"), ("SBC", "HL,DE")], [("ADD", "HL,HL"), ("ADD", "HL,DE")], [("PUSH", "HL")], [("POP", "DE")], [("EX", "(SP),HL")],
        )):
            self.put(word, operands)

    def byte(self):
        c = self.chance
        word, operands = (
            lambda: ("AND", self.small()),
            lambda: ("OR", self.small()),
            lambda: ("XOR", c.of(BYTES)),
            lambda: ("ADD", f"A,{self.small()}"),
            lambda: ("ADC", f"A,{c.of(BYTES)}"),
            lambda: ("SUB", c.of(BYTES)),
            lambda: ("INC", self.local()),
            lambda: ("DEC", c.of(BYTES)),
            lambda: ("CP", "(HL)"),
            lambda: ("SRL", "H"),
            lambda: ("RR", "L"),
            lambda: ("RLCA", ""),
            lambda: ("BIT", f"{c.below(8)},{c.of(BYTES)}"),
            lambda: ("SET", f"{c.below(8)},(HL)"),
            lambda: ("RES", f"{c.below(8)},{self.local()}"),
            lambda: ("NEG", ""),
        )[c.below(16)]()
        self.put(word, operands)

    def move(self):
        self.put("LD", f"{self.chance.of(BYTES)},{self.chance.of(BYTES)}")

    def pointed(self):
        first, then = self.chance.of((("E,(HL)", "D,(HL)"), ("(HL),E", "(HL),D"), ("C,(HL)", "B,(HL)")))
        for word, operands in (("LD", first), ("INC", "HL"), ("LD", then)):
            self.put(word, operands)

    def port(self):
        place = f"({self.dialect.hexadecimal(self.chance.below(256))})"
        self.put(*self.chance.of((("IN", f"A,{place}"), ("OUT", f"{place},A"))))

    def call(self):
        """A call, with an argument or without."""
        if self.chance.below(2):
            self.put("LD", f"HL,{self.address()}")
            self.put("PUSH", "HL")
            self.put("CALL", f"F{self.near()}")
            self.put("POP", "AF")
        else:
            self.put("CALL", f"F{self.near()}")

    def copy(self):
        for word, operands in (("LD", f"HL,{self.address()}"), ("LD", f"DE,{self.address()}"), ("LD", f"BC,{self.large()}"), ("LDIR", "")):
            self.put(word, operands)

    def simple(self):
        """A step of at most SIMPLE statements."""
        self.chance.of((
            self.load, self.load, self.load, self.fetch, self.fetch, self.keep, self.keep, self.number, self.number, self.sum, self.sum,
            self.byte, self.byte, self.move, self.pointed, self.port, self.call, self.call, self.copy,
        ))()

    # -- steps with a jump

    def test(self):
        """Compares, and says by which condition to jump."""
        c = self.chance
        part = c.below(4)
        if part == 0:
            self.put("LD", "A,H")
            self.put("OR", "L")
            return c.of(("Z", "NZ"))
        if part == 1:
            self.put("OR", "A")
            self.put("SBC", "HL,DE")
            return c.of(("C", "NC", "M", "P"))
        if part == 2:
            self.put("CP", self.small())
            return c.of(CONDITIONS)
        self.put("BIT", f"{c.below(8)},{self.local()}")
        return c.of(("Z", "NZ"))

    def branch(self):
        after = self.new_label()
        self.jump(self.test(), after)
        self.simple()
        self.simple()
        self.label = after

    def choice(self):
        other, after = self.new_label(), self.new_label()
        self.jump(self.test(), other)
        self.simple()
        self.jump("", after)
        self.label = other
        self.simple()
        self.label = after

    def loop(self):
        self.label = self.label or self.new_label()
        again = self.label
        self.simple()
        self.simple()
        self.jump(self.test(), again)

    def wait(self):
        self.put("LD", f"B,{self.small()}")
        self.label = self.new_label()
        again = self.label
        self.sum()
        self.put("DJNZ", again)

    def leave(self):
        self.jump(self.test(), f"R{self.at}")

    # -- functions

    def data(self):
        """The variables that stay, and the text."""
        d, c = self.dialect, self.chance
        self.label = f"V{self.at}"
        kind = c.below(3)
        if kind == 0:
            self.add(d.room, 2 * (1 + c.below(4)))
        elif kind == 1:
            self.add(d.words, [f"F{self.near()}" for _ in range(1 + c.below(4))])
        else:
            self.add(d.numbers, [str(c.below(256)) for _ in range(1 + c.below(8))])
        self.label = f"T{self.at}"
        self.add(d.text, c.of(TEXTS), [0])

    def function(self, size):
        end = self.count + size
        self.label = f"F{self.at}"
        for word, operands in (("PUSH", "IX"), ("LD", f"IX,{self.dialect.value('0')}"), ("ADD", "IX,SP"), ("PUSH", "AF")):
            self.put(word, operands)
        while end - self.count > self.STEP + self.END:
            self.chance.of((self.simple, self.simple, self.simple, self.branch, self.choice, self.loop, self.wait, self.leave))()
        while end - self.count > self.SIMPLE + self.END:
            self.simple()
        # At least one, so that no label of a step waits any more: a statement has one label.
        while end - self.count > self.END:
            self.move()
        self.label = f"R{self.at}"
        for word, operands in (("LD", "SP,IX"), ("POP", "IX"), ("RET", "")):
            self.put(word, operands)
        self.data()

    def source(self):
        self.lines = self.dialect.begin("compiled", [], [])
        for self.at, size in enumerate(self.sizes):
            self.function(size)
        return lines_of(self.lines)


def compiled(dialect, statements):
    return Compiled(dialect, statements, 41).source()


def shared(count):
    """Lines that the modules of a program share: a number in every line, of which every third comes from another one."""
    return lines_of(f"S{k} EQU S{k - 2}+{k % 7}" if k % 3 == 2 else f"S{k} EQU {37 * k % 1000}" for k in range(count))


def module(dialect, number, count, statements):
    publics = [f"M{number}A", f"M{number}B"]
    there = (number + 1) % count
    return Mix(dialect, statements, 100 + number, f"m{number}", publics, [f"M{there}A", f"M{there}B"]).source()
