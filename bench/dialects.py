"""How each assembler wants a program written.

`Ours` is the language of z80dev. The others say only what they write otherwise. What a method gives means the same bytes in each of
them, but that z80dev may make a JP shorter, and that `Host` is of another processor.
"""


class Ours:
    suffix = "asm"
    end = "ENDM"
    end_of_repeat = "ENDM"
    else_word = "ELSE"
    end_of_if = "ENDIF"

    def __init__(self, keeps_jumps=False):
        # Whether JP is written so that it stays one: then all make the same bytes.
        self.keeps_jumps = keeps_jumps

    # -- parts of an operand

    def value(self, text):
        return text

    def character(self, byte):
        return f"'{byte}'"

    def hexadecimal(self, number):
        return f"0{number:X}H"

    def place(self, register, offset):
        return f"({register}{offset:+d})"

    def low(self, text):
        return f"LOW {text}"

    def high(self, text):
        return f"HIGH {text}"

    def both(self, left, word, right):
        return f"{left} {word} {right}"

    # -- lines

    def begin(self, module, publics, externals):
        lines = []
        if publics:
            lines.append("\tPUBLIC\t" + ",".join(publics))
        if externals:
            lines.append("\tEXTRN\t" + ",".join(externals))
        return lines

    def close(self):
        return []

    def line(self, label, word, operands=""):
        return f"{label + ':' if label else ''}\t{word}\t{operands}".rstrip()

    def jump(self, label, condition, target):
        target = target + "+0" if self.keeps_jumps else target
        return self.line(label, "JP", f"{condition},{target}" if condition else target)

    def text(self, label, text, numbers):
        items = [f"'{text}'", *(str(n) for n in numbers)]
        return [self.line(label, "DB", ",".join(items))]

    def numbers(self, label, items):
        return self.line(label, "DB", ",".join(items))

    def words(self, label, items):
        return self.line(label, "DW", ",".join(items))

    def room(self, label, count):
        return self.line(label, "DS", str(count))

    def equ(self, name, text):
        return f"{name}\tEQU\t{text}"

    def macro(self, name, parameters, local):
        """The first lines of a macro, and the name by which its body says a parameter or a local label."""
        lines = [f"{name}\tMACRO\t{','.join(parameters)}"]
        if local:
            lines.append(f"\tLOCAL\t{local}")
        return lines, lambda word: word

    def repeat(self, count):
        return f"\tREPT\t{count}"

    def condition(self, text):
        return f"\tIF\t{text}"


class Pasmo(Ours):
    def begin(self, module, publics, externals):
        return ["\tORG\t0100H"]


class Z80asm(Pasmo):
    """z80asm of Bas Wijnen, for a program without operators."""


class Gnu(Ours):
    """GNU as for z80."""

    suffix = "s"
    end = ".endm"
    end_of_repeat = ".endr"
    else_word = ".else"
    end_of_if = ".endif"
    operators = {"MOD": "%", "SHL": "<<", "SHR": ">>", "AND": "&", "OR": "|"}

    def hexadecimal(self, number):
        return f"0x{number:X}"

    def low(self, text):
        return f"{text} & 255"

    def high(self, text):
        return f"{text} >> 8"

    def both(self, left, word, right):
        return f"{left} {self.operators[word]} {right}"

    def begin(self, module, publics, externals):
        return ["\t.globl\t" + ",".join(publics)] if publics else []

    def jump(self, label, condition, target):
        return self.line(label, "JP", f"{condition},{target}" if condition else target)

    def equ(self, name, text):
        return f"\t.equ\t{name},{text}"

    def macro(self, name, parameters, local):
        return [f"\t.macro\t{name} {','.join(parameters)}"], lambda word: f"{word}\\@" if word == local else f"\\{word}"

    def repeat(self, count):
        return f"\t.rept\t{count}"

    def condition(self, text):
        return f"\t.if\t{text}"


class Sdas(Gnu):
    """sdasz80, of SDCC."""

    end_of_repeat = ".endm"

    def value(self, text):
        return "#" + text

    def character(self, byte):
        return f"'{byte}"

    def place(self, register, offset):
        return f"{offset} ({register})"

    def low(self, text):
        return f"<({text})"

    def high(self, text):
        return f">({text})"

    def begin(self, module, publics, externals):
        names = [*publics, *externals]
        return [f"\t.module\t{module}", *(f"\t.globl\t{name}" for name in names), "\t.area\t_CODE"]

    def text(self, label, text, numbers):
        return [self.line(label, ".ascii", f'"{text}"'), self.numbers("", [str(n) for n in numbers])]

    def numbers(self, label, items):
        return self.line(label, ".db", ",".join(items))

    def words(self, label, items):
        return self.line(label, ".dw", ",".join(items))

    def room(self, label, count):
        return self.line(label, ".ds", str(count))

    def equ(self, name, text):
        return f"{name}\t=\t{text}"

    def macro(self, name, parameters, local):
        asked = [*parameters, f"?{local}"] if local else parameters
        return [f"\t.macro\t{name} {','.join(asked)}"], lambda word: word


class Host(Ours):
    """GNU as for x86-64, for ladders alone: it makes a jump shorter where that reaches, too."""

    suffix = "s"

    def begin(self, module, publics, externals):
        return []

    def jump(self, label, condition, target):
        return self.line(label, "jmp", target)

    def numbers(self, label, items):
        return self.line(label, ".byte", ",".join(items))

    def room(self, label, count):
        return self.line(label, ".skip", str(count))
