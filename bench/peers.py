"""The programs that are compared: which of them are here, and how each is called."""

import re
import shutil
import subprocess
from pathlib import Path

import dialects

TOP = Path(__file__).resolve().parent.parent


def found(*names):
    """The first of some programs that is here."""
    return next((path for path in map(shutil.which, names) if path), None)


class Z80dev:
    title = "z80dev"
    dialect = dialects.Ours()

    def __init__(self, path):
        self.path = path

    def build(self, base):
        """The commands that make a program of one source text."""
        return [[self.path, "build", "--out", base, f"{base}.asm"]]

    def build_all(self, base, sources, shared):
        """The command that makes a program of some source texts, which share the lines of some files."""
        return [self.path, "build", "--out", base, *(word for file in shared for word in ("--with", file)), *sources]

    def assemble(self, base):
        return [self.path, "asm", "--out", base, f"{base}.asm"]

    def link(self, bases):
        return [self.path, "link", "--out", "linked", *(f"{base}.zmo" for base in bases)]

    def check(self, base):
        return [self.path, "check", f"{base}.siz", f"{base}.crt"]

    def run(self, base):
        return [self.path, "run", f"{base}.com"]

    def blank(self, image):
        return [self.path, "blank", image]

    def put(self, image, file):
        return [self.path, "put", image, file, "BIG.DAT"]

    def get(self, image, file):
        return [self.path, "get", image, "BIG.DAT", file]

    def made(self, folder, base):
        """The bytes of a program that was made."""
        return (folder / f"{base}.com").read_bytes()


class Gnu:
    title = "GNU as, ld"
    package = "binutils-z80"
    dialect = dialects.Gnu()

    def __init__(self):
        self.assembler = found("z80-unknown-coff-as", "z80-elf-as")
        self.linker = found("z80-unknown-coff-ld", "z80-elf-ld")
        self.is_here = bool(self.assembler and self.linker)

    def build(self, base):
        return [self.assemble(base), self.link([base], base)]

    def assemble(self, base):
        return [self.assembler, "-o", f"{base}.o", f"{base}.s"]

    def link(self, bases, name="linked"):
        return [self.linker, "-Ttext", "0x100", "--oformat", "binary", "-o", f"{name}.bin", *(f"{base}.o" for base in bases)]

    def made(self, folder, base):
        return (folder / f"{base}.bin").read_bytes()


class Pasmo:
    title = "pasmo"
    package = "pasmo"
    dialect = dialects.Pasmo()

    def __init__(self):
        self.path = found("pasmo")
        self.is_here = bool(self.path)

    def build(self, base):
        return [[self.path, f"{base}.asm", f"{base}.com"]]

    def assemble(self, base):
        return None

    def made(self, folder, base):
        return (folder / f"{base}.com").read_bytes()


class Z80asm(Pasmo):
    """Has no operators LOW and HIGH and its own way of macros, so it is given only a program without these."""

    title = "z80asm"
    package = "z80asm"
    dialect = dialects.Z80asm()

    def __init__(self):
        self.path = found("z80asm")
        self.is_here = bool(self.path)

    def build(self, base):
        return [[self.path, "-o", f"{base}.com", f"{base}.asm"]]


class Sdcc:
    title = "sdas, sdld"
    package = "sdcc"
    dialect = dialects.Sdas()

    def __init__(self):
        self.assembler = found("sdasz80")
        self.linker = found("sdldz80")
        self.is_here = bool(self.assembler and self.linker)

    def build(self, base):
        return [self.assemble(base), self.link([base], base)]

    def assemble(self, base):
        return [self.assembler, "-o", f"{base}.rel", f"{base}.s"]

    def link(self, bases, name="linked"):
        return [self.linker, "-b", "_CODE=0x100", "-i", f"{name}.ihx", *(f"{base}.rel" for base in bases)]

    def made(self, folder, base):
        """Of Intel HEX; room is left out there."""
        memory = {}
        for line in (folder / f"{base}.ihx").read_text().split():
            record = bytes.fromhex(line[1:])
            if record[3] == 0:
                start = record[1] * 256 + record[2]
                memory.update(zip(range(start, start + record[0]), record[4:-1]))
        return bytes(memory.get(at, 0) for at in range(0x100, max(memory) + 1))


class Host:
    title = "GNU as for x86-64"
    package = "binutils, on x86-64"
    dialect = dialects.Host()

    def __init__(self):
        self.path = found("x86_64-linux-gnu-as", "as")
        self.is_here = bool(self.path) and bool(re.search("x86.64", subprocess.run([self.path, "--version"], capture_output=True, text=True).stdout))

    def build(self, base):
        return [[self.path, "-o", f"{base}.o", f"{base}.s"]]


class Simh:
    """The machine AltairZ80 of simh, which runs programs and makes none."""

    title = "simh AltairZ80"
    package = "simh"
    # A program returns to 0000H, where a HALT ends it.
    orders = """\
set cpu z80
set cpu 64k
set cpu stoponhalt
deposit 0 76
deposit e000 0
deposit e001 0
load {base}.com 100
deposit sp e000
go 100
quit
"""

    def __init__(self):
        self.path = found("altairz80")
        self.is_here = bool(self.path)

    def run(self, base):
        return [self.path, f"{base}.ini"]


class Z80ex:
    """The machine of libz80ex, which z80ex.c calls; that is compiled into a folder."""

    title = "libz80ex"
    package = "libz80ex-dev and gcc"

    def __init__(self, folder):
        self.path = str(folder / "z80ex")
        words = [found("gcc"), "-O2", "-o", self.path, str(TOP / "bench" / "z80ex.c"), "-lz80ex"]
        self.is_here = bool(words[0]) and subprocess.run(words, capture_output=True).returncode == 0

    def run(self, base):
        return [self.path, f"{base}.com"]


class Cpmtools:
    """cpmcp, which copies files to disks and from them."""

    title = "cpmtools"
    package = "cpmtools"
    # The definitions that cpmcp looks for in the folder in which it is called.
    formats = TOP / "porting" / "diskdefs"

    def __init__(self):
        self.path = found("cpmcp")
        self.is_here = bool(self.path)

    def copy(self, image, *files):
        return [self.path, "-T", "raw,pcw180", "-f", "z80dev-eight", image, *files]

    def put(self, image, file):
        return self.copy(image, file, "0:big.dat")

    def get(self, image, file):
        return self.copy(image, "0:big.dat", file)
