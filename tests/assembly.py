"""Writes an object file for x86-64 or AArch64 as assembly of its bytes: what an assembler makes of it has the same
code, whichever it is.

A section for each function stays a section, with its name in letters that each assembler takes. What a linker has to
fill in stays a relocation, by the name of what it refers to. So a change of one function changes its own lines, and
those that refer to a constant which moves.

The object files of the kit have relocations of few kinds, which stand below, and tables of addresses. Such a table is
written by the linker or the loader only, and no other section can be written to. One archive has one object file.
Anything else is refused.

Code for AArch64 is written as instructions and not as numbers. An assembler marks numbers as data, and linkers look for
what a Cortex-A53 does wrong (its errata 835769 and 843419) in code only. Data between the code stays marked as data.
"""
import re
import struct

SECTION = struct.Struct("<IIQQQQIIQQ")
SYMBOL = struct.Struct("<IBBHQQ")
RELOCATION = struct.Struct("<QQq")
PROGBITS, SYMTAB, RELA = 1, 2, 4
WRITABLE, LOADED, CODE = 1, 2, 4
GLOBAL, FUNCTION, OF_SECTION = 1, 2, 3
X86_64, AARCH64 = 62, 183
# By the machine of an object file, the kinds of relocations, and how many bytes each has.
KINDS = {
    X86_64: {4: ("R_X86_64_PLT32", 4), 2: ("R_X86_64_PC32", 4), 1: ("R_X86_64_64", 8)},
    AARCH64: {
        257: ("R_AARCH64_ABS64", 8),
        261: ("R_AARCH64_PREL32", 4),
        275: ("R_AARCH64_ADR_PREL_PG_HI21", 4),
        277: ("R_AARCH64_ADD_ABS_LO12_NC", 4),
        278: ("R_AARCH64_LDST8_ABS_LO12_NC", 4),
        282: ("R_AARCH64_JUMP26", 4),
        283: ("R_AARCH64_CALL26", 4),
        284: ("R_AARCH64_LDST16_ABS_LO12_NC", 4),
        285: ("R_AARCH64_LDST32_ABS_LO12_NC", 4),
        286: ("R_AARCH64_LDST64_ABS_LO12_NC", 4),
        299: ("R_AARCH64_LDST128_ABS_LO12_NC", 4),
    },
}
TABLES = ".data.rel.ro."
# How many bytes a line has.
WIDTH = 32
# What a line of numbers begins with, and how each of them is packed.
INSTRUCTIONS, NUMBERS = (".inst", "I"), (".quad", "Q")


class Refused(Exception):
    """The file has something that the assembly could not say."""


def object_of(archive):
    """The one object file of an archive."""
    at, found = 8, []
    while at < len(archive):
        name, size = archive[at : at + 16].decode().strip(), int(archive[at + 48 : at + 58])
        if name not in ("/", "//"):
            found.append(archive[at + 60 : at + 60 + size])
        at += 60 + size + size % 2
    if len(found) != 1:
        raise Refused(f"the archive has {len(found)} files, and not one")
    return found[0]


class Names:
    """A name in letters, digits, dots and underscores for each other one. No two get the same."""

    def __init__(self):
        self.taken = {}

    def plain(self, name):
        # The numbers that LLVM gives to tables of jumps count those of the module: they are numbered by their function.
        name = re.sub(r"(switch\.table\..*?)\.\d+$", r"\1", name)
        return re.sub(r"\.?[^\w.$]+\.?", ".", name).rstrip(".")

    def of(self, key, name):
        """The name of this thing, which is a number of its kind."""
        if key not in self.taken:
            made, count = self.plain(name), 1
            while made in self.taken.values():
                count += 1
                made = f"{self.plain(name)}.{count}"
            self.taken[key] = made
        return self.taken[key]


class Object:
    """An ELF object file of 64 bits."""

    def __init__(self, data):
        self.data = data
        (self.machine,) = struct.unpack_from("<H", data, 18)
        if self.machine not in KINDS:
            raise Refused(f"an object file for the machine {self.machine}")
        kinds = KINDS[self.machine]
        (at,), (count, names) = struct.unpack_from("<Q", data, 40), struct.unpack_from("<HH", data, 60)
        self.sections = [SECTION.unpack_from(data, at + SECTION.size * it) for it in range(count)]
        self.section_names = [self.text(names, it[0]) for it in self.sections]
        table = next(it for it in self.sections if it[1] == SYMTAB)
        self.symbols = [
            (self.text(table[6], name), info >> 4, info & 15, section, value, size)
            for name, info, _, section, value, size in SYMBOL.iter_unpack(data[table[4] : table[4] + table[5]])
        ]
        self.relocations = {}
        for section in (it for it in self.sections if it[1] == RELA):
            for place, info, addend in RELOCATION.iter_unpack(data[section[4] : section[4] + section[5]]):
                if info & 0xFFFFFFFF not in kinds:
                    raise Refused(f"a relocation of kind {info & 0xFFFFFFFF}")
                self.relocations.setdefault(section[7], {})[place] = (info >> 32, *kinds[info & 0xFFFFFFFF], addend)
        self.of_sections, self.of_symbols = Names(), Names()

    def text(self, section, at):
        start = self.sections[section][4] + at
        return self.data[start : self.data.index(b"\0", start)].decode()

    def label(self, number):
        """How the assembly names a symbol. One that stands for a section is its first byte.

        A compiler that takes the assembly into a module of its own has labels there such as .LCPI5_0. It would take one
        of that name here for its own, without a word, and so put another constant in its place.
        """
        name, _, kind, section, *_ = self.symbols[number]
        if kind == OF_SECTION:
            return ".Lin" + self.of_sections.of(section, self.section_names[section])
        label = self.of_symbols.of(number, name)
        return f".Lin{label}" if label.startswith(".L") else label

    def named_sections(self):
        """The sections that a relocation refers to."""
        named = {symbol for places in self.relocations.values() for symbol, *_ in places.values()}
        return {self.symbols[symbol][3] for symbol in named if self.symbols[symbol][2] == OF_SECTION}

    def lines(self, defined):
        # Some assemblers lose the name of a relocation that nothing else names.
        for number, (name, binding, _, section, *_) in enumerate(self.symbols):
            if section == 0 and binding == GLOBAL and name not in defined:
                yield f"\t.globl\t{self.label(number)}"
        named = self.named_sections()
        for number, (_, kind, flags, _, _, size, _, _, align, _) in enumerate(self.sections):
            # Something may refer to a constant of no bytes.
            if kind == PROGBITS and flags & LOADED and (size or number in named):
                yield from self.lines_of(number, flags, align)
        yield '\t.section\t.note.GNU-stack,"",@progbits'

    def lines_of(self, number, flags, align):
        """A section: its symbols and relocations, with the bytes between them."""
        name = self.of_sections.of(number, self.section_names[number])
        if flags & WRITABLE and not name.startswith(TABLES):
            raise Refused(f"the section {name} can be written to")
        here, marks = self.symbols_in(number), self.marks_in(number)
        # A linker that merges equal constants finds by its name, or by its place in the section, which one is meant. An
        # assembler puts one for the other, and that then may mean another constant. So none are merged, and they are in
        # a section of another name, since LLVM's assembler knows the sections of constants by theirs.
        letters = "a" + "w" * bool(flags & WRITABLE) + "x" * bool(flags & CODE)
        yield f'\t.section\t{name.replace(".cst", ".named")},"{letters}",@progbits'
        yield f"\t.balign\t{align}"
        yield f".Lin{name}:"
        at, size = self.sections[number][4:6]
        code, relocations = self.data[at : at + size], self.relocations.get(number, {})
        ends = [it + width for it, (_, _, width, _) in relocations.items()]
        cuts, is_code = sorted({0, size, *here, *marks, *relocations, *ends}), bool(flags & CODE)
        for start, end in zip(cuts, cuts[1:]):
            for symbol in here.get(start, []):
                yield from self.head(symbol)
            if start in relocations:
                symbol, kind, _, addend = relocations[start]
                yield f"\t.reloc\t.,{kind},{self.label(symbol)}" + f"{addend:+d}" * bool(addend)
            is_code = marks.get(start, is_code)
            is_by_instruction = is_code and self.machine == AARCH64
            yield from lines_of_bytes(code[start:end], *(INSTRUCTIONS if is_by_instruction else NUMBERS))

    def symbols_in(self, number):
        """The symbols of a section, by their places."""
        found = {}
        for symbol, (name, _, kind, section, value, _) in enumerate(self.symbols):
            if section == number and kind != OF_SECTION and not self.is_mark(name):
                found.setdefault(value, []).append(symbol)
        return found

    def is_mark(self, name):
        """Whether this symbol is no name. AArch64's $x and $d mark where code begins, and where data."""
        return self.machine == AARCH64 and name.startswith("$")

    def marks_in(self, number):
        """By the place of each mark in a section, whether code begins there."""
        marks = (it for it in self.symbols if it[3] == number and self.is_mark(it[0]))
        return {value: name.startswith("$x") for name, _, _, _, value, _ in marks}

    def head(self, symbol):
        name, (_, binding, kind, _, _, size) = self.label(symbol), self.symbols[symbol]
        if binding == GLOBAL:
            yield f"\t.globl\t{name}"
        if kind == FUNCTION:
            yield f"\t.type\t{name},@function"
            yield f"\t.size\t{name},{size}"
        yield f"{name}:"


def lines_of_bytes(code, directive, letter):
    """Lines of numbers, and then of single bytes."""
    size = struct.calcsize(letter)
    for start in range(0, len(code), WIDTH):
        part = code[start : start + WIDTH]
        whole = len(part) // size
        if whole:
            yield f"\t{directive}\t" + ",".join(f"{it:#x}" for it in struct.unpack_from(f"<{whole}{letter}", part))
        if len(part) % size:
            yield "\t.byte\t" + ",".join(f"{it:#x}" for it in part[whole * size :])


def assembly_of(archive, before):
    """The assembly of the object file of an archive, after some that defines what the object file needs."""
    defined = re.findall(r"(?m)^(\w+):", before)
    return before + "\n".join(Object(object_of(archive)).lines(defined)) + "\n"
