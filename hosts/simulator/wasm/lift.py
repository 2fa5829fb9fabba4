#!/usr/bin/env python3
"""Writes a committed library, assembly for x86-64, as C: an instruction becomes a statement over a record of registers.

    lift.py ASSEMBLY.s FOLDER       # makes FOLDER with heads.h, data.c and part0.c to part7.c, which include cpu.h

The kit builds no library that takes memory for WebAssembly, so the module of docs/playground is made from what is
proved and built for x86-64. **Nothing proves this translation.** Trusted are this file, cpu.h, module.c, the assembler,
objdump and clang; tests/playground compares what comes out with krl-simulator.

It assumes of the assembly what holds of all that the kit has written, and refuses the rest as far as it can see it:
- a function has a section of its own, is entered at its beginning, and leaves the stack as it found it;
- no flag is read that a function or a call before left, nor the parity or the auxiliary carry;
- a jump by a register goes by a table of distances that a section of data has: to any other place it traps;
- an address is below 2^32, and data that are read were written or are in a section.
An instruction, an operand or a relocation that is not known ends it with status 1.
"""
import pathlib
import re
import struct
import subprocess
import sys
import tempfile

PARTS = 8
# How far beyond the data the numbers begin that stand for places in code.
CODE_APART = 0x10000000
DISTANCE_32, ADDRESS_64, CALL_32 = 2, 1, 4
HELD, EXECUTED, NO_BITS, SYMBOLS, RELOCATIONS, FUNCTION = 2, 4, 8, 2, 4, 2

NAMES = "rax rcx rdx rbx rsp rbp rsi rdi r8 r9 r10 r11 r12 r13 r14 r15".split()
# A register by its name: its number, its bytes and how many bits lie below it.
REGISTERS = {}
for number, name in enumerate(NAMES):
    is_old = number < 8
    low = name[1] + "l" if name in ("rax", "rcx", "rdx", "rbx") else name[1:] + "l" if is_old else name + "b"
    half, quarter = ("e" + name[1:], name[1:]) if is_old else (name + "d", name + "w")
    REGISTERS |= {name: (number, 8, 0), half: (number, 4, 0), quarter: (number, 2, 0), low: (number, 1, 0)}
REGISTERS |= {name: (number, 1, 8) for number, name in enumerate("ah ch dh bh".split())}
SIZES = {"BYTE": 1, "WORD": 2, "DWORD": 4, "QWORD": 8, "XMMWORD": 16}
CONDITIONS = {
    "o": "of", "no": "!of", "b": "cf", "ae": "!cf", "e": "zf", "ne": "!zf", "be": "(cf|zf)", "a": "!(cf|zf)",
    "s": "sf", "ns": "!sf", "l": "(sf!=of)", "ge": "(sf==of)", "le": "(zf|(sf!=of))", "g": "!(zf|(sf!=of))",
}
# What the library takes of the host, in place of its own functions over malloc, realloc and free.
MEMORY_CALLS = ("rattle_alloc", "rattle_realloc", "rattle_dealloc")
# v of a and b, and the flags but zero and sign. T is their type, and TOP the number of its highest bit.
SUMS = {
    "add": "v=(T)(a+b); cf=v<a; of=(T)((a^v)&(b^v))>>TOP;",
    "adc": "v=(T)(a+b+cf); cf=v<a||(cf&&v==a); of=(T)((a^v)&(b^v))>>TOP;",
    "sub": "v=(T)(a-b); cf=a<b; of=(T)((a^b)&(a^v))>>TOP;",
    "sbb": "v=(T)(a-b-cf); cf=a<b||(cf&&a==b); of=(T)((a^b)&(a^v))>>TOP;",
    "and": "v=(T)(a&b); cf=0; of=0;",
    "or": "v=(T)(a|b); cf=0; of=0;",
    "xor": "v=(T)(a^b); cf=0; of=0;",
}
SUMS |= {"cmp": SUMS["sub"], "test": SUMS["and"]}
# The same of a.
TURNS = {
    "inc": "v=(T)(a+1); of=v==(T)1<<TOP;",
    "dec": "v=(T)(a-1); of=a==(T)1<<TOP;",
    "neg": "v=(T)(0-a); cf=a!=0; of=a==(T)1<<TOP;",
}
# v of a, by c bits, which are not none; I is the type with a sign.
SHIFTS = {
    "shl": "v=c<=TOP?(T)(a<<c):0; cf=c<=TOP+1?(a>>(TOP+1-c))&1:0; of=(v>>TOP)^cf;",
    "shr": "v=c<=TOP?(T)(a>>c):0; cf=c<=TOP+1?(a>>(c-1))&1:0; of=a>>TOP;",
    "sar": "v=(T)((I)a>>(c<=TOP?c:TOP)); cf=((I)a>>(c<=TOP?c-1:TOP))&1; of=0;",
}
TURNED = {
    "rol": "c&=TOP; v=c?(T)(a<<c|a>>(TOP+1-c)):a; cf=v&1;",
    "ror": "c&=TOP; v=c?(T)(a>>c|a<<(TOP+1-c)):a; cf=v>>TOP;",
}
DOUBLE_SHIFTS = {
    "shld": "v=(T)(a<<c|b>>(TOP+1-c)); cf=(a>>(TOP+1-c))&1;",
    "shrd": "v=(T)(a>>c|b<<(TOP+1-c)); cf=(a>>(c-1))&1;",
}
# Functions of cpu.h over two wide registers, or one and memory.
WIDE = """pxor xorps xorpd pand andps andnpd andnps pandn por orps pcmpeqb pcmpeqd pcmpgtb pcmpgtq packssdw packsswb
    paddq paddb paddd psubq punpcklqdq pshufb unpcklpd unpckhpd mulpd divpd addpd blendvpd""".split()
# The same over the low eight bytes of what they read; with a number too; with a number in place of what they read.
LOW = "addsd mulsd divsd subsd cmpnlesd cmpltsd".split()
CHOSEN = "pshufd pshuflw pshufhw pblendw".split()
MOVED = "psrld psrlw psrlq psllq pslld psllw pslldq psrldq".split()
WIDE_MOVES = "movups movaps movdqu movdqa movapd movupd".split()
# A part of a wide register: its field of X and its bytes.
LANES = {"b": 1, "w": 2, "d": 4, "q": 8}


def stop(why):
    sys.exit(f"lift: {why}")


class Object:
    """What an assembler made: sections, symbols, and relocations by their section and place."""

    def __init__(self, path):
        self.bytes = path.read_bytes()
        (at,), (count, names) = struct.unpack_from("<Q", self.bytes, 40), struct.unpack_from("<HH", self.bytes, 60)
        rows = [struct.unpack_from("<IIQQQQIIQQ", self.bytes, at + 64 * number) for number in range(count)]
        self.kinds, self.flags, self.sizes = ([row[field] for row in rows] for field in (1, 2, 5))
        self.places, self.aligns = [row[4] for row in rows], [row[8] for row in rows]
        self.names = [self.text(names, row[0]) for row in rows]
        table = self.kinds.index(SYMBOLS)
        strings = rows[table][6]
        self.symbols = [
            (self.text(strings, name), info >> 4, info & 15, section, value)
            for name, info, _, section, value, _ in struct.iter_unpack("<IBBHQQ", self.content(table))
        ]
        self.relocations = {number: {} for number in range(count)}
        for number, row in enumerate(rows):
            if row[1] == RELOCATIONS:
                for place, info, addend in struct.iter_unpack("<QQq", self.content(number)):
                    self.relocations[row[7]][place] = (info >> 32, info & 0xFFFFFFFF, addend)

    def text(self, section, at):
        begin = self.places[section] + at
        return self.bytes[begin : self.bytes.index(b"\0", begin)].decode()

    def content(self, section):
        if self.kinds[section] == NO_BITS:
            return bytes(self.sizes[section])
        return self.bytes[self.places[section] : self.places[section] + self.sizes[section]]


class Library:
    """Where everything is: data in one array, places in code as numbers beyond it, and functions by their section."""

    def __init__(self, made):
        self.object, self.data_at, self.code_at, self.data, code = made, {}, {}, bytearray(), 0
        for section, flags in enumerate(made.flags):
            if not flags & HELD:
                continue
            if flags & EXECUTED:
                self.code_at[section] = code
                code += made.sizes[section] + 64
            else:
                self.data += bytes(-len(self.data) % max(made.aligns[section], 16))
                self.data_at[section] = len(self.data)
                self.data += made.content(section)
        self.data += bytes(16)
        self.shared = made.names.index(".text")
        self.memory_calls, self.function_of, self.exported = {}, {}, []
        for name, binding, kind, section, value in made.symbols:
            if section == self.shared and name in MEMORY_CALLS:
                self.memory_calls[value] = name
            elif section in self.code_at and section != self.shared and kind == FUNCTION and value == 0:
                self.function_of[section] = name
                if binding == 1:
                    self.exported.append(section)
        # The entries of tables: what they name of code, by its section, and what the data get at the beginning.
        self.entries, self.fixes = {}, []
        self.read_tables()
        self.tables = set()

    def place_of(self, symbol, addend):
        """What a relocation means: `data` and where; `code`, its section and where; or `outside` and a name."""
        name, _, _, section, value = self.object.symbols[symbol]
        if section == 0:
            return ("outside", name)
        if section in self.data_at:
            return ("data", self.data_at[section] + value + addend)
        return ("code", section, value + addend)

    def read_tables(self):
        for section, begin in self.data_at.items():
            for place, (symbol, kind, addend) in self.object.relocations[section].items():
                what, at = self.place_of(symbol, addend), begin + place
                if what[0] == "data" and kind == ADDRESS_64:
                    self.fixes.append(f"st8(DB+{at},DB+{what[1]});")
                elif what[0] == "data" and kind == DISTANCE_32:
                    self.fixes.append(f"st4(DB+{at},(u32)({what[1]}-{at}));")
                elif what[0] == "code" and kind == DISTANCE_32:
                    number = self.code_at[what[1]] + what[2]
                    self.fixes.append(f"st4(DB+{at},(u32)(TB+{number}-(DB+{at})));")
                    self.entries.setdefault(what[1], []).append((what[2], at, section))
                else:
                    stop(f"a table in {self.object.names[section]} names {what} by relocation {kind}")

    def jump_targets(self, section):
        """Where a jump by a table in this function may go. An entry has the distance from itself, and the code adds
        where the table begins: any place in the same section of data that code takes may be that."""
        for place, at, data in self.entries.get(section, ()):
            begin = self.data_at[data]
            for table in self.tables:
                if begin <= table <= at:
                    yield place - (at - table)

    def find_tables(self, functions):
        """Notes each place in the data whose address code takes."""
        for section, lines in functions.items():
            ends = {at: end for at, end, _, _ in lines}
            for place, (symbol, _, addend) in self.object.relocations[section].items():
                at = max(it for it in ends if it <= place)
                what = self.place_of(symbol, addend + ends[at] - place)
                if what[0] == "data":
                    self.tables.add(what[1])


def size_of(operand):
    return REGISTERS[operand][1] if operand in REGISTERS else SIZES.get(operand.split(" ", 1)[0])


def is_wide(operand):
    return operand.startswith("xmm")


class Function:
    """One function: `lines` has each instruction's place, the next one's, its name and its operands."""

    def __init__(self, library, section, lines):
        self.library, self.section, self.lines = library, section, lines
        self.name = library.function_of[section]
        self.relocations = library.object.relocations[section]
        self.places, self.labels = {it[0] for it in lines}, set()
        self.at = self.end = 0

    def stop(self, why):
        stop(f"{why}, at {self.at:#x} of {self.name}")

    # Operands

    def relocated(self):
        """What the instruction's relocation means, or None."""
        found = [place for place in self.relocations if self.at <= place < self.end]
        if len(found) > 1:
            self.stop("two relocations in one instruction")
        for place in found:
            symbol, kind, addend = self.relocations[place]
            if kind not in (DISTANCE_32, CALL_32):
                self.stop(f"relocation {kind}")
            return self.library.place_of(symbol, addend + self.end - place)
        return None

    def address(self, operand):
        before, _, inner = operand.rstrip("]").partition("[")
        if before.endswith(":"):
            self.stop(f"a segment in {operand}")
        what = self.relocated()
        if inner.startswith("rip"):
            if what is None or what[0] == "outside":
                self.stop(f"the address of {what}")
            return f"(DB+{what[1]})" if what[0] == "data" else f"(TB+{self.library.code_at[what[1]] + what[2]})"
        if what is not None:
            self.stop(f"a relocation in {operand}")
        total = "0"
        for sign, part in re.findall(r"([+-]?)([^+-]+)", inner):
            name, _, scale = part.partition("*")
            if name != "riz":
                term = f"r[{REGISTERS[name][0]}]" if name in REGISTERS else f"{int(name, 16):#x}ULL"
                total += f"{sign or '+'}{term}" + (f"*{scale}" if scale else "")
        return f"(u64)({total})"

    def read(self, operand, size):
        if operand in REGISTERS:
            number, _, shift = REGISTERS[operand]
            return f"(u{size * 8})(r[{number}]>>{shift})" if shift else f"(u{size * 8})(r[{number}])"
        if "[" in operand:
            return f"ld{size}({self.address(operand)})"
        return f"((u{size * 8}){int(operand, 16) & 2 ** (size * 8) - 1:#x}ULL)"

    def write(self, operand, size, value):
        if operand not in REGISTERS:
            return f"st{size}({self.address(operand)},{value});"
        number, own, shift = REGISTERS[operand]
        if own >= 4:
            return f"r[{number}]=(u{own * 8})({value});"
        kept = 2**64 - 1 - ((2 ** (own * 8) - 1) << shift)
        return f"r[{number}]=(r[{number}]&{kept:#x}ULL)|((u64)(u{own * 8})({value})<<{shift});"

    def wide(self, operand, size=16):
        """A value of 16 bytes, or of the low ones of it."""
        if is_wide(operand):
            return f"x[{operand[3:]}]"
        return f"ldx({self.address(operand)})" if size == 16 else f"lox(ld{size}({self.address(operand)}))"

    # Jumps and calls

    def callee(self, what):
        if what[0] == "outside":
            return f"x_{what[1]}(s);"
        if what[1] == self.library.shared:
            return f"x_{self.library.memory_calls[what[2]]}(s);"
        if what[2] != 0 or what[1] not in self.library.function_of:
            self.stop("a call into a function")
        return f"f{what[1]}(s);"

    def call(self, target):
        what = self.relocated()
        if what is None and (target in REGISTERS or int(target.split()[0], 16) != 0):
            self.stop(f"a call of {target}")
        # The callee takes the address that it returns to from the stack.
        return "r[4]-=8;" + self.callee(what or ("code", self.section, 0))

    def jump(self, target):
        what = self.relocated()
        if what is not None:
            return self.callee(what) + " return;"
        place = int(target.split()[0], 16)
        if place not in self.places:
            self.stop("a jump into an instruction")
        self.labels.add(place)
        return f"goto L{place:x};"

    def jump_by_table(self, value):
        found = sorted(set(self.library.jump_targets(self.section)) & self.places)
        if not found:
            self.stop("a jump without a table")
        self.labels |= set(found)
        begin = self.library.code_at[self.section]
        cases = "".join(f"case {begin + it}: goto L{it:x};" for it in found)
        return f"switch({value}-TB){{{cases}default: trap();}}"

    # Instructions

    def sum(self, size, rule, operands, puts=True):
        """v of a and b by a rule, with its flags."""
        given = ",".join(f"{it}={self.read(operand, size)}" for it, operand in zip("ab", operands))
        flags = f" zf=v==0; sf=(i{size * 8})v<0;"
        put = self.write(operands[0], size, "v") if puts else ""
        return f"{{u{size * 8} {given},v; {self.typed(rule, size)}{flags}{put}}}"

    def typed(self, rule, size):
        bits = size * 8
        return re.sub(r"\b(T|I|TOP)\b", lambda it: {"T": f"u{bits}", "I": f"i{bits}"}.get(it[1], str(bits - 1)), rule)

    def shift(self, name, operands):
        """A shift by no bits leaves value and flags, but clears the upper half of a register as each write does."""
        size = size_of(operands[0])
        rule = (SHIFTS | TURNED | DOUBLE_SHIFTS)[name]
        given = f"a={self.read(operands[0], size)}"
        if name in DOUBLE_SHIFTS:
            given += f",b={self.read(operands[1], size)}"
        count = self.read(operands[-1], 1) if len(operands) > 1 else "1"
        flags = "" if name in TURNED else f" zf=v==0; sf=(i{size * 8})v<0;"
        otherwise = f" else {{{self.write(operands[0], 4, 'a')}}}" if size == 4 else ""
        put = self.write(operands[0], size, "v")
        return (f"{{u{size * 8} {given},v; unsigned c={count}&{63 if size == 8 else 31};"
                f" if(c){{{self.typed(rule, size)}{flags}{put}}}{otherwise}}}")

    def product(self, operands):
        """Two factors, the first of which is the target too if there is no third operand."""
        size = size_of(operands[0])
        a, b = (self.read(it, size) for it in operands[-2:])
        put = self.write(operands[0], size, "v")
        if size == 8:
            return f"{{u64 a={a},b={b},v=a*b; of=cf=mulhs(a,b)!=(u64)((i64)v>>63); {put}}}"
        bits = size * 8
        return f"{{i64 w=(i64)(i{bits}){a}*(i{bits}){b}; u{bits} v=(u{bits})w; of=cf=w!=(i64)(i{bits})v; {put}}}"

    def double_product(self, operand):
        size = size_of(operand)
        if size == 8:
            return f"{{u64 a=r[0],b={self.read(operand, 8)}; r[0]=a*b; r[2]=mulhu(a,b); of=cf=r[2]!=0;}}"
        if size == 4:
            return f"{{u64 w=(u64)(u32)r[0]*{self.read(operand, 4)}; r[0]=(u32)w; r[2]=w>>32; of=cf=r[2]!=0;}}"
        if size == 1:
            both = f"(u32)(u8)r[0]*{self.read(operand, 1)}"
            return f"{{u32 w={both}; r[0]=(r[0]&~0xffffULL)|(u16)w; of=cf=w>255;}}"
        return self.stop("mul of two bytes")

    def quotient(self, operand):
        size = size_of(operand)
        if size not in (1, 2, 4, 8):
            self.stop("div")
        return f"div{size}(s,{self.read(operand, size)});"

    def move(self, name, operands):
        size = size_of(operands[0]) or size_of(operands[1])
        if name in ("mov", "movabs"):
            return self.write(operands[0], size, self.read(operands[1], size))
        small = size_of(operands[1])
        sign = "" if name == "movzx" else f"(i{size * 8})(i{small * 8})"
        return self.write(operands[0], size, f"(u{size * 8}){sign}{self.read(operands[1], small)}")

    def move_if(self, name, operands):
        size = size_of(operands[0])
        return (f"{{u{size * 8} v={self.read(operands[1], size)}; if(!({CONDITIONS[name[4:]]})) "
                f"v={self.read(operands[0], size)}; {self.write(operands[0], size, 'v')}}}")

    def exchange(self, operands):
        size = size_of(operands[0])
        a, b = (self.read(it, size) for it in operands)
        puts = self.write(operands[0], size, "b") + self.write(operands[1], size, "a")
        return f"{{u{size * 8} a={a},b={b}; {puts}}}"

    def bits(self, name, operands):
        size = size_of(operands[0])
        if name == "bswap":
            return self.write(operands[0], size, f"bswap{size}({self.read(operands[0], size)})")
        if name == "not":
            return self.write(operands[0], size, f"(u{size * 8})~{self.read(operands[0], size)}")
        if name == "bt":
            if operands[0] not in REGISTERS:
                self.stop("bt of memory")
            return f"cf=({self.read(operands[0], size)}>>({self.read(operands[1], size)}&{size * 8 - 1}))&1;"
        a = self.read(operands[1], size)
        if name == "tzcnt":
            put = self.write(operands[0], size, "v")
            return f"{{u{size * 8} a={a},v=a?ctz{size}(a):{size * 8}; cf=a==0; zf=v==0; {put}}}"
        found = f"{size * 8 - 1}-clz{size}(a)" if name == "bsr" else f"ctz{size}(a)"
        return f"{{u{size * 8} a={a}; zf=a==0; if(a){{{self.write(operands[0], size, found)}}}}}"

    def one(self, name, operands):
        """The statement of an instruction."""
        if name in ("nop", "endbr64"):
            return ""
        if name == "ud2":
            return "trap();"
        if name == "ret" and not operands:
            return "r[4]+=8; return;"
        if name == "push":
            return f"{{u64 v={self.read(operands[0], 8)}; r[4]-=8; st8(r[4],v);}}"
        if name == "pop":
            return f"{{u64 v=ld8(r[4]); r[4]+=8; {self.write(operands[0], 8, 'v')}}}"
        if name == "call":
            return self.call(operands[0])
        if name == "jmp":
            is_by_table = operands[0] in REGISTERS or "[" in operands[0]
            return self.jump_by_table(self.read(operands[0], 8)) if is_by_table else self.jump(operands[0])
        if name[0] == "j" and name[1:] in CONDITIONS:
            return f"if({CONDITIONS[name[1:]]}){{{self.jump(operands[0])}}}"
        if name.startswith("set") and name[3:] in CONDITIONS:
            return self.write(operands[0], 1, CONDITIONS[name[3:]])
        if any(map(is_wide, operands)):
            return self.vector(name, operands)
        return self.scalar(name, operands)

    def scalar(self, name, operands):
        size = next((it for it in map(size_of, operands) if it), None)
        if name in ("mov", "movabs", "movzx", "movsx", "movsxd"):
            return self.move(name, operands)
        if name.startswith("cmov") and name[4:] in CONDITIONS:
            return self.move_if(name, operands)
        if name == "lea":
            return self.write(operands[0], size, f"(u{size * 8}){self.address(operands[1])}")
        if name == "xchg":
            return self.exchange(operands)
        if name in SUMS:
            return self.sum(size, SUMS[name], operands, name not in ("cmp", "test"))
        if name in TURNS:
            return self.sum(size, TURNS[name], operands)
        if name in SHIFTS or name in TURNED or name in DOUBLE_SHIFTS:
            return self.shift(name, operands)
        if name == "imul" and len(operands) > 1:
            return self.product(operands)
        if name == "mul":
            return self.double_product(operands[0])
        if name == "div":
            return self.quotient(operands[0])
        if name in ("bswap", "not", "bt", "tzcnt", "bsr", "bsf"):
            return self.bits(name, operands)
        return self.stop(f"the instruction {name} {operands}")

    def move_low(self, name, operands):
        """A move of the low four or eight bytes. One between two wide registers keeps the others, but for movq."""
        lane, size = ("q", 8) if name in ("movq", "movsd") else ("d", 4)
        to, source = operands
        if not is_wide(to):
            return self.write(to, size, f"{self.wide(source)}.{lane}[0]")
        if not is_wide(source):
            return f"{self.wide(to)}=lox({self.read(source, size)});"
        if name == "movq":
            return f"{self.wide(to)}=lox({self.wide(source)}.q[0]);"
        return f"{self.wide(to)}.{lane}[0]={self.wide(source)}.{lane}[0];"

    def lane(self, name, operands):
        """Takes a part out of a wide register, or puts one into it."""
        place = f"{name[-1]}[{int(operands[2], 16)}]"
        size = LANES[name[-1]]
        if name.startswith("pinsr"):
            return f"{self.wide(operands[0])}.{place}=(u{size * 8}){self.read(operands[1], size)};"
        to = REGISTERS[operands[0]][1] if operands[0] in REGISTERS else size
        return self.write(operands[0], to, f"{self.wide(operands[1])}.{place}")

    def vector(self, name, operands):
        if name in WIDE_MOVES:
            if is_wide(operands[0]):
                return f"{self.wide(operands[0])}={self.wide(operands[1])};"
            return f"stx({self.address(operands[0])},{self.wide(operands[1])});"
        if name in ("movq", "movsd", "movd", "movss"):
            return self.move_low(name, operands)
        if re.fullmatch("p(ext|ins)r[bwdq]", name):
            return self.lane(name, operands)
        if name in ("pmovmskb", "movmskps", "movmskpd"):
            return self.write(operands[0], 4, f"{name}({self.wide(operands[1])})")
        if name == "ptest":
            return (f"{{X a={self.wide(operands[0])},b={self.wide(operands[1])}; zf=!((a.q[0]&b.q[0])|(a.q[1]&b.q[1]));"
                    " cf=!((~a.q[0]&b.q[0])|(~a.q[1]&b.q[1])); sf=of=0;}")
        if name == "ucomisd":
            return (f"{{double a={self.wide(operands[0])}.f[0],b={self.wide(operands[1], 8)}.f[0];"
                    " zf=!(a<b||a>b); cf=!(a>=b); sf=of=0;}")
        if name == "cvtsi2sd":
            size = size_of(operands[1])
            return f"{self.wide(operands[0])}.f[0]=(double)(i{size * 8}){self.read(operands[1], size)};"
        into = f"{name}(&{self.wide(operands[0])},"
        if name in LOW:
            return f"{into}{self.wide(operands[1], 8)});"
        if name in WIDE:
            return f"{into}{self.wide(operands[1])}{',x[0]' if name == 'blendvpd' else ''});"
        if name in MOVED and not is_wide(operands[1]):
            return f"{into}{int(operands[1], 16)});"
        if name in CHOSEN:
            return f"{into}{self.wide(operands[1])},{int(operands[2], 16)});"
        return self.stop(f"the instruction {name} {operands}")

    def text(self):
        statements = []
        for self.at, self.end, name, operands in self.lines:
            statements.append((self.at, self.one(name, operands)))
        lines = [f"void f{self.section}(S *s) {{ /* {self.name} */", "u64 *r=s->r; X *x=s->x; u8 cf=0,zf=0,sf=0,of=0;",
                 "(void)x; (void)cf; (void)zf; (void)sf; (void)of;"]
        for at, statement in statements:
            label = f"L{at:x}:;" if at in self.labels else ""
            if label or statement:
                lines.append(label + statement)
        return "\n".join(lines + ["}"])


def instructions(dump, made, functions):
    """The instructions of each function, by its section: place, the next one's place, name and operands."""
    found, numbers, section = {}, {name: number for number, name in enumerate(made.names)}, None
    for line in dump.splitlines():
        if line.startswith("Disassembly of section "):
            section = numbers[line[len("Disassembly of section ") : -1]]
            continue
        match = re.match(r"\s*([0-9a-f]+):\t(.*)$", line)
        if not match or section not in functions:
            continue
        text = re.sub(r"\s*(#.*|<.*>)$", "", match[2]).strip()
        name, _, rest = re.sub(r"^((data16|cs|notrack) +)+", "", text).partition(" ")
        operands = [re.sub(r"^(\w+) PTR ", r"\1 ", it.strip()) for it in re.split(r",(?![^\[]*\])", rest) if it.strip()]
        found.setdefault(section, []).append((int(match[1], 16), name, operands))
    ends = {section: [it[0] for it in lines[1:]] + [made.sizes[section]] for section, lines in found.items()}
    return {section: [(at, end, name, operands) for (at, name, operands), end in zip(lines, ends[section])]
            for section, lines in found.items()}


def write_parts(folder, texts):
    """The functions, in files of about the same length."""
    most, chunk, made = sum(map(len, texts)) // PARTS + 1, [], 0
    for number, text in enumerate(texts):
        chunk.append(text)
        if sum(map(len, chunk)) > most or number == len(texts) - 1:
            body = "\n".join(chunk)
            (folder / f"part{made}.c").write_text(f'#include "cpu.h"\n#include "heads.h"\n{body}\n')
            chunk, made = [], made + 1


def write_data(folder, library):
    rows = ",\n".join(",".join(map(str, library.data[it : it + 64])) for it in range(0, len(library.data), 64))
    fixes = "\n".join(library.fixes)
    exports = "\n".join(f"void (*const e_{library.function_of[it]})(S *)=f{it};" for it in library.exported)
    (folder / "data.c").write_text(f"""#include "cpu.h"
#include "heads.h"
_Alignas(64) u8 D[]={{
{rows}}};
u64 DB, TB;
void lift_begin(void){{ DB=(u64)(uintptr_t)D; TB=DB+{CODE_APART:#x}ULL;
{fixes}
}}
{exports}
""")


def main():
    source, folder = sys.argv[1], pathlib.Path(sys.argv[2])
    folder.mkdir(parents=True, exist_ok=True)
    with tempfile.TemporaryDirectory() as work:
        path = pathlib.Path(work) / "library.o"
        subprocess.run(["as", source, "-o", path], check=True)
        words = ["objdump", "-dw", "--no-show-raw-insn", "-M", "intel", path]
        dump = subprocess.run(words, check=True, stdout=subprocess.PIPE, text=True).stdout
        library = Library(Object(path))
    functions = instructions(dump, library.object, library.function_of)
    library.find_tables(functions)
    texts = [Function(library, section, lines).text() for section, lines in functions.items()]
    outside = {name for name, _, _, section, _ in library.object.symbols if section == 0 and name}
    heads = [f"void f{it}(S *s);" for it in library.function_of] + [f"void x_{it}(S *s);" for it in sorted(outside)]
    heads += [f"void x_{it}(S *s);" for it in MEMORY_CALLS]
    (folder / "heads.h").write_text("extern u8 D[]; extern u64 DB, TB;\n" + "\n".join(heads) + "\n")
    write_parts(folder, texts)
    write_data(folder, library)


if __name__ == "__main__":
    if len(sys.argv) != 3:
        sys.exit("usage: lift.py ASSEMBLY.s FOLDER")
    main()
