#!/usr/bin/env python3
"""Bounds the bytes of stack of each call of the library, from the compiled archive, and checks the header's figures.

    python3 tools/stack.py [--show] ARCHIVE HEADER
    python3 tools/stack.py --self-test

Each function is followed from its entry over all its jumps, with the depth: the bytes from its return address down to
%rsp. Its bound is the greatest of its depths, of what it may touch below %rsp, and at each call of the depth, the
return address and the callee's bound together. A call's figure is its bound and its own return address. What cannot be
followed is an error: a function pointer, a frame of unknown size, a recursion without a bound, a function from
elsewhere. --show prints every function, and which calls a figure adds up. The status is 1 where something is refused
or differs."""
import re
import subprocess
import sys
import tempfile
from dataclasses import dataclass, field
from pathlib import Path

BUDGET = 49_152
WORD = 8
# The System V ABI lets a function use so many bytes below %rsp, and no more.
RED_ZONE = 128
# What functions of the C library may use below their return address. The header asks this of the caller.
C_LIBRARY = {"memcpy": 128, "memset": 128}
# How many calls of itself can stand below a call of a function. The line walk starts with 256 steps left; each call has
# one less, and the one with 0 makes none.
RECURSIONS = {"authority::on_line": 256}

REGISTER = r"%r(?:[abcd]x|[sd]i|[bs]p|\d+)"
PART = re.compile(r"%[re]?([abcd])[xlh]|%[re]?([sd]i|[bs]p)l?|%(r\d+)[dwb]?")
PREFIXES = set("data16 addr32 lock rep repz repnz bnd notrack cs ds es fs gs ss".split())
# What uses the stack or leaves the function in a way that is not followed, and odd forms of what is.
REFUSED = re.compile(r"push|pop(?!cnt)|call|ret|enter|leave|u?iret|int|sys|l(?:call|ret|jmp)|ud|hlt|xbegin|rex|[({.]")
# These read the first operand and write at most the last.
READERS = set("mov movq add sub and or xor cmp test".split())
PLAIN = READERS | set("movb movw movl movabs movslq movzbl movzwl movsbl movswl lea shl shr cmpb cmpw cmpl".split())


class Refused(Exception):
    pass


@dataclass
class Instruction:
    at: int
    name: str
    operands: list
    prefixed: bool
    symbol: str = ""  # whose value the linker puts in, with `added`
    added: int = 0

    def __str__(self):
        return f"{self.name} {','.join(self.operands)}"


@dataclass
class Function:
    name: str
    section: str
    start: int
    code: list = field(default_factory=list)
    own: int = 0
    calls: list = field(default_factory=list)  # bytes from the return address to the callee's, and the callee


def run(*words):
    done = subprocess.run(words, capture_output=True, text=True)
    if done.returncode:
        raise Refused(f"{words[0]}: {done.stderr.strip()}")
    return done.stdout


def signed(digits):
    """A number as objdump writes it: a negative one has a sign, or is taken to 64 bits."""
    value = int(digits or "0", 16)
    return value - (1 << 64) if value >= 1 << 63 else value


def whole(operand):
    """The register of which an operand is a part."""
    found = PART.fullmatch(operand)
    return found and next(filter(None, found.groups()))


def parse_symbol(text):
    symbol, added = re.fullmatch(r"(.+?)([+-]0x[0-9a-f]+)?", text.strip()).groups()
    return symbol, signed(added)


def parse_instruction(at, text):
    words = re.sub(r"\s+#.*", "", text).split()
    first = next((i for i, word in enumerate(words) if word not in PREFIXES), 0)
    operands = re.split(r",(?![^(]*\))", " ".join(words[first + 1:]))
    return Instruction(at, words[first], [x for x in operands if x], first > 0)


class Archive:
    """The functions by their place: section, and address in it. A callee is a place, or the name of one elsewhere."""

    def __init__(self, path):
        symbols = run("objdump", "-t", path)
        if symbols.count("file format elf64-x86-64") != 1:
            raise Refused("not an archive of one member for x86-64")
        self.symbols, self.visible, self.functions, self.entries = {}, set(), {}, {}
        self.bounds, self.deepest = {}, {}
        self.read_symbols(symbols)
        self.read_code(run("objdump", "-drz", "--no-show-raw-insn", path))
        self.sections = {section for section, _ in self.functions}
        self.read_data(run("objdump", "-r", path))
        loads = (x for f in self.functions.values() for x in f.code if x.name == "lea" and x.symbol)
        self.table_starts = {self.place(x.symbol, x.added + 4) for x in loads}
        for function in self.functions.values():
            Walk(self, function).run()
        for place in self.functions:
            self.bound(place)

    def read_symbols(self, text):
        line = r"(?m)^([0-9a-f]{16}) (.{7}) (\S+)\t[0-9a-f]{16} (?:\.(?:hidden|protected|internal) )?(.+)$"
        for value, flags, section, name in re.findall(line, text):
            place = (section, int(value, 16))
            # A name of two places leads nowhere.
            self.symbols[name] = place if self.symbols.get(name, place) == place else None
            if flags[0] != "l":
                self.visible.add(name)

    def read_code(self, text):
        section = function = None
        for line in text.splitlines():
            if found := re.fullmatch(r"Disassembly of section (.+):", line):
                section = found[1]
            elif found := re.fullmatch(r"([0-9a-f]+) <(.+)>:", line):
                function = Function(found[2], section, int(found[1], 16))
                if self.functions.setdefault((section, function.start), function) is not function:
                    raise Refused(f"{section}: two sections of one name")
            elif found := re.fullmatch(r" *([0-9a-f]+):\t(.+)", line):
                function.code.append(parse_instruction(int(found[1], 16), found[2]))
            elif found := re.fullmatch(r"\t+[0-9a-f]+: R_\w+\t(.+)", line):
                x = function.code[-1]
                if x.symbol:
                    raise Refused(f"{function.name}: two symbols: {x}")
                x.symbol, x.added = parse_symbol(found[1])

    def read_data(self, text):
        """Keeps the entries of jump tables. Other data may not lead to code: that would be a function pointer."""
        for part in text.split("RELOCATION RECORDS FOR [")[1:]:
            section = part.split("]:")[0]
            if section in self.sections or re.match(r"\.(?:debug|eh_frame|note|llvm)", section):
                continue
            for at, kind, value in re.findall(r"(?m)^([0-9a-f]{16}) (R_\w+) +(.+)$", part):
                target = self.place(*parse_symbol(value))
                if kind == "R_X86_64_PC32" and section.startswith(".rodata"):
                    self.entries[section, int(at, 16)] = target
                elif self.is_code(target):
                    raise Refused(f"{section}: a function pointer: {value}")

    def place(self, symbol, added):
        if self.symbols.get(symbol) is None:
            raise Refused(f"{symbol}: no symbol, or several")
        section, value = self.symbols[symbol]
        return section, value + added

    def is_code(self, place):
        return place[0] in self.sections or place[0] == "*UND*"

    def bound(self, callee, standing=()):
        """The bytes below the callee's return address."""
        if isinstance(callee, str):
            if callee not in C_LIBRARY:
                raise Refused(f"{callee}: a function from elsewhere")
            return C_LIBRARY[callee]
        if callee not in self.functions:
            raise Refused(f"{callee[0]}+{callee[1]:x}: no function starts there")
        if callee in standing:
            raise Refused(f"{self.functions[callee].name}: a recursion over several functions")
        if callee not in self.bounds:
            self.bounds[callee] = self.find_bound(callee, self.functions[callee], standing + (callee,))
        return self.bounds[callee]

    def find_bound(self, place, function, standing):
        step = max((above for above, callee in function.calls if callee == place), default=0)
        if step and function.name not in RECURSIONS:
            raise Refused(f"{function.name}: a recursion without a bound")
        ways = [(function.own, None)]
        ways += [(above + self.bound(callee, standing), callee) for above, callee in function.calls if callee != place]
        most, self.deepest[place] = max(ways, key=lambda way: way[0])
        return step * RECURSIONS.get(function.name, 0) + most

    def figures(self):
        """The bytes of each function that others can call."""
        public = sorted(name for name in self.visible if self.symbols[name] and self.symbols[name][0] in self.sections)
        return {name: WORD + self.bound(self.symbols[name]) for name in public}

    def path(self, callee):
        """The functions whose frames a bound adds up."""
        names = []
        while callee is not None:
            names.append(callee if isinstance(callee, str) else self.functions[callee].name)
            callee = self.deepest.get(callee)
        return " > ".join(names)


class Walk:
    """Follows one function, and notes its calls and the most bytes that it uses itself."""

    def __init__(self, archive, function):
        self.archive, self.function, self.code = archive, function, function.code
        self.index = {x.at: i for i, x in enumerate(self.code)}
        self.depths, self.todo = {}, []
        self.targets, self.spans = set(), []  # of jumps; of the sequences that end with a jump by a table
        self.taken = False  # whether a register but %rsp may hold an address in the stack

    def refuse(self, x, why):
        raise Refused(f"{self.function.name}+{x.at:x}: {why}: {x}")

    def run(self):
        for x in self.code:
            # Code may be named by calls and jumps alone: else its address could be kept.
            if x.symbol and not re.match("call|j", x.name) and self.archive.is_code(self.archive.place(x.symbol, 0)):
                self.refuse(x, f"a function pointer to {x.symbol}")
        self.reach(self.function.start, 0, None)
        while self.todo:
            x = self.code[self.index[self.todo.pop()]]
            self.step(x, self.depths[x.at])
        for first, last in self.spans:
            if any(first < target <= last for target in self.targets):
                raise Refused(f"{self.function.name}+{first:x}: a jump into the sequence of a jump table")
        # Such a register is not followed, and may lead anywhere into the red zone.
        self.function.own = max(self.function.own, max(self.depths.values()) + RED_ZONE * self.taken)

    def reach(self, at, depth, x):
        if at not in self.depths:
            self.depths[at] = depth
            self.todo.append(at)
        if self.depths[at] != depth:
            self.refuse(x, f"a frame of unknown size, {self.depths[at]} or {depth} bytes at {at:x}")

    def step(self, x, depth):
        if re.match(r"(?:ret|call)q?$|j|loop", x.name):
            depth = self.control(x, depth)
        else:
            self.note_below(x, depth)
            depth = self.moved(x, depth)
        if depth is not None:
            following = self.index[x.at] + 1
            if following == len(self.code):
                self.refuse(x, "the function goes on past its end")
            self.reach(self.code[following].at, depth, x)

    def control(self, x, depth):
        """The depth at the next instruction; None where it is not reached from here."""
        if x.prefixed:
            self.refuse(x, "not followed, with a prefix")
        if x.name.startswith("ret"):
            return self.refuse(x, f"{depth} bytes left") if depth or x.operands else None
        if x.operands[0].startswith("*"):
            if x.name.startswith("call"):
                self.refuse(x, "a call by a function pointer")
            for target in self.table_targets(x):
                self.jump(x, target, depth)
            return None
        if x.symbol:
            place = self.archive.place(x.symbol, x.added + 4)
            target = x.symbol if place[0] == "*UND*" else place
        else:
            target = self.function.section, int(x.operands[0].split()[0], 16)
        if x.name.startswith("call"):
            self.function.calls.append((depth + WORD, target))
            return depth
        self.jump(x, target, depth)
        return None if x.name.startswith("jmp") else depth

    def jump(self, x, target, depth):
        if target[0] == self.function.section and target[1] in self.index:
            self.targets.add(target[1])
            self.reach(target[1], depth, x)
        elif depth:
            self.refuse(x, f"{depth} bytes left at a jump out of the function")
        else:
            # A tail call: the return address is there already.
            self.function.calls.append((0, target))

    def note_below(self, x, depth):
        """Notes what is touched below %rsp, and whether an address in the stack is taken."""
        for operand in x.operands:
            if found := re.search(r"(-?0x[0-9a-f]+)?\(%rsp(,[^)]*)?\)", operand):
                self.function.own = max(self.function.own, depth - signed(found[1]))
                self.taken |= found[2] is not None or x.name == "lea" and x.operands[1] != "%rsp"
        self.taken |= x.operands[:1] == ["%rsp"]

    def moved(self, x, depth):
        """The depth after an instruction. What alters %rsp is known or refused."""
        text = str(x)
        if re.fullmatch(rf"pushq? (?:{REGISTER}|\$.+|.*\))", text) and not x.prefixed:
            return depth + WORD
        if re.fullmatch(rf"popq? (?!%rsp){REGISTER}", text) and not x.prefixed and depth:
            return depth - WORD
        if found := re.fullmatch(r"(?:(sub)|add) \$(0x[0-9a-f]+),%rsp|lea (-?0x[0-9a-f]+)?\(%rsp\),%rsp", text):
            depth += signed(found[2]) if found[1] else -signed(found[2] or found[3])
            return depth if depth >= 0 else self.refuse(x, "the return address is passed")
        # A space within the operands: a prefix that is not known, with the instruction behind it.
        if REFUSED.match(x.name) or x.name in PREFIXES or " " in ",".join(x.operands):
            self.refuse(x, "not followed")
        altered = [] if x.name in ("cmp", "test") else x.operands[x.name in READERS:]
        if "%rsp" in altered or re.search(r"%(?:esp|spl?)\b", text):
            self.refuse(x, "a frame of unknown size")
        return depth

    def table_targets(self, x):
        """The targets of `lea TABLE(%rip),T; movslq (T,I,4),R; add T,R; jmp *R`. Others may stand between these."""
        register = x.operands[0][1:]
        added = self.writer(x, x, register)
        base = added.operands[0]
        loaded = self.writer(x, added, register, base)
        first = self.writer(x, loaded, base)
        known = added.name == "add" and added.operands == [base, register] and base != register
        known &= loaded.name == "movslq" and loaded.operands[1] == register
        known &= re.fullmatch(rf"\({base},{REGISTER},4\)", loaded.operands[0]) is not None
        known &= first.name == "lea" and first.operands == ["0x0(%rip)", base] and first.symbol != ""
        if not known:
            self.refuse(x, "a jump by a function pointer")
        self.spans.append((first.at, x.at))
        return self.read_table(x, *self.archive.place(first.symbol, first.added + 4))

    def writer(self, x, before, *registers):
        """The last instruction before another that writes one of the registers; only plain ones and branches follow."""
        sought = {whole(register) for register in registers}
        for earlier in reversed(self.code[:self.index[before.at]]):
            branch = re.match("j(?!mp)", earlier.name)
            if None in sought or earlier.prefixed or not branch and earlier.name not in PLAIN:
                break
            if not branch and not re.match("cmp|test", earlier.name) and whole(earlier.operands[-1]) in sought:
                return earlier
        return self.refuse(x, "a jump by a function pointer")

    def read_table(self, x, section, start):
        """The targets of a jump table. Its length stands nowhere: all entries up to the next table are taken."""
        entries, starts = self.archive.entries, self.archive.table_starts
        targets, at = [], start
        while (section, at) in entries and (at == start or (section, at) not in starts):
            into, value = entries[section, at]
            # The entry is the way from the table's start, and the linker's number is that from the entry.
            target = value - (at - start)
            if into != self.function.section or target not in self.index:
                self.refuse(x, f"a jump table with {into}+{target:x}")
            targets.append((into, target))
            at += 4
        return targets or self.refuse(x, "a jump table without entries")


def blank(found):
    return re.sub(r"[^\n]", " ", found[0])


def declared(header):
    """The functions that the header declares, each with the comment before it. Those with a body are not the library's.
    What is no declaration is blanked out, so that each place in the text stays where it is."""
    code = re.sub(r"(?s)/\*.*?\*/|//[^\n]*", blank, header)
    code = re.sub(r"(?ms)^#ifdef __cplusplus$.*?^#endif", blank, code)
    code = re.sub(r"(?m)^ *#(?:[^\n]*\\\n)*[^\n]*", blank, code)
    count = 1
    while count:
        code, count = re.subn(r"\{[^{}]*\}", lambda body: blank(body)[:-1] + "\0", code)
    for statement in re.finditer(r"[^;\0]+;", code):
        found = re.search(r"\b(pelchunda_\w+)\s*\(", statement[0])
        if found and not re.search(r"\b(?:static|typedef)\b", statement[0]):
            before = header[statement.start():statement.start() + found.start()]
            yield found[1], (re.findall(r"(?s)/\*.*?\*/", before) or [""])[-1]


def differences(figures, header):
    """What the header has otherwise, a line for each."""
    calls = dict(declared(header))
    for name in calls.keys() ^ figures.keys():
        yield f"{name}: not in the {'archive' if name in calls else 'header'}"
    for name in calls.keys() & figures.keys():
        said = re.findall(r"(?m)^ \* stack +([\d,]+) bytes$", calls[name])
        if said != [f"{figures[name]:,}"]:
            yield f"{name}: the header says {' and '.join(said) or 'nothing'}, the bound is {figures[name]:,}"
    most = max(figures.values(), default=0)
    said = re.findall(r"(?m)^#define PELCHUNDA_STACK_BYTES (\d+)\b", header)
    if said != [str(most)]:
        yield f"PELCHUNDA_STACK_BYTES: the header says {' and '.join(said) or 'nothing'}, the largest bound is {most}"
    yield from (f"{name}: {figure:,} is above {BUDGET:,}" for name, figure in figures.items() if figure > BUDGET)


def check(archive, header, show):
    figures = archive.figures()
    for name, figure in figures.items():
        print(f"{name:<32} {figure:>6,}" + (f"   {archive.path(archive.symbols[name])}" if show else ""))
    if show:
        print("\nBytes below the return address: of the function itself, and with its callees")
        for place, function in archive.functions.items():
            print(f"{function.name:<32} {function.own:>6,} {archive.bound(place):>6,}")
    found = sorted(differences(figures, header))
    print("\n".join(found) or f"The header's {len(figures)} figures are these bounds, and within {BUDGET:,} bytes.")
    return not found


# A name, assembly, and the figure of f or a piece of the refusal.
CASES = [
    ("frame", "fn f; push %rbx; sub $24,%rsp; call g; add $24,%rsp; pop %rbx; ret; fn g; push %rax; pop %rax; ret", 56),
    ("frame by lea", "fn f; lea -40(%rsp),%rsp; lea 40(%rsp),%rsp; ret", 48),
    ("branch", "fn f; test %edi,%edi; je 1f; sub $8,%rsp; call memset; add $8,%rsp; 1: ret", 152),
    ("red zone", "fn f; mov %rdi,-24(%rsp); mov -64(%rsp),%rax; ret", 72),
    ("red zone by a register", "fn f; push %rbp; mov %rsp,%rbp; mov %edi,-20(%rbp); pop %rbp; ret", 144),
    ("tail call", "fn f; push %rbx; pop %rbx; jmp g; fn g; sub $56,%rsp; add $56,%rsp; ret", 64),
    ("jump table", """fn f; cmp $1,%edi; ja 1f; lea T(%rip),%rdx; movslq (%rdx,%rdi,4),%rax; add %rdx,%rax; jmp *%rax
        1: ret; 2: sub $72,%rsp; add $72,%rsp; ret; .section .rodata.f,"a"; T: .long 1b-T, 2b-T""", 80),
    ("recursion with a bound", """fn f; jmp "authority::on_line"; fn "authority::on_line"
        push %rbx; call "authority::on_line"; pop %rbx; ret""", 8 + 256 * 16 + 8),
    ("recursion", "fn f; push %rbx; call f; pop %rbx; ret", "a recursion without a bound"),
    ("recursion of two", "fn f; call g; ret; fn g; call f; ret", "a recursion over several functions"),
    ("call by pointer", "fn f; call *%rdi; ret", "a call by a function pointer"),
    ("jump by pointer", "fn f; jmp *%rdi", "a jump by a function pointer"),
    ("jump into a sequence", """fn f; je 1f; lea T(%rip),%rdx; 1: movslq (%rdx,%rdi,4),%rax; add %rdx,%rax; jmp *%rax
        2: ret; .section .rodata.f,"a"; T: .long 2b-T""", "a jump into the sequence"),
    ("address of a function", "fn f; lea g(%rip),%rax; ret; fn g; ret", "a function pointer to"),
    ("pointer in data", "fn f; ret; .data; .quad f", "a function pointer"),
    ("elsewhere", "fn f; call malloc; ret", "malloc: a function from elsewhere"),
    ("array of any length", "fn f; sub %rdi,%rsp; add %rdi,%rsp; ret", "a frame of unknown size"),
    ("alignment", "fn f; mov %rsp,%rbp; and $-32,%rsp; mov %rbp,%rsp; ret", "a frame of unknown size"),
    ("leave", "fn f; push %rbp; mov %rsp,%rbp; leave; ret", "not followed"),
    ("probe loop", "fn f; mov $9,%eax; 1: sub $4096,%rsp; dec %eax; jne 1b; ret", "a frame of unknown size"),
    ("two depths", "fn f; test %edi,%edi; je 1f; push %rax; 1: ret", "a frame of unknown size"),
    ("bytes left", "fn f; push %rax; ret", "8 bytes left"),
    ("no end", "fn f; xor %eax,%eax", "past its end"),
    ("trap", "fn f; ud2", "not followed"),
]
MACRO = """.macro fn name
.section ".text.\\name","ax",@progbits
.globl "\\name"
"\\name":
.endm
"""


def answer(folder, source):
    """The figure of f, or the refusal."""
    (folder / "f.s").write_text(MACRO + source.replace(";", "\n") + "\n", encoding="utf-8")
    run("gcc", "-c", str(folder / "f.s"), "-o", str(folder / "f.o"))
    try:
        return Archive(str(folder / "f.o")).figures()["f"]
    except Refused as refusal:
        return str(refusal)


def self_test():
    good = True
    with tempfile.TemporaryDirectory() as folder:
        for name, source, expected in CASES:
            got = answer(Path(folder), source)
            met = got == expected if isinstance(expected, int) else expected in str(got)
            good &= met
            print(f"{name:<24} {got}" + ("" if met else f"   NOT met: {expected}"))
    return good


def main(words):
    if words == ["--self-test"]:
        return self_test()
    show = words[:1] == ["--show"]
    if len(words) != 2 + show:
        raise Refused(__doc__)
    archive, header = words[show:]
    return check(Archive(archive), Path(header).read_text(encoding="utf-8"), show)


if __name__ == "__main__":
    try:
        sys.exit(0 if main(sys.argv[1:]) else 1)
    except Refused as refusal:
        sys.exit(f"stack.py: {refusal}")
