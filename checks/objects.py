"""Object files against a second verifier: the program has to answer each of them as the verifier below does.

Form, rules and instructions are written here from docs/object-format.md and docs/instructions.md, and not from the
project's definitions. The program's answer is that of `lay`: nothing where the object is taken, else the line of
status 5. Each difference is printed with the object's bytes in hex and both answers.
"""

import os
import random
import resource
import struct
import subprocess
import sys
import tempfile

from processor import at, pair, rex, set_word

RBX, RSP, RBP, R11, R12, R13, R14, R15 = 3, 4, 5, 11, 12, 13, 14, 15
SAVED = [RBX, RBP, R12, R13, R14]
CONDITIONS = [0, 1, 2, 3, 4, 5, 6, 7, 8, 9, 12, 13, 14, 15]
PLAIN, SAVES = 0, 1
ENTRY, JUMP, CALL, INDIRECT, SYSTEM = range(5)
# What may stand last in a function, or before a cut.
ENDS = ("jmp", "jmp_r11", "ret", "ud2", "int3")


# Instructions


class Instr:
    """What the rules ask of an instruction: its name, its registers, a branch's displacement, its length."""

    def __init__(self, name, registers, length, by=None):
        self.name, self.registers, self.length, self.by = name, registers, length, by


class NoInstr(Exception):
    pass


def want(holds):
    if not holds:
        raise NoInstr


def number(code, place, size):
    want(place + size <= len(code))
    return int.from_bytes(code[place : place + size], "little", signed=True)


def decode(code, start):
    """The instruction that begins at a place, or None where none lies whole in the code."""
    try:
        return row(code, start)
    except (NoInstr, IndexError):
        return None


def row(code, start):
    place = start
    word = code[place] == 0x66
    place += word
    prefix = code[place] if code[place] & 0xF0 == 0x40 else None
    place += prefix is not None
    w, r, x, b = ((prefix or 0) >> n & 1 for n in (3, 2, 1, 0))
    want(not x)
    opcode = code[place]
    place += 1

    def shape(ws=(0,), has_r=False, has_b=False, byte=False, words=False):
        """Which prefixes a row has: values of W, whether R and B say something, REX always, 66."""
        want(w in ws and (has_r or not r) and (has_b or not b))
        want(prefix is not None if byte else prefix != 0x40)
        want(not word or (words and not w))

    def modrm():
        want(place < len(code))
        return code[place] >> 6, (code[place] >> 3 & 7) + 8 * r, (code[place] & 7) + 8 * b

    def two(name, **prefixes):
        """A row of two registers."""
        shape(has_r=True, has_b=True, **prefixes)
        mode, reg, rm = modrm()
        want(mode == 3)
        return Instr(name, [reg, rm], place + 1 - start)

    def one(name, digits, immediate=0, **prefixes):
        """A row of a register, whose reg field is a digit."""
        shape(has_b=True, **prefixes)
        mode, digit, rm = modrm()
        want(mode == 3 and digit in digits)
        want(place + 1 + immediate <= len(code))
        return Instr(name, [rm], place + 1 + immediate - start)

    def memory(name, **prefixes):
        """A row of a register and a place in memory."""
        shape(has_r=True, has_b=True, **prefixes)
        mode, reg, base = modrm()
        behind = place + 1
        want(mode == 2)
        if base & 7 == 4:
            want(code[behind] == 0x24)
            behind += 1
        number(code, behind, 4)
        return Instr(name, [reg, base], behind + 4 - start)

    def in_opcode(name, immediate=0, **prefixes):
        shape(has_b=True, **prefixes)
        want(place + immediate <= len(code))
        return Instr(name, [(opcode & 7) + 8 * b], place + immediate - start)

    def branch(name):
        want(not word and prefix is None)
        return Instr(name, [], place + 4 - start, number(code, place, 4))

    def bare(name):
        want(not word and prefix is None)
        return Instr(name, [], place - start)

    is_memory = place < len(code) and code[place] >> 6 == 2
    if opcode == 0x0F:
        second = code[place]
        place += 1
        is_memory = place < len(code) and code[place] >> 6 == 2
        if second == 0xAF:
            return two("imul", ws=(0, 1))
        if second == 0xB6:
            return memory("load8") if is_memory else two("zero8", byte=True)
        if second == 0xB7:
            return memory("load16") if is_memory else two("zero16")
        if second in (0xBE, 0xBF):
            return two("sign", ws=(1,))
        if second & 0xF0 in (0x40, 0x80, 0x90) and second & 15 in CONDITIONS:
            kind = second & 0xF0
            if kind == 0x40:
                return two("cmov", ws=(1,))
            return branch("jcc") if kind == 0x80 else one("set", [0], byte=True)
        if second == 0x05:
            return bare("syscall")
        want(second == 0x0B)
        return bare("ud2")
    if opcode in (0x01, 0x09, 0x21, 0x29, 0x31, 0x39, 0x85):
        return two("alu", ws=(0, 1))
    if opcode == 0x89:
        return memory("store", ws=(0, 1), words=True) if is_memory else two("mov", ws=(0, 1))
    if opcode == 0x88:
        return memory("store8", byte=True)
    if opcode == 0x8B:
        return memory("load", ws=(0, 1))
    if opcode == 0x8D:
        return memory("lea", ws=(1,))
    if opcode == 0x63:
        return two("sign32", ws=(1,))
    if opcode == 0x81:
        return one("alu_imm", [0, 1, 4, 5, 6, 7], 4, ws=(0, 1))
    if opcode == 0xD3:
        return one("shift", [4, 5, 7], ws=(0, 1))
    if opcode == 0xF6:
        return one("div8", [6, 7], byte=True)
    if opcode == 0xF7:
        return one("div", [6, 7], ws=(0, 1), words=True)
    if opcode == 0x99:
        want(prefix in (None, 0x48) and not (word and prefix))
        return Instr("high", [], place - start)
    if opcode & 0xF8 == 0xB8:
        return in_opcode("mov_imm", 8 if w else 4, ws=(0, 1))
    if opcode & 0xF8 == 0x50:
        return in_opcode("push")
    if opcode & 0xF8 == 0x58:
        return in_opcode("pop")
    if opcode == 0xFF:
        want(not word and prefix == 0x41 and code[place] in (0xD3, 0xE3))
        return Instr("call_r11" if code[place] == 0xD3 else "jmp_r11", [], place + 1 - start)
    if opcode in (0xE8, 0xE9):
        return branch("call" if opcode == 0xE8 else "jmp")
    want(opcode in (0xC3, 0xCC, 0x90))
    return bare({0xC3: "ret", 0xCC: "int3", 0x90: "nop"}[opcode])


# Draws


def chacha_words(key, block=0):
    """A block of ChaCha20 under a key, the first one by default, in stream 0."""
    start = list(struct.unpack("<4I", b"expand 32-byte k")) + list(struct.unpack("<8I", key)) + [block, 0, 0, 0]
    s = start[:]

    def turn(n, by):
        return (n << by | n >> 32 - by) & 0xFFFFFFFF

    def quarter(a, b, c, d):
        for p, q, t, by in [(a, b, d, 16), (c, d, b, 12), (a, b, d, 8), (c, d, b, 7)]:
            s[p] = s[p] + s[q] & 0xFFFFFFFF
            s[t] = turn(s[t] ^ s[p], by)

    for _ in range(10):
        for k in range(4):
            quarter(k, k + 4, k + 8, k + 12)
        for k in range(4):
            quarter(k, 4 + (k + 1) % 4, 8 + (k + 2) % 4, 12 + (k + 3) % 4)
    return [a + b & 0xFFFFFFFF for a, b in zip(s, start)]


def drawn(seed, purpose):
    """All words that a seed draws for a purpose."""
    block = 0
    while True:
        yield from chacha_words(struct.pack("<IIQ16x", purpose, 0, seed), block)
        block += 1


def shuffled(seed, purpose, count):
    """The order of so many numbers that a seed draws for a purpose."""
    order, words = list(range(count)), drawn(seed, purpose)
    for i in range(count - 1, 0, -1):
        j = next(words) % (i + 1)
        order[i], order[j] = order[j], order[i]
    return order


def five(reg_seed, purpose, function):
    """The saved registers in the order that a seed draws for a function."""
    words = chacha_words(struct.pack("<IIQ16x", purpose, function, reg_seed))
    order = list(range(5))
    for k, i in enumerate(range(4, 0, -1)):
        j = words[k] % (i + 1)
        order[i], order[j] = order[j], order[i]
    return [SAVED[k] for k in order]


def names(reg_seed, function):
    return five(reg_seed, 3, function)


def push(reg):
    return rex(0, 0, reg) + bytes([0x50 | reg & 7])


def prologue(reg_seed, function):
    return bytes.fromhex("4981EF01000000 0F8301000000 CC") + b"".join(push(r) for r in five(reg_seed, 4, function))


# Objects


class Object:
    def __init__(self, functions, slots, ro=b"", rw=b"", slot_seed=0, reg_seed=0):
        """A function is a kind, its code, its links (at, slot) and, if it has any, its cuts; a slot is a kind, a target and a way back."""
        self.functions, self.slots, self.ro, self.rw = [f if len(f) == 4 else (*f, []) for f in functions], slots, ro, rw
        self.slot_seed, self.reg_seed = slot_seed, reg_seed

    def file(self, form=2):
        out = [b"RDO1", struct.pack("<IQQ", form, self.slot_seed, self.reg_seed)]
        out.append(struct.pack("<IIII", len(self.functions), len(self.slots), len(self.ro), len(self.rw)))
        for kind, code, links, cuts in self.functions:
            assert form == 2 or not cuts
            counts = [len(code), len(links)] + [len(cuts)] * (form == 2)
            out.append(struct.pack(f"<I{len(counts)}I", kind, *counts) + code)
            out.extend(struct.pack("<II", place, slot) for place, slot in links)
            out.extend(struct.pack("<I", place) for place in cuts)
        out.extend(struct.pack("<IIII", *slot) for slot in self.slots)
        return b"".join(out) + self.ro + self.rw


class NoForm(Exception):
    """Bytes that spell no object, with the length of their longest prefix that begins one."""


class Reader:
    def __init__(self, data):
        self.data, self.place = data, 0

    def take(self, size):
        if self.place + size > len(self.data):
            raise NoForm(len(self.data))
        self.place += size
        return self.data[self.place - size : self.place]

    def exactly(self, wanted):
        for byte in wanted:
            if self.take(1)[0] != byte:
                raise NoForm(self.place - 1)

    def field(self):
        return int.from_bytes(self.take(4), "little")

    def below(self, limit):
        first = self.take(1)[0]
        if first >= limit:
            raise NoForm(self.place - 1)
        self.exactly(bytes(3))
        return first

    def used(self, is_used):
        if is_used:
            return self.field()
        self.exactly(bytes(4))
        return 0

    def function(self, form):
        kind, size, links = self.below(2), self.field(), self.field()
        cuts = self.field() if form == 2 else 0
        code = self.take(size)
        return kind, code, [(self.field(), self.field()) for _ in range(links)], [self.field() for _ in range(cuts)]

    def slot(self):
        kind = self.below(5)
        return kind, self.used(kind in (ENTRY, JUMP, CALL)), self.used(kind >= CALL), self.used(kind >= CALL)

    def object(self):
        self.exactly(b"RDO1")
        form = self.take(1)[0]
        if form not in (1, 2):
            raise NoForm(self.place - 1)
        self.exactly(bytes(3))
        slot_seed, reg_seed = struct.unpack("<QQ", self.take(16))
        functions, slots, ro, rw = (self.field() for _ in range(4))
        read = Object([self.function(form) for _ in range(functions)], [self.slot() for _ in range(slots)], self.take(ro), self.take(rw), slot_seed, reg_seed)
        if self.place < len(self.data):
            raise NoForm(self.place)
        return read


# Rules


def instructions_of(code):
    """The instructions by their places, or the first place where none begins."""
    found, place = {}, 0
    while place < len(code):
        instr = decode(code, place)
        if instr is None:
            return found, place
        found[place] = instr
        place += instr.length
    return found, None if code else 0


def cut_places(found):
    """Where a function may be cut: where an instruction begins behind one that lets nothing run on."""
    return [place + instr.length for place, instr in found.items() if instr.name in ENDS and place + instr.length in found]


def bad_branches(found, links, code, slots):
    bad, displacements, linked = [], {}, set()
    for place, instr in found.items():
        if instr.by is not None:
            displacements[place + instr.length - 4] = instr.by
    before = -1
    for place, slot in links:
        if place <= before or displacements.get(place) != 0 or slot >= slots:
            bad.append(place)
        before = place
        linked.add(place)
    for place, instr in found.items():
        end = place + instr.length
        if instr.by is not None and end - 4 not in linked and end + instr.by not in found:
            bad.append(place)
    return bad


def is_saved_well(o, n, code, found):
    front = prologue(o.reg_seed, n)
    used = set()
    for instr in found.values():
        if instr.name not in ("push", "pop"):
            used.update(r for r in instr.registers if r in SAVED)
    return code[: len(front)] == front and used == set(names(o.reg_seed, n)[: len(used)])


def broken(o):
    """The first rule that an object breaks, with its first place, or None."""
    if not 1 <= len(o.functions) <= 4112 or not 1 <= len(o.slots) <= 2**20:
        return 1, "whole", 0, 0
    if len(o.functions) + sum(len(cuts) for *_, cuts in o.functions) > 131072:
        return 1, "whole", 0, 0
    if sum(len(code) for _, code, *_ in o.functions) > 2**26 or len(o.ro) + len(o.rw) > 2**26:
        return 1, "whole", 0, 0
    instrs = []
    for n, (_, code, *_) in enumerate(o.functions):
        found, stuck = instructions_of(code)
        if stuck is not None:
            return 2, "function", n, stuck
        instrs.append(found)

    def transfers(n):
        return [place for place, instr in instrs[n].items() if instr.name in ("call", "call_r11", "syscall")]

    def branches(n):
        return bad_branches(instrs[n], o.functions[n][2], o.functions[n][1], len(o.slots))

    def ends(n):
        last = max(instrs[n])
        return [] if instrs[n][last].name in ENDS else [last]

    def saved(n):
        return [] if o.functions[n][0] == PLAIN or is_saved_well(o, n, o.functions[n][1], instrs[n]) else [0]

    def cuts(n):
        legal = set(cut_places(instrs[n]))
        before = 0
        for place in o.functions[n][3]:
            if place <= before or place not in legal:
                return [place]
            before = place
        return []

    def in_functions(rule, fails):
        for n in range(len(instrs)):
            bad = fails(n)
            if bad:
                return rule, "function", n, min(bad)
        return None

    def is_start(function, offset):
        return function < len(instrs) and offset in instrs[function]

    def in_slots(rule, passes):
        for k, slot in enumerate(o.slots):
            if not passes(k, *slot):
                return rule, "slot", k, 0
        return None

    def goals(_, kind, target, function, offset):
        return (kind not in (ENTRY, JUMP, CALL) or target < len(instrs)) and (kind < CALL or is_start(function, offset))

    return (
        in_functions(3, transfers)
        or in_functions(4, branches)
        or in_functions(5, ends)
        or in_slots(6, goals)
        or in_slots(7, lambda k, kind, *_: (kind == ENTRY) == (k == 0))
        or in_functions(8, saved)
        or in_functions(9, cuts)
    )


def answer(data):
    """The line that `lay` has to say, or nothing where it takes the object."""
    try:
        o = Reader(data).object()
    except NoForm as form:
        return f"form {form.args[0]}"
    fault = broken(o)
    return "" if fault is None else "shape %d %s %d %d" % fault


# Objects to ask


def jump(to, end):
    """A jump whose instruction ends at a place."""
    return b"\xe9" + struct.pack("<i", to - end)


def if_not(cc, by=0):
    return bytes([0x0F, 0x80 | cc]) + struct.pack("<i", by)


UD2, RET, NOP, OPEN = b"\x0f\x0b", b"\xc3", b"\x90", b"\xe9\0\0\0\0"
START = (ENTRY, 0, 0, 0)


def plain(code, links=(), slots=(START,), cuts=()):
    """An object of one plain function."""
    return Object([(PLAIN, code, list(links), list(cuts))], list(slots))


def with_slots(*slots):
    return Object([(PLAIN, UD2, []), (PLAIN, NOP + set_word(0, 7) + UD2, [])], [START] + list(slots))


def saved(code, reg_seed=5, function=0, front=None):
    """An object whose function of this number saves registers."""
    front = prologue(reg_seed, function) if front is None else front
    return Object([(PLAIN, UD2, [])] * function + [(SAVES, front + code + UD2, [])], [START], reg_seed=reg_seed)


def uses(*regs):
    return b"".join(pair(b"\x89", 1, 0, r) for r in regs)


def wrong_orders(reg_seed):
    """Prologues with two pushes exchanged."""
    front = bytes.fromhex("4981EF01000000 0F8301000000 CC")
    order = five(reg_seed, 4, 0)
    for i in range(4):
        other = order[:]
        other[i], other[i + 1] = other[i + 1], other[i]
        yield front + b"".join(push(r) for r in other)


def table():
    """Objects with what is wanted, at least one for each way in which a rule fails, and taken ones next to them."""
    yield plain(b"\x0f\x05" + UD2), "shape 3 function 0 0"
    yield plain(UD2 + b"\xe9\xfa\xff\xff\xff"), "shape 4 function 0 2"
    yield plain(NOP), "shape 5 function 0 0"
    yield plain(UD2), ""
    # sizes
    yield Object([], [START]), "shape 1 whole 0 0"
    yield plain(UD2, slots=[]), "shape 1 whole 0 0"
    yield Object([(PLAIN, RET, [])] * 4112, [START]), ""
    yield Object([(PLAIN, RET, [])] * 4113, [START]), "shape 1 whole 0 0"
    # whole instructions
    yield plain(NOP + b"\xea" + UD2), "shape 2 function 0 1"
    yield plain(UD2 + b"\xe9\0\0"), "shape 2 function 0 2"
    yield plain(b""), "shape 2 function 0 0"
    yield Object([(PLAIN, b"\x0f\x05", []), (PLAIN, NOP + b"\x40" + UD2, [])], [START]), "shape 2 function 1 1"
    yield Object([(PLAIN, UD2, []), (PLAIN, b"", [])], [START]), "shape 2 function 1 0"
    for code in ["eb00", "4090", "484801c0", "6601c0", "4201c0", "0fb6c0", "66660fb6c0", "010100", "0f8a00000000", "8b05", "48c7c000000000", "f3c3"]:
        yield plain(bytes.fromhex(code) + UD2), "shape 2 function 0 0"
    # transfers
    yield plain(NOP + b"\xe8\0\0\0\0" + UD2), "shape 3 function 0 1"
    yield plain(NOP + b"\x41\xff\xd3" + b"\x0f\x05" + UD2), "shape 3 function 0 1"
    yield Object([(PLAIN, NOP, [(9, 9)]), (PLAIN, UD2 + b"\x0f\x05" + UD2, [])], [START]), "shape 3 function 1 2"
    # links
    slots = [START, (JUMP, 0, 0, 0)]
    both = if_not(4) + OPEN
    yield plain(both, [(2, 1), (7, 0)], slots), ""
    yield plain(both, [(2, 1)], slots), "shape 4 function 0 6"
    yield plain(both, [(7, 0), (2, 1)], slots), "shape 4 function 0 2"
    yield plain(both, [(2, 1), (7, 0), (7, 0)], slots), "shape 4 function 0 7"
    yield plain(both, [(2, 1), (2, 1), (7, 0)], slots), "shape 4 function 0 2"
    yield plain(both, [(2, 1), (7, 2)], slots), "shape 4 function 0 7"
    yield plain(both, [(3, 1), (7, 0)], slots), "shape 4 function 0 3"
    yield plain(both, [(0, 1), (2, 1), (7, 0)], slots), "shape 4 function 0 0"
    yield plain(both, [(2, 1), (7, 0), (8, 0)], slots), "shape 4 function 0 8"
    yield plain(both, [(2, 1), (7, 0), (11, 0)], slots), "shape 4 function 0 11"
    yield plain(both, [(2, 1), (7, 0), (2**32 - 1, 0)], slots), f"shape 4 function 0 {2**32 - 1}"
    yield plain(both, [(2, 1), (7, 2**32 - 1)], slots), "shape 4 function 0 7"
    yield plain(jump(0, 5), [(1, 0)]), "shape 4 function 0 1"
    yield plain(b"\xe9\0\0\0\1", [(1, 0)]), "shape 4 function 0 1"
    yield plain(pair(b"\x81", 1, 0, 0) + bytes(4) + UD2, [(3, 0)]), "shape 4 function 0 3"
    # branches without a link
    yield plain(jump(0, 5)), ""
    yield plain(OPEN + UD2), ""
    yield plain(OPEN), "shape 4 function 0 0"
    yield plain(jump(6, 5) + UD2), "shape 4 function 0 0"
    yield plain(jump(7, 5) + UD2), "shape 4 function 0 0"
    yield plain(jump(-1, 5) + UD2), "shape 4 function 0 0"
    yield plain(jump(-(2**31), 0)), "shape 4 function 0 0"
    yield plain(jump(2**31 - 1, 0)), "shape 4 function 0 0"
    yield plain(NOP + if_not(15, -5) + UD2), "shape 4 function 0 1"
    yield plain(NOP + if_not(15, -6) + UD2), ""
    yield plain(set_word(0, 0x90909090) + if_not(12, -10) + UD2), "shape 4 function 0 10"
    yield plain(set_word(0, 0x90909090) + if_not(12, -16) + UD2), ""
    # the end
    for last in [NOP, set_word(3, 1), push(0), pair(b"\x01", 1, 0, 1)]:
        yield plain(UD2 + last), "shape 5 function 0 2"
    yield plain(UD2 + if_not(3, -8)), "shape 5 function 0 2"
    for last in [UD2, RET, b"\xcc", b"\x41\xff\xe3", jump(0, 6)]:
        yield plain(NOP + last), ""
    # goals of slots
    yield plain(UD2, slots=[(ENTRY, 1, 0, 0)]), "shape 6 slot 0 0"
    yield with_slots((JUMP, 2, 0, 0)), "shape 6 slot 1 0"
    yield with_slots((JUMP, 1, 0, 0), (CALL, 2**32 - 1, 0, 0)), "shape 6 slot 2 0"
    yield with_slots((CALL, 1, 0, 1)), "shape 6 slot 1 0"
    yield with_slots((CALL, 1, 2, 0)), "shape 6 slot 1 0"
    yield with_slots((INDIRECT, 0, 1, 2)), "shape 6 slot 1 0"
    yield with_slots((INDIRECT, 0, 2, 0)), "shape 6 slot 1 0"
    yield with_slots((SYSTEM, 0, 1, 13)), "shape 6 slot 1 0"
    yield with_slots((SYSTEM, 0, 2**32 - 1, 2**32 - 1)), "shape 6 slot 1 0"
    yield with_slots((JUMP, 1, 0, 0), (CALL, 0, 1, 0), (INDIRECT, 0, 1, 1), (SYSTEM, 0, 1, 11)), ""
    # the entry
    yield plain(UD2, slots=[(JUMP, 0, 0, 0)]), "shape 7 slot 0 0"
    yield with_slots((JUMP, 0, 0, 0), START), "shape 7 slot 2 0"
    yield with_slots(START, (JUMP, 7, 0, 0)), "shape 6 slot 2 0"
    # saved registers
    for seed in range(4):
        colors = names(seed, 0)
        for k in range(6):
            yield saved(uses(*colors[:k]), seed), ""
        yield saved(uses(colors[1]), seed), "shape 8 function 0 0"
        yield saved(uses(*colors[:3], colors[4]), seed), "shape 8 function 0 0"
        yield saved(push(colors[4]) + rex(0, 0, colors[3]) + bytes([0x58 | colors[3] & 7]), seed), ""
        yield saved(at(b"\x8b", 1, 0, colors[1], 8), seed), "shape 8 function 0 0"
        yield saved(at(b"\x8b", 1, 0, colors[0], 8), seed), ""
        for front in wrong_orders(seed):
            yield saved(b"", seed, front=front), "shape 8 function 0 0"
        # what another function or another seed gives
        other = next(n for n in range(1, 100) if names(seed, n)[0] != colors[0] and five(seed, 4, n) != five(seed, 4, 0))
        yield saved(uses(names(seed, other)[0]), seed, other), ""
        yield saved(uses(colors[0]), seed, other), f"shape 8 function {other} 0"
        yield saved(b"", seed, other, prologue(seed, 0)), f"shape 8 function {other} 0"
    whole = prologue(0, 0)
    # without the breakpoint its branch goes into the next instruction
    for length, wanted in [(0, "shape 8 function 0 0"), (7, "shape 8 function 0 0"), (13, "shape 4 function 0 7"), (14, "shape 8 function 0 0")]:
        yield Object([(SAVES, whole[:length] + UD2, [])], [START]), wanted
    yield Object([(SAVES, whole, [])], [START]), "shape 5 function 0 %d" % (len(whole) - len(push(five(0, 4, 0)[4])))


def cut_table():
    """The same for cuts."""
    for cuts in [[], [5], [6], [5, 6]]:
        yield parts(cuts), ""
    for cuts, place in [([6, 5], 5), ([1], 1), ([0], 0), ([5, 5], 5), ([5, 6, 6], 6), ([8], 8), ([5, 7], 7), ([6, 0, 5], 0), ([2**32 - 1], 2**32 - 1)]:
        yield parts(cuts), f"shape 9 function 0 {place}"
    # behind what runs on, and behind each instruction that doesn't
    for before in [NOP, set_word(3, 1), if_not(4, -6), push(0)]:
        yield plain(before + UD2, cuts=[len(before)]), f"shape 9 function 0 {len(before)}"
    for before in [UD2, RET, b"\xcc", b"\x41\xff\xe3", jump(0, 5)]:
        yield plain(before + UD2, cuts=[len(before)]), ""
        yield plain(before, cuts=[len(before)]), f"shape 9 function 0 {len(before)}"
    # the test of a function that saves registers may be cut behind its breakpoint, and the first function counts
    front = prologue(0, 0)
    yield Object([(SAVES, front + UD2, [], [14])], [START]), ""
    yield Object([(SAVES, front + UD2, [], [13])], [START]), "shape 9 function 0 13"
    yield Object([(PLAIN, UD2, [], []), (PLAIN, UD2 + RET, [], [2, 1]), (PLAIN, UD2, [], [1])], [START]), "shape 9 function 1 1"
    yield Object([(PLAIN, UD2, [], [1]), (SAVES, UD2, [], [])], [START]), "shape 8 function 1 0"
    # functions and cuts together
    yield plain(RET * 131072, cuts=range(1, 131072)), ""
    yield plain(RET * 131073, cuts=range(1, 131073)), "shape 1 whole 0 0"
    yield Object([(PLAIN, RET * 131071, [], list(range(1, 131071))), (PLAIN, RET, [])], [START]), ""
    yield Object([(PLAIN, RET * 131071, [], list(range(1, 131071))), (PLAIN, RET, []), (PLAIN, RET, [])], [START]), "shape 1 whole 0 0"


def parts(cuts):
    """A jump over a breakpoint to an invalid instruction."""
    return plain(jump(6, 5) + b"\xcc" + UD2, cuts=cuts)


def some_instr(rng, regs):
    """A random instruction without control over the registers given."""
    d, s, w = rng.choice(regs), rng.choice(regs), rng.randrange(2)
    disp = rng.randrange(-(2**31), 2**31)
    word = struct.pack("<i", disp)
    cc = rng.choice(CONDITIONS)
    size = rng.randrange(4)
    return rng.choice([
        pair(b"\x89", w, s, d),
        set_word(d, rng.getrandbits(64)),
        rex(0, 0, d) + bytes([0xB8 | d & 7]) + word,
        pair(bytes([rng.choice([0x01, 0x09, 0x21, 0x29, 0x31, 0x39, 0x85])]), w, s, d),
        pair(b"\x81", w, rng.choice([0, 1, 4, 5, 6, 7]), d) + word,
        pair(b"\x0f\xaf", w, d, s),
        pair(b"\xd3", w, rng.choice([4, 5, 7]), d),
        pair(b"\xf6" if size == 0 else b"\xf7", int(size == 3), rng.choice([6, 7]), s, size == 0, b"\x66" if size == 1 else b""),
        rng.choice([b"\x66\x99", b"\x99", b"\x48\x99"]),
        pair(*rng.choice([(b"\x0f\xb6", 0, d, s, True), (b"\x0f\xb7", 0, d, s), (b"\x0f\xbe", 1, d, s), (b"\x0f\xbf", 1, d, s), (b"\x63", 1, d, s)])),
        at(*rng.choice([(b"\x8b", 1), (b"\x8b", 0), (b"\x0f\xb7", 0), (b"\x0f\xb6", 0), (b"\x89", 1), (b"\x89", 0), (b"\x8d", 1)]), d, s, disp),
        at(b"\x89", 0, d, s, disp, False, b"\x66"),
        at(b"\x88", 0, d, s, disp, True),
        push(d),
        rex(0, 0, d) + bytes([0x58 | d & 7]),
        pair(b"\x0f" + bytes([0x90 | cc]), 0, 0, d, True),
        pair(b"\x0f" + bytes([0x40 | cc]), 1, d, s),
        NOP,
    ])


def some_function(rng, kind, n, reg_seed, slots, count):
    """A function that keeps the rules: instructions, linked branches, and branches to starts of its own."""
    regs = [r for r in range(16) if r not in SAVED]
    row, links, branches = [], [], []
    if kind == SAVES:
        front = prologue(reg_seed, n)
        row += [front[place : place + instr.length] for place, instr in instructions_of(front)[0].items()]
        colors = names(reg_seed, n)[: rng.randrange(6)]
        row += [uses(r) for r in colors]
        regs += colors
    for _ in range(count):
        if rng.random() < 0.2:
            branches.append(len(row))
            row.append(if_not(rng.choice(CONDITIONS)) if rng.random() < 0.5 else OPEN)
        else:
            row.append(some_instr(rng, regs if kind == SAVES else list(range(16))))
    row.append(rng.choice([UD2, RET, b"\xcc", b"\x41\xff\xe3"]))
    starts = [sum(map(len, row[:i])) for i in range(len(row))]
    for i in branches:
        end = starts[i] + len(row[i])
        if rng.random() < 0.5:
            links.append((end - 4, rng.randrange(slots)))
        else:
            row[i] = row[i][:-4] + struct.pack("<i", rng.choice(starts) - end)
    code = b"".join(row)
    cuts = [place for place in cut_places(instructions_of(code)[0]) if rng.random() < 0.5]
    return (kind, code, links, cuts), starts


def some_object(rng, most=4):
    """A random well-formed object."""
    reg_seed, count = rng.getrandbits(64), rng.randrange(1, most)
    slots = rng.randrange(1, 8)
    functions, starts = [], []
    for n in range(count):
        function, places = some_function(rng, rng.randrange(2), n, reg_seed, slots, rng.randrange(12))
        functions.append(function)
        starts.append(places)

    def slot(k):
        kind = ENTRY if k == 0 else rng.randrange(1, 5)
        back = rng.randrange(count)
        return (kind, rng.randrange(count) if kind <= CALL else 0, *((back, rng.choice(starts[back])) if kind >= CALL else (0, 0)))

    data = [bytes(rng.getrandbits(8) for _ in range(rng.randrange(20))) for _ in range(2)]
    return Object(functions, [slot(k) for k in range(slots)], *data, rng.getrandbits(64), reg_seed)


def small_object():
    """An object with links, cuts, all kinds of slots, and functions of both kinds."""
    code = NOP + if_not(4) + set_word(R11, 3) + if_not(5, -23) + OPEN
    registers = prologue(9, 1) + uses(*names(9, 1)[:2]) + RET
    slots = [START, (JUMP, 1, 0, 0), (CALL, 1, 0, 1), (INDIRECT, 0, 0, 7), (SYSTEM, 0, 1, 14)]
    return Object([(PLAIN, code, [(3, 1), (24, 2)]), (SAVES, registers, [], [14])], slots, b"ro", b"rw", 7, 9)


def changed(data, places, rng, count):
    """The bytes with one of them changed, for each place and some values."""
    for place in places:
        values = {data[place] ^ 1 << rng.randrange(8), rng.randrange(256), rng.choice([0, 1, 2, 4, 5, 0x40, 0x90, 0xC3, 0xFF])}
        for value in sorted(values - {data[place]})[:count]:
            yield data[:place] + bytes([value]) + data[place + 1 :]


def with_count(data, place, count):
    return data[:place] + struct.pack("<I", count) + data[place + 4 :]


class Asker:
    def __init__(self, program, work):
        self.program, self.path = program, os.path.join(work, "object")
        self.asked, self.failed = 0, 0

    def said(self, data):
        with open(self.path, "wb") as file:
            file.write(data)
        ran = subprocess.run([self.program, "lay", self.path, "--layout-seed", "1"], stdout=subprocess.DEVNULL, stderr=subprocess.PIPE, check=False, timeout=100)
        line = ran.stderr.decode().rstrip("\n")
        return line if ran.returncode == (5 if line else 0) else f"status {ran.returncode} {line}"

    def ask(self, data, wanted, name):
        self.asked += 1
        said = self.said(data)
        if said != wanted:
            self.failed += 1
            print(f"{name}: '{said}' in place of '{wanted}':", data[:4000].hex())

    def compare(self, data, name):
        self.ask(data, answer(data), name)


def ask_table(asker):
    for n, (o, wanted) in enumerate([*table(), *cut_table()]):
        data = o.file()
        if answer(data) != wanted:
            asker.failed += 1
            print(f"row {n}: this verifier answers '{answer(data)}' in place of '{wanted}'")
        asker.ask(data, wanted, f"row {n}")


def ask_forms(asker, rng):
    least = plain(UD2).file(1)
    asker.ask(least, "", "the least object in format 1")
    asker.ask(least[:-1], "form 69", "a byte less")
    asker.ask(least + b"\0", "form 70", "a byte more")
    asker.ask(b"", "form 0", "no byte")
    small = small_object().file()
    asker.ask(small, "", "the small object")
    for length in range(len(small)):
        asker.ask(small[:length], f"form {length}", "a prefix")
    for place in (24, 28, 32, 36, 44, 48):
        asker.ask(with_count(least, place, 2**32 - 1), f"form {len(least)}", "a large count")
    for data in changed(small, range(len(small)), rng, 3):
        asker.compare(data, "a changed byte")
    cut = parts([5, 6]).file()
    for length in range(len(cut)):
        asker.ask(cut[:length], f"form {length}", "a prefix of a function in pieces")
    asker.ask(cut + b"\0", f"form {len(cut)}", "a byte more")
    for place in (24, 28, 32, 36, 44, 48, 52):
        asker.ask(with_count(cut, place, 2**32 - 1), f"form {len(cut)}", "a large count")
    for data in (cut, parts([]).file(1)):
        for place in range(len(data)):
            for bit in range(8):
                asker.compare(data[:place] + bytes([data[place] ^ 1 << bit]) + data[place + 1 :], "a changed bit")


def ask_random(asker, rng, count):
    for _ in range(count):
        data = some_object(rng).file()
        asker.ask(data, "", "a well-formed object")
        for other in changed(data, [rng.randrange(24, len(data)) for _ in range(3)], rng, 1):
            asker.compare(other, "a changed byte of one")


def ask_large(asker):
    least, most = plain(UD2).file(), 2**20
    slots = struct.pack("<IIII", JUMP, 0, 0, 0)
    asker.ask(with_count(least, 28, most) + slots * (most - 1), "", "the most slots")
    asker.ask(with_count(least, 28, most + 1) + slots * most, "shape 1 whole 0 0", "a slot more")
    asker.ask(Object([(PLAIN, RET * 2**26 + RET, [])], [START]).file(), "shape 1 whole 0 0", "a byte of code more")
    data = bytes(2**25)
    asker.ask(Object([(PLAIN, RET, [])], [START], data, data + b"\0").file(), "shape 1 whole 0 0", "a byte of data more")


def main():
    program, seed, count = sys.argv[1], int(sys.argv[2]), int(sys.argv[3])
    rng = random.Random(seed)
    # no memory for a count that the file doesn't hold
    resource.setrlimit(resource.RLIMIT_AS, (2**31, resource.getrlimit(resource.RLIMIT_AS)[1]))
    with tempfile.TemporaryDirectory() as work:
        asker = Asker(program, work)
        ask_table(asker)
        ask_forms(asker, rng)
        ask_random(asker, rng, count)
        ask_large(asker)
    print(f"{asker.asked} objects, {asker.failed} differences")
    return 1 if asker.failed else 0


if __name__ == "__main__":
    sys.exit(main())
