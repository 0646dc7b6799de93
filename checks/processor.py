"""Single instructions on this machine's processor and on the project's machine: both have to print the same.

Each case sets registers, flags and a piece of memory, takes one instruction of docs/instructions.md with random
operands, and prints the registers and the flags that are known behind it. The bytes are put together here, from
the manual's tables, and not by the project's encoder.
"""

import os
import random
import struct
import subprocess
import sys
import tempfile

RAX, RCX, RDX, RSP, R11 = 0, 1, 2, 4, 11
OTHERS = [r for r in range(16) if r != RSP]
# Offsets from rsp: registers, flags, and memory that loads and stores meet.
FLAGS_AT, MEMORY_AT = 120, 512
CONDITIONS = [0, 1, 2, 3, 4, 5, 6, 7, 8, 9, 12, 13, 14, 15]


def rex(w, reg, rm, always=False):
    byte = 0x40 | w << 3 | reg >> 3 << 2 | rm >> 3
    return bytes([byte]) if byte != 0x40 or always else b""


def pair(opcode, w, reg, rm, always=False, front=b""):
    """A register form: reg in ModRM's reg field, rm in its rm field."""
    return front + rex(w, reg, rm, always) + opcode + bytes([0xC0 | (reg & 7) << 3 | rm & 7])


def at(opcode, w, reg, base, disp, always=False, front=b""):
    """A memory form [base + disp32]."""
    sib = b"\x24" if base & 7 == 4 else b""
    return front + rex(w, reg, base, always) + opcode + bytes([0x80 | (reg & 7) << 3 | base & 7]) + sib + struct.pack("<i", disp)


def set_word(d, n):
    return rex(1, 0, d) + bytes([0xB8 | d & 7]) + struct.pack("<Q", n)


def word(rng):
    edges = [0, 1, 2, 0x7F, 0x80, 0xFF, 0x7FFF, 0x8000, 0xFFFF, 2**31 - 1, 2**31, 2**32 - 1, 2**32, 2**63 - 1, 2**63, 2**64 - 1]
    return rng.choice(edges) if rng.random() < 0.4 else rng.getrandbits(64)


def imm(rng):
    return rng.choice([0, 1, -1, 127, -128, 2**31 - 1, -(2**31), rng.randrange(-(2**31), 2**31)])


def straight(rng, values):
    """An instruction of registers alone, and which of C, Z, S, O are known behind it where it writes flags."""
    d, s, w = rng.choice(OTHERS), rng.choice(OTHERS), rng.randrange(2)
    kind = rng.randrange(12)
    if kind == 0:
        return pair(b"\x89", w, s, d), None
    if kind == 1:
        return set_word(d, word(rng)), None
    if kind == 2:
        return rex(0, 0, d) + bytes([0xB8 | d & 7]) + struct.pack("<I", rng.getrandbits(32)), None
    if kind == 3:
        return pair(bytes([rng.choice([0x01, 0x09, 0x21, 0x29, 0x31, 0x39, 0x85])]), w, s, d), "czso"
    if kind == 4:
        return pair(b"\x81", w, rng.choice([0, 1, 4, 5, 6, 7]), d) + struct.pack("<i", imm(rng)), "czso"
    if kind == 5:
        return pair(b"\x0f\xaf", w, d, s), ""
    if kind == 6:
        count = values[RCX] % (64 if w else 32)
        return pair(b"\xd3", w, rng.choice([4, 5, 7]), d), "zs" if count else None
    if kind == 7:
        size = rng.randrange(3)
        return [b"\x66\x99", b"\x99", b"\x48\x99"][size], None
    if kind == 8:
        opcode, wide, always = rng.choice([(b"\x0f\xb6", 0, True), (b"\x0f\xb7", 0, False), (b"\x0f\xbe", 1, False), (b"\x0f\xbf", 1, False), (b"\x63", 1, False)])
        return pair(opcode, wide, d, s, always), None
    if kind == 9:
        return at(b"\x8d", 1, d, rng.choice(OTHERS), imm(rng)), None
    if kind == 10:
        return pair(b"\x0f" + bytes([0x90 + rng.choice(CONDITIONS)]), 0, 0, d, True), None
    return pair(b"\x0f" + bytes([0x40 + rng.choice(CONDITIONS)]), 1, d, s), None


def division(rng):
    """Registers for a division that does not fault, and the division."""
    bits, signed = rng.choice([8, 16, 32, 64]), rng.randrange(2)
    half = 1 << bits - 1
    if signed:
        by = rng.choice([1, 3, -2, -half, half - 1, rng.randrange(1, half)])
        quotient = rng.choice([0, 1, -1, half - 1, -half, rng.randrange(-half, half)])
        rest = rng.randrange(abs(by))
        number = quotient * by + (rest if quotient * by >= 0 else -rest)
    else:
        by = rng.choice([1, 2, 2 * half - 1, rng.randrange(1, 2 * half)])
        number = rng.randrange(2 * half) * by + rng.randrange(by)
    mask = 2 * half - 1
    number &= (1 << 2 * bits) - 1
    s = rng.choice([r for r in OTHERS if r not in (RAX, RDX)])
    above = rng.getrandbits(64)
    if bits == 8:
        values = {RAX: above & ~0xFFFF | number, s: above & ~0xFF | by & 0xFF}
    else:
        upper = 0 if bits == 64 else above & ~mask & (2**64 - 1)
        values = {RAX: upper | number & mask, RDX: upper | number >> bits, s: upper | by & mask}
    opcode = b"\xf6" if bits == 8 else b"\xf7"
    return values, pair(opcode, int(bits == 64), 6 + signed, s, bits == 8, b"\x66" if bits == 16 else b"")


def memory(rng):
    """A load or a store next to rsp, by rsp or another base, and the base if it holds an address."""
    base = rng.choice([RSP, RSP] + OTHERS)
    reg = rng.choice([r for r in OTHERS if r != base])
    place = MEMORY_AT + rng.randrange(32)
    code, disp = b"", place
    if base != RSP:
        disp = rng.randrange(-64, 64)
        code = at(b"\x8d", 1, base, RSP, place - disp)
    opcode, w, always, front = rng.choice([
        (b"\x8b", 1, False, b""), (b"\x8b", 0, False, b""), (b"\x0f\xb7", 0, False, b""), (b"\x0f\xb6", 0, False, b""),
        (b"\x89", 1, False, b""), (b"\x89", 0, False, b""), (b"\x89", 0, False, b"\x66"), (b"\x88", 0, True, b""),
    ])
    return code, at(opcode, w, reg, base, disp, always, front), base


def push(r):
    return rex(0, 0, r) + bytes([0x50 | r & 7])


def pop(r):
    return rex(0, 0, r) + bytes([0x58 | r & 7])


def branch(opcode, by):
    return opcode + struct.pack("<i", by)


def to_r11(by):
    """The address so many bytes behind this code, in r11: `call` to the next instruction tells where that stands."""
    return branch(b"\xe8", 0) + pop(R11) + pair(b"\x81", 1, 0, R11) + struct.pack("<i", 9 + by)


def stack(rng):
    """Pushes, pops, calls, returns and branches in both directions, and which flags are known behind them where they write any."""
    a, b = rng.choice(OTHERS), rng.choice(OTHERS)
    over = set_word(rng.choice(OTHERS), rng.getrandbits(64))
    size, body = len(over), over + b"\xc3"
    jmp, call = b"\xe9", b"\xe8"
    return rng.choice([
        (push(a) + pop(b), None),
        (branch(b"\x0f" + bytes([0x80 + rng.choice(CONDITIONS)]), size) + over, None),
        (branch(jmp, size) + over, None),
        # call the instruction and the return behind the jump
        (branch(call, 5) + branch(jmp, len(body)) + body, None),
        # to the last jump, from there back to the instruction, and past all
        (branch(jmp, size + 5) + over + branch(jmp, 5) + branch(jmp, -(size + 10)), None),
        (branch(jmp, len(body)) + body + branch(call, -(len(body) + 5)), None),
        (to_r11(3 + size) + b"\x41\xff\xe3" + over, "czso"),
        (to_r11(3 + 5) + b"\x41\xff\xd3" + branch(jmp, len(body)) + body, "czso"),
        # the old rsp less the new one
        (push(RSP) + pop(a) + pair(b"\x29", 1, RSP, a), "czso"),
        # rsp from a word that was pushed, and back again
        (at(b"\x8d", 1, a, RSP, -64) + push(a) + pop(RSP) + at(b"\x8d", 1, RSP, RSP, 64) + set_word(a, 0), None),
    ])


def system_call(rng):
    """A system call that prints and takes nothing; of the flags in r11 those that the machine has."""
    number, first, place, count = rng.choice([(1, 1, 0, 0), (1, 1, 0x1000, 8), (1, 1, 0x10000000, 0), (0, 0, 0x1000, 1), (0, 0, 0x1000, 0)])
    code = set_word(RAX, word(rng)) + set_word(RCX, word(rng)) + pair(b"\x39", 1, RCX, RAX)
    code += set_word(RAX, number) + set_word(7, first) + set_word(6, place) + set_word(RDX, count) + b"\x0f\x05"
    return code + pair(b"\x81", 1, 4, R11) + struct.pack("<i", 0xAC3), "czso"


def faults():
    """Code that stops, the signal by which a process ends there, and what the machine says of it."""
    for bits in (8, 16, 32, 64):
        front, opcode = b"\x66" if bits == 16 else b"", b"\xf6" if bits == 8 else b"\xf7"
        half, low = 1 << bits - 1, (1 << bits) - 1
        # by zero, and quotients that are one too large or too small
        for number, by, signed in [(5, 0, 0), (5, 0, 1), (1 << bits, 1, 0), (half, 1, 1), (-half, -1, 1), (half + 1, -1, 1), (-half - 1, 1, 1)]:
            number &= (1 << 2 * bits) - 1
            values = set_word(RAX, number) if bits == 8 else set_word(RAX, number & low) + set_word(RDX, number >> bits)
            divide = pair(opcode, int(bits == 64), 6 + signed, 3, bits == 8, front)
            yield values + set_word(3, by & low) + divide, 8, b"trapped divide\n"
    yield b"\x0f\x0b", 4, b"trapped invalid\n"
    yield b"\xcc", 5, b"trapped breakpoint\n"
    absent, code = set_word(3, 0x1000), set_word(3, 0x10000000)
    for access in (at(b"\x8b", 1, RAX, 3, 0), at(b"\x89", 1, RAX, 3, 0), pair(b"\x89", 1, 3, RSP) + push(RAX), pair(b"\x89", 1, 3, RSP) + b"\xc3"):
        yield absent + access, 11, b"stopped pagefault\n"
    yield code + at(b"\x89", 1, RAX, 3, 0), 11, b"stopped pagefault\n"
    yield set_word(R11, 0x1000) + b"\x41\xff\xe3", 11, b"stopped pagefault\n"


def case(rng):
    values = {r: word(rng) for r in OTHERS}
    before, known, base = b"", "czso", RSP
    pick = rng.random()
    if pick < 0.6:
        one, written = straight(rng, values)
        known = known if written is None else written
    elif pick < 0.72:
        more, one = division(rng)
        values.update(more)
        known = ""
    elif pick < 0.88:
        before, one, base = memory(rng)
    else:
        one, written = system_call(rng) if pick > 0.97 else stack(rng)
        known = known if written is None else written
    code = b"".join(set_word(r, word(rng)) + at(b"\x89", 1, r, RSP, MEMORY_AT + 8 * i) for i, r in enumerate([0, 1, 2, 3, 5]))
    # cmp gives all four flags
    code += set_word(RAX, word(rng)) + set_word(RCX, word(rng)) + pair(b"\x39", 1, RCX, RAX)
    code += b"".join(set_word(r, n) for r, n in values.items())
    code += before + one
    if base != RSP:
        code += set_word(base, 0)
    code += b"".join(at(b"\x89", 1, r, RSP, 8 * i) for i, r in enumerate(OTHERS))
    for i, (flag, cc) in enumerate([("c", 2), ("z", 4), ("s", 8), ("o", 0)]):
        code += set_word(RAX, 2)
        code += pair(b"\x0f" + bytes([0x90 + cc]), 0, 0, RAX, True) if flag in known else b""
        code += at(b"\x88", 0, RAX, RSP, FLAGS_AT + i, True)
    # write(1, rsp, registers and flags), and then the memory
    for offset, count in [(0, FLAGS_AT + 4), (MEMORY_AT, 40)]:
        code += set_word(RAX, 1) + set_word(7, 1) + at(b"\x8d", 1, 6, RSP, offset) + set_word(RDX, count) + b"\x0f\x05"
    return code, one


def image(code):
    header = b"\x7fELF\x02\x01\x01" + bytes(9) + struct.pack("<HHIQQQIHHHHHH", 2, 62, 1, 0x10000000, 64, 0, 0, 64, 56, 1, 0, 0, 0)
    segment = struct.pack("<IIQQQQQQ", 1, 1, 4096, 0x10000000, 0x10000000, len(code), len(code), 4096)
    return (header + segment).ljust(4096, b"\0") + code


def outcomes(program, path, code):
    """How the image of this code ends as a process and on the machine. There is input, so that a place to read it to is looked at."""
    with open(path, "wb") as file:
        file.write(image(code))
    os.chmod(path, 0o755)
    native = subprocess.run([path], input=b"input", stdout=subprocess.PIPE, check=False)
    ours = subprocess.run([program, "run", path, "--steps", "10000000"], input=b"input", stdout=subprocess.PIPE, stderr=subprocess.PIPE, check=False)
    return native, ours


def main():
    program, seed, images, each = sys.argv[1], int(sys.argv[2]), int(sys.argv[3]), int(sys.argv[4])
    rng = random.Random(seed)
    size = FLAGS_AT + 44
    failed = 0
    with tempfile.TemporaryDirectory() as work:
        path = os.path.join(work, "image")
        for _ in range(images):
            cases = [case(rng) for _ in range(each)]
            # a frame, the cases, exit(0)
            code = pair(b"\x81", 1, 5, RSP) + struct.pack("<i", 8192)
            code += b"".join(c for c, _ in cases) + set_word(RAX, 60) + set_word(7, 0) + b"\x0f\x05"
            native, ours = outcomes(program, path, code)
            if native.returncode != 0 or ours.stderr != b"ended 0\n":
                print("ends differ:", native.returncode, ours.stderr)
                failed += 1
            for i, (_, one) in enumerate(cases):
                a, b = (r.stdout[size * i : size * i + size] for r in (native, ours))
                if a != b or len(a) != size:
                    print("differs:", one.hex(" "), a.hex(), b.hex())
                    failed += 1
        stops = list(faults())
        for code, signal, line in stops:
            native, ours = outcomes(program, path, code)
            if native.returncode != -signal or ours.stderr != line:
                print("stops differ:", code.hex(" "), native.returncode, ours.stderr)
                failed += 1
    print(f"{images * each} instructions and {len(stops)} that stop, {failed} differences")
    return 1 if failed else 0


if __name__ == "__main__":
    sys.exit(main())
