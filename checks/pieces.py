"""Layouts of functions in pieces: the program's images against those of a second layout, written from docs/image-format.md, and one object in many layouts.

The object is a stranger's: a loop, calls by slots, and branches between all its parts, cut at every place where it may be.
Each layout of it shows, after a number of steps of its own, what the first one shows there; some are run to their end, on
the machine and as processes of Linux.
"""

import os
import platform
import random
import struct
import subprocess
import sys
import tempfile
from concurrent.futures import ThreadPoolExecutor

from objects import CALL, ENTRY, INDIRECT, JUMP, PLAIN, RBX, SYSTEM, Object, cut_places, drawn, if_not, instructions_of, pair, set_word, shuffled, small_object, some_object
from processor import RAX, RDX, RSP, at

RDI, RSI, RCX = 7, 6, 1
RET, UD2, JMP, INT3 = b"\xc3", b"\x0f\x0b", b"\xe9\0\0\0\0", b"\xcc"
SLOT_BASE, RO, RW, CODE = 0x10000000, 0x20000000, 0x30000000, 0x40000000
LAYOUTS, STEPS = 1000, 2000


# Layouts


def up(place):
    return (place + 15) // 16 * 16


def segments(o, seed):
    """The segments of an object's image, each with its start, its rights and its bytes."""
    pieces = []
    for n, (_, code, _, cuts) in enumerate(o.functions):
        ends = [0, *cuts, len(code)]
        pieces += [(n, ends[i], ends[i + 1]) for i in range(len(ends) - 1)]
    words = drawn(seed, 5)
    base = end = CODE + 4096 * (next(words) % 65536)
    starts = {}
    for k in shuffled(seed, 1, len(pieces)):
        starts[k] = up(end) + 16 * (next(words) % 32)
        end = starts[k] + pieces[k][2] - pieces[k][1]
    place = {(n, offset): starts[k] + offset - first for k, (n, first, last) in enumerate(pieces) for offset in range(first, last)}
    position = shuffled(o.slot_seed, 2, len(o.slots))

    def way(to, behind):
        return struct.pack("<i", to - behind)

    code = bytearray(INT3 * (up(end) - base))
    for n, (_, row, links, _) in enumerate(o.functions):
        to = dict(links)
        for offset, instr in instructions_of(row)[0].items():
            text, start = bytearray(row[offset : offset + instr.length]), place[n, offset]
            if instr.by is not None:
                last = offset + instr.length
                goal = SLOT_BASE + 16 * position[to[last - 4]] if last - 4 in to else place[n, last + instr.by]
                text[-4:] = way(goal, start + instr.length)
            code[start - base : start - base + instr.length] = text
    slots = bytearray(INT3 * 16 * len(o.slots))
    for k, (kind, target, function, offset) in enumerate(o.slots):
        first = 16 * position[k]
        front = {CALL: b"\xe8", INDIRECT: b"\x90\x90\x41\xff\xd3", SYSTEM: b"\x0f\x05\x90\x90\x90"}.get(kind, b"\xe9")
        if kind in (ENTRY, JUMP, CALL):
            front += way(place[target, 0], SLOT_BASE + first + 5)
        if kind in (CALL, INDIRECT, SYSTEM):
            front += b"\xe9" + way(place[function, offset], SLOT_BASE + first + 10)
        slots[first : first + len(front)] = front
    rows = [(SLOT_BASE, 1, bytes(slots)), (RO, 4, o.ro), (RW, 6, o.rw), (base, 1, bytes(code))]
    return SLOT_BASE + 16 * position[0], [row for row in rows if row[2]]


def loaded(data):
    """The entry and the segments of an image's file."""
    entry, count = struct.unpack_from("<Q", data, 24)[0], struct.unpack_from("<H", data, 56)[0]
    rows = [struct.unpack_from("<IIQQQQQQ", data, 64 + 56 * k) for k in range(count)]
    return entry, [(start, rights, data[place : place + size]) for _, rights, place, start, _, size, _, _ in rows]


# The stranger's object


def stranger():
    """Prints the letters of a loop, calls a function for each, and ends with their number."""
    code, links, back, labels, branches = b"", [], {}, {}, []

    def put(*parts):
        nonlocal code
        code += b"".join(parts)

    def leave_by(slot):
        links.append((len(code) + 1, slot))
        put(JMP)
        back[slot] = (0, len(code))

    def go(label, instr=JMP):
        put(instr)
        branches.append((len(code), label))

    def here(label):
        labels[label] = len(code)

    put(at(b"\x8d", 1, RBX, RSP, -256), set_word(RCX, 0))
    go("loop")
    here("print")
    put(set_word(RAX, 1), set_word(RDI, 1), pair(b"\x89", 1, RBX, RSI), set_word(RDX, 3))
    leave_by(2)
    go("end")
    put(INT3)
    here("loop")
    put(pair(b"\x81", 1, 7, RCX), struct.pack("<i", 3))
    go("print", if_not(4))
    go("letter")
    put(UD2)
    here("next")
    put(pair(b"\x81", 1, 0, RCX), struct.pack("<i", 1))
    go("loop")
    here("letter")
    put(pair(b"\x89", 1, RCX, RAX))
    leave_by(1)
    put(pair(b"\x89", 1, RBX, RDX), pair(b"\x01", 1, RCX, RDX), at(b"\x88", 0, RAX, RDX, 0, True))
    go("next")
    here("end")
    put(pair(b"\x89", 1, RAX, RDI), set_word(RAX, 60))
    leave_by(3)
    put(UD2)
    for end, label in branches:
        code = code[: end - 4] + struct.pack("<i", labels[label] - end) + code[end:]
    letter = pair(b"\x81", 1, 0, RAX) + struct.pack("<i", ord("A")) + b"\xe9\1\0\0\0" + INT3 + RET
    slots = [(ENTRY, 0, 0, 0), (CALL, 1, *back[1]), (SYSTEM, 0, *back[2]), (SYSTEM, 0, *back[3])]
    functions = [(PLAIN, row, to, cut_places(instructions_of(row)[0])) for row, to in ((code, links), (letter, []))]
    return Object(functions, slots, slot_seed=7)


class Pieces:
    def __init__(self, program, work):
        self.program, self.work, self.failed = program, work, 0
        self.object = os.path.join(work, "object")
        self.native = (platform.system(), platform.machine()) == ("Linux", "x86_64")

    def fail(self, text):
        self.failed += 1
        print(text)

    def lay(self, seed):
        """The image's file for a layout seed."""
        path = os.path.join(self.work, f"image-{seed}")
        with open(path, "wb") as file:
            subprocess.run([self.program, "lay", self.object, "--layout-seed", str(seed)], stdout=file, check=False)
        os.chmod(path, 0o755)
        return path

    def said(self, command, image, steps):
        ran = subprocess.run([self.program, command, image, "--steps", str(steps)], stdin=subprocess.DEVNULL, stdout=subprocess.PIPE, stderr=subprocess.PIPE, check=False)
        return ran.stdout, ran.stderr

    def take(self, o):
        with open(self.object, "wb") as file:
            file.write(o.file())

    def exact(self, o, seed):
        """The image is the one that the second layout gives."""
        self.take(o)
        path = self.lay(seed)
        with open(path, "rb") as file:
            data = file.read()
        os.remove(path)
        if len(data) < 64 or loaded(data) != segments(o, seed):
            self.fail(f"another layout for seed {seed} of {o.file().hex()}")

    def one(self, seed, shown):
        """What is wrong with a layout, if anything is."""
        image, steps = self.lay(seed), seed % len(shown)
        try:
            if self.said("show", image, steps)[0] != shown[steps]:
                return f"seed {seed} shows another text after {steps} steps"
            if seed % 50:
                return None
            if self.said("run", image, STEPS) != (b"ABC", b"ended 3\n"):
                return f"seed {seed} runs to another end"
            process = subprocess.run([image], stdin=subprocess.DEVNULL, stdout=subprocess.PIPE, check=False) if self.native else None
            return None if process is None or (process.stdout, process.returncode) == (b"ABC", 3) else f"seed {seed} ends in another way as a process"
        finally:
            os.remove(image)

    def lockstep(self, o):
        self.take(o)
        first, shown = self.lay(0), []
        while not shown or b"outcome going" in shown[-1]:
            shown.append(self.said("show", first, len(shown))[0])
            if len(shown) > STEPS:
                self.fail("no stop")
                return
        with ThreadPoolExecutor(os.cpu_count()) as pool:
            for text in pool.map(lambda seed: self.one(seed, shown), range(1, LAYOUTS)):
                if text:
                    self.fail(text)
        print(f"{len(o.functions)} functions in {sum(1 + len(f[3]) for f in o.functions)} pieces: {LAYOUTS} layouts, {len(shown)} steps")


def main():
    rng = random.Random(1)
    with tempfile.TemporaryDirectory() as work:
        pieces = Pieces(sys.argv[1], work)
        for _ in range(200):
            pieces.exact(some_object(rng), rng.getrandbits(64))
        pieces.exact(small_object(), 3)
        pieces.exact(stranger(), 3)
        pieces.lockstep(stranger())
    print(f"layouts of pieces, {pieces.failed} differences")
    return 1 if pieces.failed else 0


if __name__ == "__main__":
    sys.exit(main())
