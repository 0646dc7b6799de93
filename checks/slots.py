"""An object by hand in which every kind of slot is taken: it prints, and ends, the same in each layout, on the machine and as a process of Linux."""

import os
import platform
import struct
import subprocess
import sys
import tempfile

from objects import CALL, ENTRY, INDIRECT, JUMP, PLAIN, RBX, SYSTEM, Object, chacha_words
from processor import R11, RAX, RDX, RSP, at, pair, set_word

RDI, RSI = 7, 6
RET, UD2, JMP = b"\xc3", b"\x0f\x0b", b"\xe9\0\0\0\0"
SLOT_BASE, SLOT_SEED, COUNT = 0x10000000, 7, 6


def position(slot):
    """Where a slot stands among the others: the shuffle of the slot seed."""
    order, words = list(range(COUNT)), iter(chacha_words(struct.pack("<IIQ16x", 2, 0, SLOT_SEED)))
    for i in range(COUNT - 1, 0, -1):
        j = next(words) % (i + 1)
        order[i], order[j] = order[j], order[i]
    return order[slot]


def letter(place, byte):
    """A function that puts a byte behind rbx, and returns."""
    return PLAIN, set_word(RAX, byte) + at(b"\x88", 0, RAX, RBX, place, True) + RET, []


def made():
    """The first function calls the second by a slot, the third by a pointer to its Jump slot, prints, and exits."""
    code, links, back = b"", [], {}

    def leave_by(slot):
        nonlocal code
        links.append((len(code) + 1, slot))
        code += JMP
        back[slot] = (0, len(code))

    code += at(b"\x8d", 1, RBX, RSP, -256)
    leave_by(1)
    code += set_word(R11, SLOT_BASE + 16 * position(2))
    leave_by(3)
    code += set_word(RAX, 1) + set_word(RDI, 1) + pair(b"\x89", 1, RBX, RSI) + set_word(RDX, 2)
    leave_by(4)
    code += pair(b"\x89", 1, RAX, RDI) + set_word(RAX, 60)
    leave_by(5)
    slots = [(ENTRY, 0, 0, 0), (CALL, 1, *back[1]), (JUMP, 2, 0, 0), (INDIRECT, 0, *back[3]), (SYSTEM, 0, *back[4]), (SYSTEM, 0, *back[5])]
    return Object([(PLAIN, code + UD2, links), letter(0, ord("O")), letter(1, ord("K"))], slots, slot_seed=SLOT_SEED)


def main():
    program, failed = sys.argv[1], 0
    native = (platform.system(), platform.machine()) == ("Linux", "x86_64")
    with tempfile.TemporaryDirectory() as work:
        object_path, path = os.path.join(work, "object"), os.path.join(work, "image")
        with open(object_path, "wb") as file:
            file.write(made().file())
        for seed in (0, 1, 2**64 - 1):
            with open(path, "wb") as file:
                laid = subprocess.run([program, "lay", object_path, "--layout-seed", str(seed)], stdout=file, stderr=subprocess.PIPE, check=False)
            os.chmod(path, 0o755)
            ours = subprocess.run([program, "run", path, "--steps", "1000"], stdin=subprocess.DEVNULL, stdout=subprocess.PIPE, stderr=subprocess.PIPE, check=False)
            # write gives 2, with which the program ends
            if laid.returncode != 0 or (ours.stdout, ours.stderr) != (b"OK", b"ended 2\n"):
                print(f"seed {seed}: {laid.stderr!r} {ours.stdout!r} {ours.stderr!r}")
                failed += 1
            if native:
                process = subprocess.run([path], stdin=subprocess.DEVNULL, stdout=subprocess.PIPE, check=False)
                if (process.stdout, process.returncode) != (b"OK", 2):
                    print(f"seed {seed}, as a process: {process.stdout!r} {process.returncode}")
                    failed += 1
    print(f"all kinds of slots in three layouts, {failed} differences")
    return 1 if failed else 0


if __name__ == "__main__":
    sys.exit(main())
