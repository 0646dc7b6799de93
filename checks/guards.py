"""A return under an observer who overwrites its word on the stack, in an object without guards and in its guarded form.

Both objects push the address of a slot and return, and the function to which that leads ends the program with status 7. The observer
writes another word between the push and the return. Forms and the guard are written here from docs/object-format.md.
"""

import os
import struct
import subprocess
import sys
import tempfile

PROGRAM = sys.argv[1]
STATUS = 7
PUSHED_AT = 0xBFFFFFF8
AFTER_PUSH = 3
MANY = 60
SEEDS = ["3", "4", "5"]

# Where three slots may stand; the slot seed draws which of them is where.
PLACES = [0x10000000, 0x10000010, 0x10000020]
# ret, and what stands for it around the guard: pop r11; jmp r11
RETURN, POP, JUMP = bytes.fromhex("c3"), bytes.fromhex("415b"), bytes.fromhex("41ffe3")
# mov rax, 60; mov rdi, 7; jmp to the slot of system calls; ud2
LAST = bytes.fromhex("b83c000000bf07000000e9000000000f0b")
LAST_LINK, LAST_BACK = 11, 15


def front(word):
    """mov rax, the word; push rax"""
    return b"\xb8" + struct.pack("<I", word) + b"\x50"


def guard(slots):
    counted = struct.pack("<I", 16 * slots).hex()
    return bytes.fromhex(f"4d89da4981ea000000104981fa{counted}0f82020000000f0b4981e20f0000000f840f0000004981fa050000000f84020000000f0b")


def object_file(first):
    """Two functions, and three slots: the entry, a jump to the second function, and a system call of it."""
    parts = [b"RDO1", struct.pack("<IQQ4I", 1, 0, 0, 2, 3, 0, 0)]
    parts.append(struct.pack("<3I", 0, len(first), 0) + first)
    parts.append(struct.pack("<3I", 0, len(LAST), 1) + LAST + struct.pack("<2I", LAST_LINK, 2))
    parts += [struct.pack("<4I", *slot) for slot in ((0, 0, 0, 0), (1, 1, 0, 0), (4, 0, 1, LAST_BACK))]
    return b"".join(parts)


def asked(*words):
    """The status, what was written and the line."""
    done = subprocess.run([PROGRAM, *words], stdin=subprocess.DEVNULL, capture_output=True)
    return done.returncode, done.stdout, done.stderr.decode()


class Work:
    """An object and its images in a folder."""

    def __init__(self, folder, name, content):
        self.folder, self.name = folder, name
        self.object = self.put("object", content)
        self.images = [self.put(f"image-{seed}", asked("lay", self.object, "--layout-seed", seed)[1]) for seed in SEEDS]

    def put(self, part, content):
        path = os.path.join(self.folder, f"{self.name}-{part}")
        with open(path, "wb") as file:
            file.write(content)
        return path

    def is_ending(self, image):
        return asked("run", image, "--steps", str(MANY))[2] == f"ended {STATUS}\n"

    def ends(self, word):
        """How each image stands where this word was written over the pushed one."""
        line = f"{AFTER_PUSH} write {PUSHED_AT:x} {struct.pack('<Q', word).hex()}\n{MANY} read {PUSHED_AT:x} 8\n"
        script = self.put("script", line.encode())
        reports = [asked("watch", image, "--script", script) for image in self.images]
        return [(status, report.decode().splitlines()[-1:]) for status, report, _ in reports]


def code_start(image):
    """The address of the segment with the code, which the layout seed draws."""
    with open(image, "rb") as file:
        content = file.read()
    segments = [struct.unpack_from("<2I6Q", content, 64 + 56 * n) for n in range(struct.unpack_from("<H", content, 56)[0])]
    return max(address for kind, rights, _, address, *_ in segments if kind == 1 and rights == 1)


def main():
    problems = []
    with tempfile.TemporaryDirectory() as folder:
        tried = [Work(folder, f"plain-{word:x}", object_file(front(word) + RETURN)) for word in PLACES]
        ending = [(word, work) for word, work in zip(PLACES, tried) if all(map(work.is_ending, work.images))]
        if len(ending) != 1:
            print(f"{len(ending)} slots lead to the function that ends the program")
            return 1
        word, plain = ending[0]
        guarded = Work(folder, "guarded", object_file(front(word) + POP + guard(3) + JUMP))
        for work, wanted in ((plain, (24, b"", "guard 1 function 0 6\n")), (guarded, (0, b"", "guarded\n"))):
            if asked("certify", work.object) != wanted:
                problems.append(f"{work.name}: certify says {asked('certify', work.object)}")
            problems += [f"{image}: it doesn't end with {STATUS}" for image in work.images if not work.is_ending(image)]
        words = [code_start(image) for image in plain.images + guarded.images]
        words += [0, 0x0FFFFFFF, 0x10000011, 0x1000002F, 0x10000030, 0x30000000, PUSHED_AT, 2**64 - 1]
        if all(len(set(map(str, plain.ends(word)))) == 1 for word in words):
            problems.append("no word tells layouts of the object without guards apart")
        if not all(" pagefault " in str(end) for end in plain.ends(words[-1])):
            problems.append("the object without guards is not led astray")
        for word in words:
            for status, last in guarded.ends(word):
                if status != 0 or not last or " invalid " not in last[0]:
                    problems.append(f"guarded, word {word:x}: {status} {last}")
    for problem in problems:
        print(problem)
    print(f"{len(words)} words over the pushed one, {len(problems)} problems")
    return 1 if problems else 0


if __name__ == "__main__":
    sys.exit(main())
