"""Costs of the commands as ratios, each of two measurements of this run: growth from n to 4n, and against other programs.

Usage: python3 bench/bench.py [RUNS]; the program has to be built (./read_main does it). A measurement is the least of
RUNS runs, since other work on the machine only adds; what is missing here is left out and says so.
"""

import os
import shutil
import struct
import subprocess
import sys
import tempfile
import time

import evaluating
import machine
import passes
import programs
import reading
import verifier

HERE = os.path.dirname(os.path.abspath(__file__))
PROGRAM = os.path.join(HERE, "..", "crates", "read_main", "out", "read_main")
SEEDS = ["--slot-seed", "1", "--reg-seed", "2"]


def module(count):
    """The text of a module of that many instructions, each from two results before it."""
    lines = ["%v0 = add i32 1, 2"] + [f"%v{i} = mul i32 %v{i - 1}, %v{i // 2}" for i in range(1, count)]
    return ("define i32 @main() {\n" + "\n".join(lines) + f"\nret i32 %v{count - 1}\n}}\n").encode()


def code_object(size, slots=1):
    """An object of one function of that many bytes, a row of `mov rax, rbx` and `ud2`, with Jump slots behind the Entry."""
    code = b"\x48\x89\xd8" * (size // 3) + b"\x0f\x0b"
    header = b"RDO1" + struct.pack("<IQQIIII", 1, 1, 2, 1, slots, 0, 0)
    function = struct.pack("<III", 0, len(code), 0) + code
    return header + function + struct.pack("<IIII", 0, 0, 0, 0) + struct.pack("<IIII", 1, 0, 0, 0) * (slots - 1)


def code_in_pieces(count):
    """An object of one function in so many pieces of 512 bytes, each a row of `mov rax, rbx` and a jump to the next one."""
    code = (b"\x48\x89\xd8" * 169 + b"\xe9\0\0\0\0") * (count - 1) + b"\x48\x89\xd8" * 170 + b"\x0f\x0b"
    header = b"RDO1" + struct.pack("<IQQIIII", 2, 1, 2, 1, 1, 0, 0)
    cuts = struct.pack(f"<{count - 1}I", *range(512, len(code), 512))
    return header + struct.pack("<IIII", 0, len(code), 0, count - 1) + code + cuts + struct.pack("<IIII", 0, 0, 0, 0)


def loop_image(turns, rights):
    """An image that counts down from `turns` by two instructions a turn, and ends with 0."""
    code = b"\x48\xb9" + struct.pack("<Q", turns)  # mov rcx, turns
    code += b"\x48\x81\xe9" + struct.pack("<i", 1)  # sub rcx, 1
    code += b"\x0f\x85" + struct.pack("<i", -13)  # jne to the sub
    code += b"\xb8" + struct.pack("<I", 60) + b"\xbf" + struct.pack("<I", 0) + b"\x0f\x05"  # exit(0)
    header = b"\x7fELF\x02\x01\x01" + bytes(9) + struct.pack("<HHIQQQIHHHHHH", 2, 62, 1, 0x10000000, 64, 0, 0, 64, 56, 1, 0, 0, 0)
    segment = struct.pack("<IIQQQQQQ", 1, rights, 4096, 0x10000000, 0x10000000, len(code), len(code), 4096)
    return (header + segment).ljust(4096, b"\0") + code


class Bench:
    def __init__(self, work, runs):
        self.work, self.runs = work, runs

    def file(self, name, content):
        path = os.path.join(self.work, name)
        with open(path, "wb") as file:
            file.write(content)
        os.chmod(path, 0o755)
        return path

    def seconds(self, words, runs=None):
        least = float("inf")
        for _ in range(runs or self.runs):
            begin = time.monotonic()
            subprocess.run(words, stdin=subprocess.DEVNULL, stdout=subprocess.DEVNULL, stderr=subprocess.DEVNULL, check=False)
            least = min(least, time.monotonic() - begin)
        return least

    def output(self, name, words):
        done = subprocess.run(words, stdout=subprocess.PIPE, check=True)
        return self.file(name, done.stdout)

    def row(self, what, seconds, other, other_seconds):
        print(f"{what:<52} {seconds * 1e3:>9.2f} ms  {seconds / other_seconds:>8.2f} times {other} ({other_seconds * 1e3:.2f} ms)")

    def compile_and_lay(self):
        texts = {n: self.file(f"{n}.ll", module(n)) for n in (1, 1000, 4000)}
        objects = {n: self.output(f"{n}.obj", [PROGRAM, "compile", path, *SEEDS]) for n, path in texts.items()}
        start = self.seconds([PROGRAM, "compile", texts[1], *SEEDS])
        few, many = (self.seconds([PROGRAM, "compile", texts[n], *SEEDS]) for n in (1000, 4000))
        self.row("compile, 4,000 instructions less what 1 costs", many - start, "1,000 instructions", few - start)
        copy = self.seconds(["cp", texts[4000], os.path.join(self.work, "copy")])
        self.row("compile, 4,000 instructions", many, "copying the text", copy)
        self.against_llc(texts[4000], many, "4,000 instructions")
        start, few, many = (self.seconds([PROGRAM, "lay", objects[n], "--layout-seed", "3"]) for n in (1, 1000, 4000))
        self.row("lay, the object of 4,000 instructions less that of 1", many - start, "that of 1,000", few - start)

    def whole_modules(self):
        """Modules with every kind of type, value and instruction that compilers write often."""
        texts = {n: self.file(f"functions-{n}.ll", reading.module(n)) for n in (1, 64, 256)}
        start, few, many = (self.seconds([PROGRAM, "compile", texts[n], *SEEDS], 5) for n in (1, 64, 256))
        self.row("compile, 256 functions less one", many - start, "64", few - start)
        checked = self.seconds([PROGRAM, "check", texts[256]], 5)
        self.row("compile, 256 functions", many, "checking them", checked)
        self.against_llc(texts[256], many, "256 functions", "-opaque-pointers")

    def against_llc(self, text, ours, what, *more):
        words = ["llc", "-O0", *more, "-filetype=obj", "-o", os.path.join(self.work, "llc.o"), text]
        if shutil.which("llc") is None or subprocess.run(words, stderr=subprocess.DEVNULL, check=False).returncode:
            print("left out: llc")
            return
        self.row(f"compile, {what}", ours, "llc -O0", self.seconds(words, 10))

    def big_objects(self):
        size = 4 << 20
        few, many = (self.file(f"code-{n}.obj", code_object(n)) for n in (size, 4 * size))
        costs = [self.seconds([PROGRAM, "lay", path, "--layout-seed", "3"], 5) for path in (few, many)]
        self.row("lay, 16 MiB of code", costs[1], "4 MiB", costs[0])
        copy = self.seconds(["cp", many, os.path.join(self.work, "copy")], 5)
        self.row("lay, 16 MiB of code", costs[1], "copying the object", copy)
        few, many = (self.file(f"pieces-{n}.obj", code_in_pieces(n)) for n in (1 << 15, 1 << 17))
        costs = [self.seconds([PROGRAM, "lay", path, "--layout-seed", "3"], 3) for path in (few, many)]
        self.row("lay, 64 MiB of code in 131,072 pieces", costs[1], "16 MiB in 32,768", costs[0])
        copy = self.seconds(["cp", many, os.path.join(self.work, "copy")], 3)
        self.row("lay, 64 MiB of code in 131,072 pieces", costs[1], "copying the object", copy)
        few, many = (self.file(f"slots-{n}.obj", code_object(3, n)) for n in (1 << 18, 1 << 20))
        costs = [self.seconds([PROGRAM, "lay", path, "--layout-seed", "3"], 5) for path in (few, many)]
        self.row("lay, 2^20 slots", costs[1], "2^18", costs[0])

    def machine(self):
        def per_turn(command, turns, rights=1):
            costs = []
            for count in (1, turns):
                path = self.file(f"loop-{count}-{rights}", loop_image(count, rights))
                costs.append(self.seconds(command(path), 5))
            return (costs[1] - costs[0]) / turns, costs[0]

        ours, start = per_turn(lambda path: [PROGRAM, "run", path, "--steps", str(2**64 - 1)], 1_000_000)
        again, _ = per_turn(lambda path: [PROGRAM, "run", path, "--steps", str(2**64 - 1)], 4_000_000)
        self.row("run, 8,000,000 instructions", again * 4e6, "2,000,000", ours * 1e6)
        native, _ = per_turn(lambda path: [path], 500_000_000)
        self.row("run, 2,000,000 instructions", ours * 1e6, "the processor", native * 1e6)
        if shutil.which("valgrind") is None:
            print("left out: valgrind")
        else:
            # It reads the code that it translates, so the code has to be readable.
            theirs, _ = per_turn(lambda path: ["valgrind", "--tool=none", "-q", path], 50_000_000, 5)
            self.row("run, 2,000,000 instructions", ours * 1e6, "valgrind's translation", theirs * 1e6)
        print(f"run: {2 / ours / 1e6:.1f} million instructions a second; an image starts in {start * 1e3:.1f} ms")


def main():
    if not os.path.exists(PROGRAM):
        print("left out: the program is not built")
        return 0
    with tempfile.TemporaryDirectory() as work:
        bench = Bench(work, int(sys.argv[1]) if len(sys.argv) > 1 else 100)
        bench.compile_and_lay()
        bench.whole_modules()
        bench.big_objects()
        bench.machine()
    print()
    return verifier.main() or reading.main() or passes.main() or evaluating.main() or machine.main() or programs.main()


if __name__ == "__main__":
    sys.exit(main())
