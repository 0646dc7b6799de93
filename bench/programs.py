"""A part of bench.py: what compiled programs cost. For nine of the C programs of checks/programs/, compiled by clang at -O0 to a
module: how many instructions the image takes for each step of the module's meaning, and, of those that take long enough, the time
of many turns of it as a process of Linux beside that of clang's own program.
"""

import os
import sys
import tempfile
import time

HERE = os.path.dirname(os.path.abspath(__file__))
sys.path.insert(0, os.path.join(HERE, "..", "checks"))
import clang
import compiled

PROGRAMS = ["sort", "sieve", "matrices", "fibonacci", "text", "hashes", "queens", "collatz", "dispatch"]
SEEDS = ("1", "2", "3")
# Programs of fewer instructions mostly print, and so many seconds are no more than what a process costs.
LEAST, TIMED, START = 50_000, 200_000_000, 0.003


def going(words, count):
    return clang.run([*words, "--steps", str(count)], clang.INPUT)[2] == b"going\n"


def steps(words):
    """The least number of steps after which a run isn't going."""
    low, high = 0, 1
    while going(words, high):
        low, high = high, 2 * high
    while high - low > 1:
        middle = (low + high) // 2
        low, high = (middle, high) if going(words, middle) else (low, middle)
    return high


def made(source, work):
    """The image and clang's program of a C program."""
    module, native, image = (os.path.join(work, it) for it in ("module.ll", "native", "image"))
    failed = clang.module_of(source, module) or compiled.built(module, SEEDS, image)
    if failed or clang.run(["clang", "-w", "-O0", source, "-o", native])[0]:
        raise ValueError(f"{source}: not built: {failed}")
    return module, image, native


def seconds(path, runs):
    least = float("inf")
    for _ in range(runs):
        begin = time.monotonic()
        clang.run([path], clang.INPUT)
        least = min(least, time.monotonic() - begin)
    return least


def in_turns(path, turns, work):
    """A program that is another one, so many times."""
    source = os.path.join(work, "turns.c")
    with open(source, "w") as file:
        file.write(f'#define main once\n#include "{path}"\n#undef main\n')
        file.write(f"int main(void) {{ int last = 0; for (int k = 0; k < {turns}; k++) last = once(); return last; }}\n")
    return source


def main(runs=5):
    if not clang.are_here("clang"):
        return 0
    with tempfile.TemporaryDirectory() as work:
        for name, path in clang.programs():
            if name[:-2] not in PROGRAMS:
                continue
            module, image, _ = made(path, work)
            taken, meant = steps([compiled.PROGRAM, "run", image]), steps([compiled.PROGRAM, "eval", module])
            line = f"{name:<14} {taken:>9} instructions, {taken / meant:.2f} for each of {meant} steps of its meaning"
            if compiled.NATIVE and taken >= LEAST:
                _, image, native = made(in_turns(path, TIMED // taken, work), work)
                theirs = seconds(native, runs)
                if theirs > START:
                    line += f"; {seconds(image, runs) / theirs:.2f} times clang -O0 ({theirs * 1e3:.0f} ms)"
            print(line)
    return 0


if __name__ == "__main__":
    sys.exit(main(*map(int, sys.argv[1:])))
