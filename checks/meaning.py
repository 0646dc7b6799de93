"""The meaning of modules beside a real compiler: the C programs of programs/ are compiled by clang at -O0 and run natively, and
the modules that clang makes of them are taken by `eval`; what they print and their statuses are the same.

No program there divides by zero or shifts by as much as a width, since C leaves open what that does and the meaning doesn't.
None depends on where its objects lie, or reads what it never wrote, for the same reason.
"""

import os
import sys
import tempfile

import clang

PROGRAM = os.path.join(clang.HERE, "..", "crates", "read_main", "out", "read_main")
STEPS = "100000000"


def natively(path, target):
    """What the program prints and its status, compiled as it is."""
    code, _, said = clang.run(["clang", "-w", "-O0", path, "-o", target])
    if code:
        return said
    return clang.run([target], clang.INPUT)[:2]


def by_meaning(path, module):
    """The same by `eval`; where the run did not end, its line."""
    failed = clang.module_of(path, module)
    if failed:
        return failed
    code, out, said = clang.run([PROGRAM, "eval", module, "--steps", STEPS], clang.INPUT)
    if code == 0 and said.startswith(b"ended "):
        return int(said.split()[1]), out
    return said


def main():
    if not clang.are_here("clang"):
        return 0
    problems = 0
    with tempfile.TemporaryDirectory() as work:
        for name, path in clang.programs():
            meant = by_meaning(path, os.path.join(work, "module.ll"))
            done = natively(path, os.path.join(work, "native"))
            if meant != done:
                problems += 1
                print(f"{name}: the meaning gives {meant}, clang's program {done}")
    print(f"{len(clang.programs())} programs, {problems} problems")
    return 1 if problems else 0


if __name__ == "__main__":
    sys.exit(main())
