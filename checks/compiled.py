"""The C programs of programs/ as images: clang makes a module of each, which is built with several seeds. What an image prints and
its status, on the machine and as a process of Linux, are those of the program that clang compiles.

What clang.py and meaning.py say of these programs holds here, too.
"""

import os
import platform
import sys
import tempfile
from concurrent.futures import ThreadPoolExecutor

import clang

PROGRAM = os.path.join(clang.HERE, "..", "crates", "read_main", "out", "read_main")
STEPS = "100000000"
# of slots, of registers and of the layout
SEEDS = [("1", "2", "3"), ("4", "5", "6"), ("18446744073709551615", "0", "9")]
NATIVE = (platform.system(), platform.machine()) == ("Linux", "x86_64")


def built(module, seeds, image):
    """Builds the image of a module; what is said where that fails."""
    slots, registers, layout = seeds
    words = [PROGRAM, "build", module, "--slot-seed", slots, "--reg-seed", registers, "--layout-seed", layout]
    code, out, said = clang.run(words)
    if code:
        return said or b"status %d" % code
    with open(image, "wb") as file:
        file.write(out)
    os.chmod(image, 0o755)
    return b""


def on_the_machine(image):
    """The status of a run that ended and what it printed, or its line."""
    code, out, said = clang.run([PROGRAM, "run", image, "--steps", STEPS], clang.INPUT)
    if code == 0 and said.startswith(b"ended "):
        return int(said.split()[1]), out
    return said


def problems_of(name, path):
    """What an image of this program does otherwise."""
    found = []
    with tempfile.TemporaryDirectory() as work:
        module, native, image = (os.path.join(work, it) for it in ("module.ll", "native", "image"))
        failed = clang.module_of(path, module)
        code, _, said = clang.run(["clang", "-w", "-O0", path, "-o", native])
        if failed or code:
            return [f"{name}: {failed or said}"]
        wanted = clang.run([native], clang.INPUT)[:2]
        for seeds in SEEDS:
            failed = built(module, seeds, image)
            if failed:
                found.append(f"{name}, seeds {seeds}: not built: {failed}")
                continue
            done = on_the_machine(image)
            if done != wanted:
                found.append(f"{name}, seeds {seeds}: the machine gives {done}, clang's program {wanted}")
            if NATIVE:
                done = clang.run([image], clang.INPUT)[:2]
                if done != wanted:
                    found.append(f"{name}, seeds {seeds}: the process gives {done}, clang's program {wanted}")
    return found


def main():
    if not clang.are_here("clang"):
        return 0
    if not NATIVE:
        print("left out: images as processes of Linux on x86-64")
    programs = clang.programs()
    with ThreadPoolExecutor(os.cpu_count()) as pool:
        found = [it for some in pool.map(lambda it: problems_of(*it), programs) for it in some]
    for problem in found:
        print(problem)
    print(f"{len(programs)} compiled programs under {len(SEEDS)} seeds, {len(found)} problems")
    return 1 if found else 0


if __name__ == "__main__":
    sys.exit(main())
