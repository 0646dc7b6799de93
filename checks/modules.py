"""Random modules of one block: their images end, as processes and on the machine, with the status that the module means."""

import os
import random
import subprocess
import sys
import tempfile

EDGES = [0, 1, -1, 2, 255, 256, 2**31 - 1, -(2**31), 2**32 - 1]
OPERATIONS = {"add": lambda a, b: a + b, "sub": lambda a, b: a - b, "mul": lambda a, b: a * b}


def module(rng):
    """A text, and the status that it means."""
    values, lines = [], []

    def operand():
        if values and rng.random() < 0.7:
            k = rng.randrange(len(values))
            return f"%v{k}", values[k]
        n = rng.choice(EDGES) if rng.random() < 0.5 else rng.randrange(-(2**31), 2**32)
        return str(n), n

    for k in range(rng.choice([0, 1, 2, 5, 40, 300])):
        name = rng.choice(list(OPERATIONS))
        (left, a), (right, b) = operand(), operand()
        lines.append(f"%v{k} = {name} i32 {left}, {right}\n")
        values.append(OPERATIONS[name](a, b) % 2**32)
    result, n = operand()
    return "define i32 @main() {\n" + "".join(lines) + f"ret i32 {result}\n}}\n", n % 256


def main():
    program, seed, count = sys.argv[1], int(sys.argv[2]), int(sys.argv[3])
    rng = random.Random(seed)
    failed = 0
    with tempfile.TemporaryDirectory() as work:
        text, image = os.path.join(work, "module.ll"), os.path.join(work, "image")
        for _ in range(count):
            source, want = module(rng)
            with open(text, "w") as file:
                file.write(source)
            seeds = [str(rng.getrandbits(64)) for _ in range(3)]
            words = [program, "build", text, "--slot-seed", seeds[0], "--reg-seed", seeds[1], "--layout-seed", seeds[2]]
            with open(image, "wb") as file:
                built = subprocess.run(words, stdout=file, check=False).returncode
            os.chmod(image, 0o755)
            native = subprocess.run([image], check=False).returncode if built == 0 else None
            ours = subprocess.run([program, "run", image, "--steps", "100000"], stderr=subprocess.PIPE, check=False)
            if native != want or ours.stderr != b"ended %d\n" % want:
                print("differs:", built, want, native, ours.stderr, source[:400])
                failed += 1
    print(f"{count} modules, {failed} differences")
    return 1 if failed else 0


if __name__ == "__main__":
    sys.exit(main())
