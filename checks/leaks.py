"""What can be read of a compiled program leaks no address of code: at each of its first steps, all readable memory and all registers
are the same in two layouts, and no eight bytes in a row are an address inside the image's code. Pointers to functions are addresses
of slots, and ways back those of slots plus 5.
"""

import os
import struct
import subprocess
import sys
import tempfile
from concurrent.futures import ThreadPoolExecutor

from compiled import PROGRAM, built

STEPS = 1000
SLOTS, SLOT, DATA, CODE = 0x10000000, 16, 0x30000000, 0x40000000
# The program calls by slots and by a pointer, stores pointers, and prints.
MODULE = b"""
declare i32 @putchar(i32)
@table = global [2 x ptr] [ ptr @odd, ptr @even ]
define void @odd(i32 %n) {
  %c = add i32 %n, 97
  %p = call i32 @putchar(i32 %c)
  ret void
}
define void @even(i32 %n) {
  %c = add i32 %n, 65
  %p = call i32 @putchar(i32 %c)
  ret void
}
define i32 @main() {
entry:
  %kept = alloca ptr
  br label %loop
loop:
  %n = phi i32 [ 0, %entry ], [ %next, %loop ]
  %bit = and i32 %n, 1
  %at = getelementptr [2 x ptr], ptr @table, i32 0, i32 %bit
  %f = load ptr, ptr %at
  store ptr %f, ptr %kept
  %g = load ptr, ptr %kept
  call void %g(i32 %n)
  %next = add i32 %n, 1
  %more = icmp ult i32 %next, 26
  br i1 %more, label %loop, label %done
done:
  ret i32 0
}
"""


def code_range(image):
    """Where the image's code begins and ends, but for its slots."""
    with open(image, "rb") as file:
        head = file.read(64 + 56 * 8)
    (count,) = struct.unpack_from("<H", head, 56)
    headers = [struct.unpack_from("<IIQQQQQQ", head, 64 + 56 * i) for i in range(count)]
    starts = [(h[3], h[3] + h[5]) for h in headers if h[3] >= CODE]
    return starts[0]


def shown(image, steps):
    return subprocess.run([PROGRAM, "show", image, "--steps", str(steps)], stdout=subprocess.PIPE, check=True).stdout


def memory(text):
    """The bytes that a text shows, in rows that follow one another, and its registers."""
    rows, end = [], None
    for line in text.decode().splitlines():
        words = line.split()
        if len(words) != 2 or len(words[-1]) % 2 or not all(c in "0123456789abcdef" for c in words[-1]):
            continue
        if len(words[0]) != 16:
            rows.append(bytes.fromhex(words[1])[::-1])
            continue
        place, content = int(words[0], 16), bytes.fromhex(words[1])
        if place == end:
            rows[-1] += content
        else:
            rows.append(content)
        end = place + len(content)
    return rows


def leaked(text, low, high):
    """An address of code among these bytes."""
    for row in memory(text):
        for at in range(len(row) - 7):
            (word,) = struct.unpack_from("<Q", row, at)
            if low <= word < high:
                return word
    return None


def word_at(text, place):
    """The eight bytes at a place that is a multiple of eight, as a number."""
    row, half = place // 16 * 16, place % 16
    for line in text.decode().splitlines():
        if line.startswith(f"{row:016x} "):
            return int.from_bytes(bytes.fromhex(line.split()[1])[half : half + 8], "little")
    return 0


def leads_to_slots(image):
    """Whether the table of pointers names slots at first, and a word on top of the stack is at some step the way back of a slot."""
    first = shown(image, 0)
    if any(word_at(first, DATA + at) % SLOT or not SLOTS <= word_at(first, DATA + at) < CODE for at in (0, 8)):
        return False
    for steps in range(STEPS):
        text = shown(image, steps)
        (top,) = [int(line.split()[1], 16) for line in text.decode().splitlines() if line.startswith("rsp ")]
        if top % 8 == 0 and SLOTS <= word_at(text, top) < DATA and word_at(text, top) % SLOT == 5:
            return True
    return False


def main():
    found = 0
    with tempfile.TemporaryDirectory() as work:
        module = os.path.join(work, "module.ll")
        with open(module, "wb") as file:
            file.write(MODULE)
        images = []
        for layout in ("3", "4"):
            image = os.path.join(work, f"image-{layout}")
            failed = built(module, ("1", "2", layout), image)
            if failed:
                print("not built:", failed)
                return 1
            images.append((image, *code_range(image)))

        def at(steps):
            texts = [shown(image, steps) for image, _, _ in images]
            if texts[0] != texts[1]:
                return f"after {steps} steps two layouts show different texts"
            for image, low, high in images:
                word = leaked(texts[0], low, high)
                if word is not None:
                    return f"after {steps} steps {word:x} can be read, which is an address of code"
            return None

        if not leads_to_slots(images[0][0]):
            found += 1
            print("pointers or ways back are no slots")
        with ThreadPoolExecutor(os.cpu_count()) as pool:
            for problem in pool.map(at, range(STEPS + 1)):
                if problem:
                    found += 1
                    print(problem)
    print(f"two layouts at {STEPS + 1} places, {found} problems")
    return 1 if found else 0


if __name__ == "__main__":
    sys.exit(main())
