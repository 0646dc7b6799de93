"""Instructions a second of `run` at short loops, against the same images run by the processor and, where it is there,
by qemu-x86_64. Each figure is the growth from few turns to many, so that no start counts.

Usage: python3 bench/machine.py [PROGRAM]; without one, the program that ./read_main builds.
"""

import os
import shutil
import struct
import subprocess
import sys
import tempfile

HERE = os.path.dirname(os.path.abspath(__file__))
BUILT = os.path.join(HERE, "..", "crates", "read_main", "out", "read_main")
SLOTS, DATA, CODE = 0x1000_0000, 0x3000_0000, 0x4000_0000
EXIT = b"\xb8" + struct.pack("<I", 60) + b"\xbf" + struct.pack("<I", 0) + b"\x0f\x05"
COUNT_DOWN = b"\x49\x81\xe8" + struct.pack("<i", 1)  # sub r8, 1


def looped(turns, body):
    """Code that does something so many times, counted in r8, and ends with 0."""
    back = struct.pack("<i", -(len(body) + len(COUNT_DOWN) + 6))
    return b"\x49\xb8" + struct.pack("<Q", turns) + body + COUNT_DOWN + b"\x0f\x85" + back + EXIT


def arithmetic(turns):
    """Eight instructions a turn on registers."""
    body = b"\x48\x01\xd8" + b"\x48\x31\xc1" + b"\x48\x89\xc2" + b"\x48\x8d\x9a" + struct.pack("<i", 24)
    body += b"\x48\x29\xce" + b"\x48\x81\xe7" + struct.pack("<i", 255)
    return looped(turns, body), 8


def loads_and_stores(turns):
    """Eight instructions a turn: words of the data and of the stack, of 64 and of 8 bits."""
    data = b"\x48\x8b\x85" + struct.pack("<i", 8) + b"\x48\x89\x85" + struct.pack("<i", 16)
    stack = b"\x48\x89\x84\x24" + struct.pack("<i", -16) + b"\x48\x8b\x8c\x24" + struct.pack("<i", -16)
    low = b"\x0f\xb6\x95" + struct.pack("<i", 16) + b"\x40\x88\x95" + struct.pack("<i", 24)
    code, count = looped(turns, data + stack + low), 8
    return b"\xbd" + struct.pack("<I", DATA) + code, count


def calls_by_slots(turns):
    """Seven instructions a turn: a call of a slot, its jump, two pushes and pops, and the return."""
    call = b"\xe8" + struct.pack("<i", SLOTS - (CODE + 15))
    function = b"\x50\x59\xc3"
    code = looped(turns, call)
    at = CODE + len(code)
    slot = b"\xe9" + struct.pack("<i", at - (SLOTS + 5))
    return code + function, 7, slot


def image(code, slot=b""):
    """An image of slots, data and code, which the processor runs too."""
    parts = [(SLOTS, slot.ljust(16, b"\xcc"), 1), (DATA, bytes(64), 6), (CODE, code, 1)]
    head = b"\x7fELF\x02\x01\x01" + bytes(9)
    head += struct.pack("<HHIQQQIHHHHHH", 2, 62, 1, CODE, 64, 0, 0, 64, 56, len(parts), 0, 0, 0)
    table, content = b"", b""
    for k, (start, part, rights) in enumerate(parts):
        table += struct.pack("<IIQQQQQQ", 1, rights, 4096 * (k + 1), start, start, len(part), len(part), 4096)
        content += part.ljust(4096, b"\0")
    return (head + table).ljust(4096, b"\0") + content


def seconds(words, runs=5):
    """The processor's time of the least of some runs, since other work on the machine only adds to the clock's."""
    least = float("inf")
    for _ in range(runs):
        child = subprocess.Popen(words, stdin=subprocess.DEVNULL, stdout=subprocess.DEVNULL, stderr=subprocess.DEVNULL)
        _, status, used = os.wait4(child.pid, 0)
        child.returncode = os.waitstatus_to_exitcode(status)
        if child.returncode:
            raise SystemExit(f"{words} answered {child.returncode}")
        least = min(least, used.ru_utime)
    return least


def per_second(work, loop, few, many, command):
    """Millions of instructions a second between few turns and many."""
    costs = []
    for turns in (few, many):
        code, count, *slot = loop(turns)
        path = os.path.join(work, "image")
        with open(path, "wb") as file:
            file.write(image(code, *slot))
        os.chmod(path, 0o755)
        costs.append(seconds(command(path)))
    return count * (many - few) / (costs[1] - costs[0]) / 1e6


def main(command=None):
    command = command or [BUILT, "run"]
    if not os.path.exists(command[0]):
        print("left out: the program is not built")
        return 0
    ours = lambda path: command + ([path, "--steps", str(2**64 - 1)] if command[-1] == "run" else [path])
    with tempfile.TemporaryDirectory() as work:
        for loop in (arithmetic, loads_and_stores, calls_by_slots):
            rate = per_second(work, loop, 1_000_000, 6_000_000, ours)
            native = per_second(work, loop, 100_000_000, 600_000_000, lambda path: [path])
            line = f"{loop.__name__:<20} {rate:>8.1f} million a second; the processor {native:.0f} ({native / rate:.1f} times)"
            if shutil.which("qemu-x86_64"):
                other = per_second(work, loop, 20_000_000, 120_000_000, lambda path: ["qemu-x86_64", path])
                line += f"; qemu-x86_64 {other:.0f} ({other / rate:.1f} times)"
            print(line)
    return 0


if __name__ == "__main__":
    sys.exit(main(sys.argv[1:]))
