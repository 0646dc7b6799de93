"""A part of bench.py: how `lay` and the verifier grow: costs of an object four times as large over those of the smaller one, in one run.

Near 4 or less is linear. What the verifier costs is told by an object whose last function breaks one of the last two rules,
less one that breaks the first rule before any code is looked at; what decoding alone costs, by one that has no
instruction at its very end. Each cost is processor time, the least of several runs, since other work on the machine only adds to it.
"""

import os
import resource
import subprocess
import sys
import tempfile

HERE = os.path.dirname(os.path.abspath(__file__))
sys.path.insert(0, os.path.join(HERE, "..", "checks"))

from objects import JUMP, NOP, PLAIN, RET, SAVES, START, UD2, Object, if_not, push, set_word
from processor import at, pair

PROGRAM = os.path.join(HERE, "..", "crates", "read_main", "out", "read_main")
TAKEN, VERIFIED, DECODED, READ = "taken", "verified", "decoded", "read"
# What `lay` has to say of each, so that a ratio is one of what it is named for.
SAYS = {TAKEN: "", VERIFIED: ("shape 8 function", "shape 9 function"), DECODED: "shape 2 function", READ: "shape 1 whole"}

CODE = {
    "one byte": NOP,
    "registers": pair(b"\x01", 1, 0, 1),
    "memory": at(b"\x8b", 1, 0, 2, 8),
    "constants": set_word(1, 2),
    "branches": if_not(4, -6),
    "pushes": push(12),
}


def of_code(what, part, size):
    """One function of about so many bytes."""
    code = part * (size // len(part)) + (b"\x0f\x0b\xea" if what == DECODED else UD2)
    return Object([(SAVES if what == VERIFIED else PLAIN, code, [])], [] if what == READ else [START])


def of_links(what, size):
    """One function of branches, each with a link."""
    count = size // 6
    code = if_not(4) * count + (b"\x0f\x0b\xea" if what == DECODED else UD2)
    return Object([(SAVES if what == VERIFIED else PLAIN, code, [(6 * n + 2, 0) for n in range(count)])], [] if what == READ else [START])


def of_functions(what, count):
    """So many functions of 1,000 bytes."""
    last = b"\xea" if what == DECODED else RET
    return Object([(PLAIN, NOP * 999 + RET, [])] * (count - 1) + [(SAVES if what == VERIFIED else PLAIN, last, [])], [] if what == READ else [START])


def of_cuts(what, count):
    """One function of so many instructions and one more, cut before each; a cut at its end is one too many."""
    code = RET * count + (b"\xea" if what == DECODED else RET)
    return Object([(PLAIN, code, [], list(range(1, count + 1 + (what == VERIFIED))))], [] if what == READ else [START])


def of_slots(what, count):
    """So many slots; that they are read from the file is a part of what their verification costs."""
    code = b"\xea" if what == DECODED else RET
    slots = [START] + [(JUMP, 0, 0, 0)] * (count - 1)
    return Object([(SAVES if what == VERIFIED else PLAIN, code, [])], [] if what == READ else slots)


class Bench:
    def __init__(self, work, times):
        self.path, self.times = os.path.join(work, "object"), times

    def cost(self, make, what, size):
        with open(self.path, "wb") as file:
            file.write(make(what, size).file())
        least = float("inf")
        for _ in range(self.times):
            before = resource.getrusage(resource.RUSAGE_CHILDREN)
            ran = subprocess.run([PROGRAM, "lay", self.path, "--layout-seed", "1"], stdout=subprocess.DEVNULL, stderr=subprocess.PIPE, check=False)
            after = resource.getrusage(resource.RUSAGE_CHILDREN)
            least = min(least, after.ru_utime + after.ru_stime - before.ru_utime - before.ru_stime)
        said = ran.stderr.decode()
        if not said.startswith(SAYS[what]) or bool(said) != bool(SAYS[what]):
            sys.exit(f"another answer: {said}")
        return least

    def row(self, name, make, size, has_decoding):
        few, many = ({what: self.cost(make, what, n) for what in SAYS} for n in (size, 4 * size))
        lay = many[TAKEN] / few[TAKEN]
        verified = [costs[VERIFIED] - costs[READ] for costs in (few, many)]
        decoded = many[DECODED] - many[READ]
        share = f"{verified[1] / decoded:10.2f}" if has_decoding else "         -"
        print(f"{name:<10} {size:>9} {lay:12.2f} {verified[1] / verified[0]:12.2f} {share}", flush=True)


def main(times=9):
    print("ratios     n         lay 4n / n   verify 4n/n   verify / decode, at 4n")
    with tempfile.TemporaryDirectory() as work:
        bench = Bench(work, times)
        for name, part in CODE.items():
            bench.row(name, lambda what, size, part=part: of_code(what, part, size), 2**20, True)
        bench.row("links", of_links, 2**20, True)
        bench.row("functions", of_functions, 1028, False)
        bench.row("cuts", of_cuts, 32767, False)
        bench.row("slots", of_slots, 2**18, False)
    return 0

