"""A part of bench.py: what taking phis and switches out of a module costs, as growth from n to 4n.

`low_show` reads and checks a module and then takes both out; what reading and checking cost, as `check` has it, is taken off.
"""

import os
import sys
import tempfile

import reading

HERE = os.path.dirname(os.path.abspath(__file__))
CRATES = os.path.join(HERE, "..", "crates")
SHOW = os.path.join(CRATES, "low_show", "out", "low_show")


def phis(entries):
    """A block of a thousand phis, with as many blocks before it as give so many entries of phis."""
    before = entries // 1000
    switch = "".join(f" i32 {k}, label %b{k}" for k in range(1, before))
    blocks = "".join(f"b{k}: br label %h\n" for k in range(before))
    rows = "".join(f"%p{k} = phi i32 " + ", ".join(f"[ {k + b}, %b{b} ]" for b in range(before)) + "\n" for k in range(1000))
    return f"define i32 @main() {{ e: switch i32 1, label %b0 [{switch} ]\n{blocks}h: {rows}ret i32 %p7 }}"


def cases(count):
    """A switch of so many cases, by turns to four blocks."""
    rows = "".join(f" i32 {(k * 2654435761) % 2**32 - 2**31}, label %b{k % 4}" for k in range(count))
    return f"define i32 @main() {{ e: switch i32 1, label %b0 [{rows} ]\n" + "".join(f"b{k}: ret i32 {k}\n" for k in range(4)) + "}"


def edges(count):
    """So many blocks that lead into one with a phi."""
    blocks = "".join(f"b{k}: br label %h\n" for k in range(count))
    entries = ", ".join(f"[ {k}, %b{k} ]" for k in range(count))
    return f"define i32 @main() {{ e: br label %b0\n{blocks}h: %p = phi i32 {entries}\nret i32 %p }}"


def main(runs=5):
    if not (os.path.exists(SHOW) and os.path.exists(reading.PROGRAM)):
        print("left out: low_show or the program is not built")
        return 0
    with tempfile.TemporaryDirectory() as work:
        path = os.path.join(work, "module.ll")
        for what, text, few in (("entries of a block of phis", phis, 16000), ("cases of a switch", cases, 15000), ("edges into a block of phis", edges, 15000)):
            costs = []
            for count in (few, 4 * few):
                with open(path, "w") as file:
                    file.write(text(count))
                seconds, _, said = reading.spent([reading.PROGRAM, "check", path], runs)
                if said != "valid":
                    print(f"{count} {what}: '{said}' in place of 'valid'")
                    return 1
                costs.append((reading.spent([SHOW, path], runs)[0] - seconds, seconds))
            growth = costs[1][0] / max(costs[0][0], 0.001)
            print(f"{f'{4 * few} {what}':<40} {growth:>8.2f} times {few}, {costs[1][0] / costs[1][1]:.2f} of reading and checking them")
    return 0


if __name__ == "__main__":
    sys.exit(main(*map(int, sys.argv[1:])))
