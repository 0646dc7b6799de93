"""A part of bench.py: what a step of `eval` costs, as ratios to LLVM's interpreter at the same programs in one run, and as growth
from n to 4n.

The programs are a loop of arithmetic, a recursion, and the sort of an array in memory. Costs are the least processor time of
several runs, less that of a run of no steps; steps are counted by halving the bound at which the program has ended.
"""

import os
import shutil
import sys
import tempfile

from reading import PROGRAM, spent

# Runs of each measurement.
RUNS = 3

LOOP = """define i32 @main() {
entry:
  br label %loop
loop:
  %i = phi i32 [ 0, %entry ], [ %j, %loop ]
  %s = phi i32 [ 1, %entry ], [ %u, %loop ]
  %t = mul i32 %s, 1664525
  %u = add i32 %t, 1013904223
  %j = add i32 %i, 1
  %q = icmp eq i32 %j, COUNT
  br i1 %q, label %out, label %loop
out:
  ret i32 0
}
"""

RECURSION = """define i32 @main() {
  %r = call i32 @f(i32 COUNT)
  ret i32 0
}
define i32 @f(i32 %n) {
entry:
  %q = icmp ult i32 %n, 2
  br i1 %q, label %small, label %more
small:
  ret i32 %n
more:
  %a = sub i32 %n, 1
  %b = call i32 @f(i32 %a)
  %c = sub i32 %n, 2
  %d = call i32 @f(i32 %c)
  %e = add i32 %b, %d
  ret i32 %e
}
"""

SORT = """define i32 @main() {
entry:
  %a = alloca [COUNT x i32]
  br label %fill
fill:
  %i = phi i64 [ 0, %entry ], [ %i2, %fill ]
  %s = phi i32 [ 1, %entry ], [ %s2, %fill ]
  %s1 = mul i32 %s, 1664525
  %s2 = add i32 %s1, 1013904223
  %p = getelementptr [COUNT x i32], ptr %a, i64 0, i64 %i
  store i32 %s2, ptr %p
  %i2 = add i64 %i, 1
  %full = icmp eq i64 %i2, COUNT
  br i1 %full, label %outer, label %fill
outer:
  %k = phi i64 [ 1, %fill ], [ %k2, %placed ]
  %from = getelementptr [COUNT x i32], ptr %a, i64 0, i64 %k
  %x = load i32, ptr %from
  br label %inner
inner:
  %at = phi i64 [ %k, %outer ], [ %below, %moved ]
  %first = icmp eq i64 %at, 0
  br i1 %first, label %placed, label %look
look:
  %below = sub i64 %at, 1
  %pb = getelementptr [COUNT x i32], ptr %a, i64 0, i64 %below
  %y = load i32, ptr %pb
  %less = icmp ult i32 %x, %y
  br i1 %less, label %moved, label %placed
moved:
  %pm = getelementptr [COUNT x i32], ptr %a, i64 0, i64 %at
  store i32 %y, ptr %pm
  br label %inner
placed:
  %there = getelementptr [COUNT x i32], ptr %a, i64 0, i64 %at
  store i32 %x, ptr %there
  %k2 = add i64 %k, 1
  %done = icmp eq i64 %k2, COUNT
  br i1 %done, label %out, label %outer
out:
  ret i32 0
}
"""

# A quarter and the whole of each program's work.
PROGRAMS = [("a loop", LOOP, (250000, 1000000)), ("a recursion", RECURSION, (21, 24)), ("a sort", SORT, (500, 1000))]


def evaluating(path, steps):
    return [PROGRAM, "eval", path, "--steps", str(steps)]


def steps_of(path):
    """How many steps the program takes."""
    low, high = 0, 1 << 26
    while high - low > 1:
        middle = (low + high) // 2
        if spent(evaluating(path, middle), 1)[2] == "going":
            low = middle
        else:
            high = middle
    return high


def interpreter():
    """The words of LLVM's interpreter, where it is there and runs without a compiler."""
    if shutil.which("lli") is None:
        print("left out: lli")
        return None
    return ["lli", "-opaque-pointers", "-jit-kind=mcjit", "-force-interpreter"]


def main():
    if not os.path.exists(PROGRAM):
        print("left out: the program is not built")
        return 0
    theirs = interpreter()
    with tempfile.TemporaryDirectory() as work:
        path = os.path.join(work, "module.ll")
        for name, text, counts in PROGRAMS:
            costs = []
            for count in counts:
                with open(path, "w", encoding="ascii") as file:
                    file.write(text.replace("COUNT", str(count)))
                steps = steps_of(path)
                start, _, _ = spent(evaluating(path, 0), RUNS)
                cost, _, said = spent(evaluating(path, steps), RUNS)
                if said != "ended 0":
                    print(f"{name}: '{said}' in place of 'ended 0'")
                    return 1
                costs.append(((cost - start) / steps, steps))
            print(f"{name + ', a step':<36} {costs[1][0] * 1e9:>8.0f} ns, {costs[1][0] / costs[0][0]:.2f} times that of {costs[0][1]} steps")
            if theirs is not None:
                other, _, said = spent([*theirs, path], RUNS)
                if said:
                    print(f"left out: lli, which says {said!r}")
                    theirs = None
                else:
                    print(f"{name + ', whole':<36} {cost / other:>8.2f} times lli -force-interpreter")
    return 0


if __name__ == "__main__":
    sys.exit(main())
