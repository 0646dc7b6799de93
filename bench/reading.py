"""A part of bench.py: what reading the text of a module costs, as growth from n to 4n and as ratios to other programs of one run.

The modules are generated, with every kind of type, value and instruction that compilers write often. `check` reads them whole and
says that they are valid. Costs are the least processor time of several runs; memory is the most that the process held, less what it
holds for one function.
"""

import os
import shutil
import subprocess
import sys
import tempfile

HERE = os.path.dirname(os.path.abspath(__file__))
PROGRAM = os.path.join(HERE, "..", "crates", "read_main", "out", "read_main")
BIG = 8 << 20

HEAD = """source_filename = "generated.c"
%pair = type { i32, [4 x i8], ptr }
@table = internal constant [4 x i32] [ i32 1, i32 -2, i32 3, i32 4 ], align 16
@text = private unnamed_addr constant [6 x i8] c"hello\\00", align 1
@global = global %pair { i32 7, [4 x i8] zeroinitializer, ptr getelementptr inbounds ([6 x i8], ptr @text, i64 0, i64 1) }
declare i32 @putchar(i32)
"""

ROUND = """  %a{k} = add nsw i32 %x{j}, {k}
  %b{k} = getelementptr inbounds %pair, ptr %p, i64 0, i32 1, i64 {small}
  %c{k} = load i8, ptr %b{k}, align 1
  %d{k} = zext i8 %c{k} to i32
  %e{k} = icmp slt i32 %a{k}, %d{k}
  %f{k} = select i1 %e{k}, i32 %a{k}, i32 -{k}
  store i32 %f{k}, ptr %q, align 4
  %x{k} = call i32 @putchar(i32 %f{k})
"""

FUNCTION = """define {linkage}i32 @{name}(i32 %x0, ptr %p) {{
entry:
  %q = alloca i32, align 4
  br label %loop

loop:                                             ; preds = %loop, %entry
  %i = phi i32 [ 0, %entry ], [ %n, %loop ]
{rounds}  %n = add i32 %i, 1
  %t = icmp ult i32 %n, 10
  br i1 %t, label %loop, label %out

out:                                              ; preds = %loop
  switch i32 %n, label %last [
    i32 1, label %last
    i32 -2, label %trap
  ]

trap:                                             ; preds = %out
  unreachable

last:                                             ; preds = %out, %out
  ret i32 %n
}}
"""


def module(functions):
    """The text of a module of that many functions, `main` among them."""
    rounds = "".join(ROUND.format(j=k - 1, k=k, small=k % 4) for k in range(1, 26))
    names = ["main", *(f"function{k}" for k in range(1, functions))]
    return (HEAD + "".join(FUNCTION.format(linkage="internal " if k else "", name=name, rounds=rounds) for k, name in enumerate(names))).encode()


def spent(words, runs):
    """The least processor time of several runs, the most memory in bytes of the last one, and what it said."""
    least = float("inf")
    for _ in range(runs):
        process = subprocess.Popen(words, stdin=subprocess.DEVNULL, stdout=subprocess.DEVNULL, stderr=subprocess.PIPE)
        said = process.stderr.read().decode("latin-1").strip()
        process.stderr.close()
        _, status, used = os.wait4(process.pid, 0)
        process.returncode = os.waitstatus_to_exitcode(status)
        least = min(least, used.ru_utime + used.ru_stime)
    return least, used.ru_maxrss * 1024, said


def others(path, work):
    """Programs that read the same text."""
    yield "copying the file", ["cp", path, os.path.join(work, "copy")]
    for name, words in (("opt -passes=verify", ["opt", "-opaque-pointers", "-passes=verify", "-disable-output", path]), ("llvm-as", ["llvm-as", "-opaque-pointers", "-o", os.devnull, path])):
        if shutil.which(words[0]) is None:
            print(f"left out: {words[0]}")
        elif spent(words, 1)[2]:
            print(f"left out: {words[0]}, which doesn't take the text")
        else:
            yield name, words


def main(runs=5):
    if not os.path.exists(PROGRAM):
        print("left out: the program is not built")
        return 0
    # As many functions as 8 MiB have room for, so that there are a quarter and a sixteenth of them.
    many = BIG // (len(module(2)) - len(module(1))) // 16 * 16
    with tempfile.TemporaryDirectory() as work:
        paths = {}
        for count in (1, many // 16, many // 4, many):
            paths[count] = os.path.join(work, f"{count}.ll")
            with open(paths[count], "wb") as file:
                file.write(module(count))
        words, wanted = [PROGRAM, "check"], "valid"
        costs = {count: spent([*words, path], runs) for count, path in paths.items()}
        for count, (_, _, said) in costs.items():
            if said != wanted:
                print(f"reading {count} functions: '{said}' in place of '{wanted}'")
                return 1
        start, held, _ = costs[1]
        for few in (many // 16, many // 4):
            print(f"{f'reading {4 * few} functions less one':<36} {(costs[4 * few][0] - start) / (costs[few][0] - start):>8.2f} times {few}")
        seconds, memory, _ = costs[many]
        size = os.path.getsize(paths[many])
        print(f"{'reading 8 MiB':<36} {seconds * 1e3:>8.0f} ms, {(memory - held) / size:.1f} bytes of memory a byte of text")
        for name, theirs in others(paths[many], work):
            print(f"{'reading 8 MiB':<36} {seconds / spent(theirs, runs)[0]:>8.2f} times {name}")
    return 0


if __name__ == "__main__":
    sys.exit(main(*map(int, sys.argv[1:])))
