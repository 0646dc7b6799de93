"""Each operation at each width, with extreme operands: what a module prints by `eval`, its images print under three seeds.

One module has a function for each operation and width, which prints its result byte by byte, and calls it with all pairs of
operands that don't stop it. Those that do are modules of their own. Pointers are compared, walked and stored beside them.
"""

import os
import sys
import tempfile
from concurrent.futures import ThreadPoolExecutor

import clang
from compiled import PROGRAM, SEEDS, STEPS, built

WIDTHS = (1, 8, 16, 32, 64)
# numbers of one bit have no others
ONE_BIT = ["and", "or", "xor"]
ARITHMETIC = ["add", "sub", "mul", "and", "or", "xor", "shl", "lshr", "ashr"]
DIVISIONS = ["udiv", "sdiv", "urem", "srem"]
ORDERS = ["eq", "ne", "ugt", "uge", "ult", "ule", "sgt", "sge", "slt", "sle"]
DECLARED = "declare i32 @putchar(i32)\n"


def extremes(width):
    least = -(2 ** (width - 1))
    return sorted({0, -1, least} | ({1, 2, least + 1, -least - 1, width - 1, width, width + 3, 0x55 % 2 ** (width - 1)} if width > 1 else set()))


def shown(width):
    """A function that prints a number of so many bits, eight at a time."""
    rows = []
    for at in range(0, max(width, 8), 8):
        value = "%n"
        if at:
            rows.append(f"%s{at} = lshr i{width} %n, {at}")
            value = f"%s{at}"
        cast = "zext" if width < 32 else "trunc"
        if width != 32:
            rows.append(f"%c{at} = {cast} i{width} {value} to i32")
            value = f"%c{at}"
        rows.append(f"%p{at} = call i32 @putchar(i32 {value})")
    return f"define void @show{width}(i{width} %n) {{ " + " ".join(rows) + " ret void }\n"


def stops(name, width, a, b):
    """Whether a division of these numbers stops a run."""
    return b == 0 or name[0] == "s" and a == -(2 ** (width - 1)) and b == -1


def binary(name, width):
    """The function of an operation, with its calls."""
    define = f"define void @{name}{width}(i{width} %a, i{width} %b) {{ %r = {name} i{width} %a, %b call void @show{width}(i{width} %r) ret void }}\n"
    pairs = [(a, b) for a in extremes(width) for b in extremes(width) if name not in DIVISIONS or not stops(name, width, a, b)]
    return define, [f"call void @{name}{width}(i{width} {a}, i{width} {b})" for a, b in pairs]


def compared(order, width):
    name = f"{order}{width}"
    define = f"define void @{name}(i{width} %a, i{width} %b) {{ %q = icmp {order} i{width} %a, %b call void @show1(i1 %q) "
    define += f"%r = select i1 %q, i{width} %a, i{width} %b call void @show{width}(i{width} %r) ret void }}\n"
    return define, [f"call void @{name}(i{width} {a}, i{width} {b})" for a in extremes(width) for b in extremes(width)]


def cast(name, width, to):
    define = f"define void @{name}{width}to{to}(i{width} %a) {{ %r = {name} i{width} %a to i{to} call void @show{to}(i{to} %r) ret void }}\n"
    return define, [f"call void @{name}{width}to{to}(i{width} {a})" for a in extremes(width)]


def with_functions(functions, width):
    defines, calls = zip(*functions)
    body = " ".join(call for some in calls for call in some)
    return DECLARED + "".join(map(shown, WIDTHS)) + "".join(defines) + f"define i32 @main() {{ {body} ret i32 {width} }}"


def operations():
    for width in WIDTHS:
        names = ARITHMETIC + DIVISIONS if width > 1 else ONE_BIT
        yield with_functions([binary(name, width) for name in names], width)
        yield with_functions([compared(order, width) for order in ORDERS], width)
        casts = [cast(name, width, to) for to in WIDTHS if to > width for name in ("zext", "sext")]
        casts += [cast("trunc", width, to) for to in WIDTHS if to < width]
        yield with_functions(casts, width)
        for name in [it for it in DIVISIONS if it in names]:
            for a, b in ((5 % 2 ** (width - 1), 0), (-(2 ** (width - 1)), -1)):
                yield f"define i{width} @f(i{width} %a, i{width} %b) {{ %r = {name} i{width} %a, %b ret i{width} %r }} define i32 @main() {{ %r = call i{width} @f(i{width} {a}, i{width} {b}) ret i32 0 }}"


WALKED = """
%point = type { i8, i32, [3 x i16], ptr }
@points = global [4 x %point] zeroinitializer
@last = global ptr getelementptr ([4 x %point], ptr @points, i64 1, i64 0)
define i32 @main() {
entry:
  %first = getelementptr [4 x %point], ptr @points, i64 0, i64 0
  %end = getelementptr %point, ptr %first, i64 4
  br label %loop
loop:
  %at = phi ptr [ %first, %entry ], [ %next, %loop ]
  %n = phi i32 [ 3, %entry ], [ %m, %loop ]
  %byte = getelementptr %point, ptr %at, i64 0, i32 0
  %word = getelementptr %point, ptr %at, i64 0, i32 1
  %third = getelementptr %point, ptr %at, i64 0, i32 2, i8 2
  %link = getelementptr %point, ptr %at, i64 0, i32 3
  store i8 -3, ptr %byte
  store i32 %n, ptr %word
  store i16 -2, ptr %third
  store ptr %word, ptr %link
  %kept = load ptr, ptr %link
  %back = load i32, ptr %kept
  %b = load i8, ptr %byte
  %s = sext i8 %b to i32
  %t = load i16, ptr %third
  %z = zext i16 %t to i32
  %x = add i32 %s, %z
  %y = mul i32 %back, 5
  %m = add i32 %x, %y
  %p = call i32 @putchar(i32 %m)
  %next = getelementptr %point, ptr %at, i64 1
  %more = icmp ne ptr %next, %end
  br i1 %more, label %loop, label %done
done:
  %l = load ptr, ptr @last
  %same = icmp eq ptr %l, %next
  %low = icmp ult ptr %first, %next
  %high = icmp uge ptr %first, %end
  %nothing = icmp eq ptr null, %first
  %f = icmp eq ptr @main, @other
  %g = icmp ne ptr @other, null
  %w = getelementptr i8, ptr %next, i64 -1
  %q = icmp ugt ptr %w, %first
  %c = select i1 %same, i32 1, i32 0
  %d = select i1 %low, i32 2, i32 %c
  %e = select i1 %high, i32 9, i32 %d
  %h = select i1 %nothing, i32 9, i32 %e
  %i = select i1 %f, i32 9, i32 %h
  %j = select i1 %g, i32 %i, i32 9
  %k = select i1 %q, i32 %j, i32 9
  ret i32 %k
}
define void @other() { ret void }
"""


def told(words):
    code, out, said = clang.run([*words, "--steps", STEPS])
    return code, out, said


def problem_of(text):
    """What an image of this module does otherwise than its meaning."""
    with tempfile.TemporaryDirectory() as work:
        module, image = os.path.join(work, "module.ll"), os.path.join(work, "image")
        with open(module, "w") as file:
            file.write(text)
        meant = told([PROGRAM, "eval", module])
        if not meant[2].startswith((b"ended ", b"trapped divide")):
            return f"the meaning is {meant[2]}: {text[:300]}"
        for seeds in SEEDS:
            failed = built(module, seeds, image)
            done = failed or told([PROGRAM, "run", image])
            if done != meant:
                return f"seeds {seeds}: {done} in place of {meant}: {text[:300]}"
    return None


def main():
    texts = [*operations(), DECLARED + WALKED]
    with ThreadPoolExecutor(os.cpu_count()) as pool:
        problems = [it for it in pool.map(problem_of, texts) if it]
    for problem in problems:
        print(problem)
    print(f"{len(texts)} modules of operations under {len(SEEDS)} seeds, {len(problems)} problems")
    return 1 if problems else 0


if __name__ == "__main__":
    sys.exit(main())
