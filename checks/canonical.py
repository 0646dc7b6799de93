"""Module texts: every form of the canonical text is printed as it was read, words without effect are dropped, and modules
that clang makes of the C programs in programs/ are valid, are printed as LLVM reads them, and do the same when LLVM's
interpreter runs what was printed."""

import os
import sys
import tempfile

import clang

PROGRAM = os.path.join(clang.HERE, "..", "crates", "read_main", "out", "read_main")

# Each form of a line, once at least, as it is printed.
FORMS = r"""%pair = type { i32, ptr }
%none = type {}
%tight = type <{ i8, i16, %pair }>
%empty = type <{}>
%"a b" = type { [4 x i8], [0 x i1], i64 }
@zero = global i32 0
@least = constant i64 -9223372036854775808
@most = global i8 255
@yes = global i1 true
@null = global ptr null
@unset = global i16 undef
@poisoned = global i16 poison
@text = constant [5 x i8] c"a\00\22\5C~"
@numbers = global [2 x i32] [ i32 1, i32 2 ]
@nothing = global [0 x i32] []
@both = global %pair { i32 1, ptr @zero }
@hollow = global {} {}
@dense = global <{ i8 }> <{ i8 1 }>
@thin = global <{}> <{}>
@zeros = global [3 x %pair] zeroinitializer
@third = global ptr getelementptr ([2 x i32], ptr @numbers, i64 0, i64 1)
@entry = global ptr @main
declare i32 @putchar(i32)
declare void @exit(i32)
declare void @llvm.trap()
define i32 @main() {
start:
  %x = add i32 1, -1
  %y = sub i32 %x, 4294967295
  %z = mul i32 %y, %x
  %d = udiv i32 %z, 3
  %e = sdiv i32 %z, 3
  %f = urem i32 %z, 3
  %g = srem i32 %z, 3
  %h = shl i32 %z, 3
  %i = lshr i32 %z, 3
  %j = ashr i32 %z, 3
  %k = and i1 true, false
  %l = or i1 %k, undef
  %m = xor i1 %l, poison
  %c0 = icmp eq i32 %x, 5
  %c1 = icmp ne ptr @zero, null
  %c2 = icmp ugt i64 1, 2
  %c3 = icmp uge i64 1, 2
  %c4 = icmp ult i64 1, 2
  %c5 = icmp ule i64 1, 2
  %c6 = icmp sgt i64 1, 2
  %c7 = icmp sge i64 1, 2
  %c8 = icmp slt i64 1, 2
  %c9 = icmp sle i64 1, 2
  %t = trunc i32 %x to i8
  %u = zext i8 %t to i32
  %v = sext i8 %t to i64
  %s = select i1 %m, i32 1, i32 %u
  %w = freeze i32 %s
  %p = alloca %pair, i32 1
  %q = alloca [4 x i8], i32 7
  %r = getelementptr %pair, ptr %p, i64 0, i32 1
  %o = getelementptr [4 x i8], ptr %q, i64 0, i64 %v
  store i32 %w, ptr %p
  store ptr @zero, ptr %r
  %a = load i32, ptr %p
  %b = load ptr, ptr getelementptr (%pair, ptr @both, i64 0, i32 1)
  %n = call i32 @putchar(i32 %a)
  call void @named(i64 1, ptr %b, i1 true)
  br i1 %c0, label %one, label %"two words"
one:
  br label %join
"two words":
  switch i32 %n, label %join [ i32 1, label %one i32 -2, label %last ]
join:
  %phi = phi i32 [ 0, %one ], [ %n, %"two words" ]
  switch i8 %t, label %last [ ]
last:
  call void @exit(i32 1)
  unreachable
}
define void @named(i64 %0, ptr %"a b", i1 %1) {
2:
  %3 = call i32 %"a b"(i64 %0, i1 %1)
  ret void
}
define ptr @"quoted name"() {
0:
  ret ptr null
}
"""

# Texts with words, spellings and numbers that say nothing more, beside what is printed.
NOISY = [
    (
        'define dso_local noundef i32 @main() local_unnamed_addr #0 align 16 section ".text" !dbg !3 {\n  ret i32 007, !dbg !4 }\n'
        'attributes #0 = { nounwind "a"="b" }\n!llvm.ident = !{!0}\n!0 = distinct !{!0, !"x", i32 5}\n!3 = !DISubprogram(name: "m")\n',
        "define i32 @main() {\n0:\n  ret i32 7\n}\n",
    ),
    (
        "declare void @llvm.dbg.value(metadata, metadata, metadata)\n"
        "define i32 @main(i32 %0, ptr nocapture readonly %1) {\n"
        "  %x = alloca i32, align 4\n  %y = load volatile i32, ptr %x, align 4, !tbaa !1\n"
        "  call void @llvm.dbg.value(metadata i32 %y, metadata !1, metadata !DIExpression())\n"
        "  store volatile i32 %y, ptr %x, align 1\n  %z = add nuw nsw i32 %y, 1\n  %w = tail call fastcc zeroext i32 @f(i32 noundef %z) nounwind\n"
        "  ret i32 %w\n}\ndefine internal fastcc i32 @f(i32 %0) unnamed_addr { %r = udiv exact i32 %0, 1 ret i32 %r }\n",
        "define i32 @main(i32 %0, ptr %1) {\n2:\n  %x = alloca i32, i32 1\n  %y = load i32, ptr %x\n  store i32 %y, ptr %x\n"
        "  %z = add i32 %y, 1\n  %w = call i32 @f(i32 %z)\n  ret i32 %w\n}\ndefine i32 @f(i32 %0) {\n1:\n  %r = udiv i32 %0, 1\n  ret i32 %r\n}\n",
    ),
    (
        '; a comment\nsource_filename = "a.c"\ntarget triple = "x"\n@"g" = private unnamed_addr constant [2 x i8] c"\\41B", section "s", align 1, !dbg !0\n'
        "define i32 @main() { ret i32 0 }",
        '@g = constant [2 x i8] c"AB"\ndefine i32 @main() {\n0:\n  ret i32 0\n}\n',
    ),
]


def ours(command, path, *more):
    return clang.run([PROGRAM, command, path, *more])


def canonical(work, text, want, problems, name):
    """The text is valid and printed as wanted, and what is printed is printed as itself."""
    path = os.path.join(work, "text.ll")
    for given in (text, want):
        with open(path, "wb") as file:
            file.write(given.encode())
        checked, printed = ours("check", path), ours("print", path)
        if checked != (0, b"", b"valid\n"):
            problems.append(f"{name}: check answers {checked}")
        if printed != (0, want.encode(), b""):
            problems.append(f"{name}: print answers {printed[0]} {printed[2]!r}\n{printed[1].decode()}")


def compiled(work, problems):
    """What clang makes of C programs, if LLVM's tools are there."""
    if not clang.are_here("clang", "opt", "lli"):
        return 0
    source, printed = os.path.join(work, "source.ll"), os.path.join(work, "printed.ll")
    for name, path in clang.programs():
        failed = clang.module_of(path, source)
        if failed:
            problems.append(f"{name}: clang answers {failed!r}")
            continue
        if ours("check", source) != (0, b"", b"valid\n"):
            problems.append(f"{name}: check answers {ours('check', source)}")
            continue
        with open(printed, "wb") as file:
            file.write(ours("print", source)[1])
        if clang.run(["opt", "-opaque-pointers", "-passes=verify", "-disable-output", printed])[0]:
            problems.append(f"{name}: opt refuses what is printed")
        meant, done = (clang.run(["lli", "-opaque-pointers", text], clang.INPUT) for text in (source, printed))
        if meant[:2] != done[:2]:
            problems.append(f"{name}: LLVM's interpreter gives {meant} of the source and {done} of what is printed")
    return len(clang.programs())


def main():
    problems = []
    with tempfile.TemporaryDirectory() as work:
        canonical(work, FORMS, FORMS, problems, "each form")
        for number, (text, want) in enumerate(NOISY):
            canonical(work, text, want, problems, f"noise {number}")
        count = compiled(work, problems)
    for problem in problems:
        print(problem)
    print(f"{1 + len(NOISY)} texts, {count} programs, {len(problems)} problems")
    return 1 if problems else 0


if __name__ == "__main__":
    sys.exit(main())
