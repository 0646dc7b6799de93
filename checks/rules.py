"""What `check` says of modules: a valid and an invalid one for each rule of types, two refusals and two places at once, each limit
at its greatest count and one past it, and modules that are large; each valid one is built. Expected lines are worked out by hand from docs/command-line.md
and docs/languages.md."""

import os
import subprocess
import sys
import tempfile

HERE = os.path.dirname(os.path.abspath(__file__))
PROGRAM = os.path.join(HERE, "..", "crates", "read_main", "out", "read_main")
MAIN = "define i32 @main() { ret i32 0 }\n"


def body(lines, front=""):
    """A module whose `main` has these lines in front of its `ret`; its instructions are at `type inst F 0 I`."""
    return f"{front}define i32 @main() {{\n{lines}\nret i32 0\n}}\n"


# By rule of types: a valid module, an invalid one, and what is said of that.
RULES = {
    "functions": ("define ptr @f(i1 %a, ptr %b) { ret ptr %b }" + MAIN, "define i32 @f({ i32 } %a) { ret i32 0 }" + MAIN, "type function 0"),
    "declarations": ("declare i32 @f(i64, ptr)" + MAIN, "declare [2 x i8] @f()" + MAIN, "type extern 0"),
    "initialisers": ('@g = global [2 x i8] c"ab"' + MAIN, '@g = global [3 x i8] c"ab"' + MAIN, "type global 0"),
    "elements": ("@g = global { i8, i16 } { i8 1, i16 2 }" + MAIN, "@g = global { i8, i16 } { i8 1, i8 2 }" + MAIN, "type global 0"),
    "constant places": (
        "@g = global [2 x i8] zeroinitializer @h = global ptr getelementptr ([2 x i8], ptr @g, i64 0, i64 9)" + MAIN,
        "@g = global { i8 } zeroinitializer @h = global ptr getelementptr ({ i8 }, ptr @g, i64 0, i64 0)" + MAIN,
        "type global 1",
    ),
    "arithmetic": (body("%a = add i8 200, -128"), body("%a = add i1 true, false"), "type inst 0 0 0"),
    "truth values": (body("%a = xor i1 true, -1"), body("%a = and i8 1, true"), "type inst 0 0 0"),
    "comparisons": (body("%a = icmp ult ptr null, @main"), body("%a = icmp eq ptr null, 0"), "type inst 0 0 0"),
    "casts": (body("%a = sext i1 true to i64"), body("%a = trunc i8 1 to i8"), "type inst 0 0 0"),
    "widening": (body("%a = zext i8 1 to i16"), body("%a = zext i16 1 to i8"), "type inst 0 0 0"),
    "select": (body("%a = select i1 true, ptr null, ptr @main"), body("%a = select i1 true, i8 1, i16 1"), "type inst 0 0 0"),
    "memory": (body("%p = alloca { i8 } %a = load i8, ptr %p"), body("%p = alloca i8 %a = load { i8 }, ptr %p"), "type inst 0 0 1"),
    "stores": (body("%p = alloca i8 store i8 undef, ptr %p"), body("%p = alloca i8 store i8 256, ptr %p"), "type inst 0 0 1"),
    "allocas": (
        "define i32 @main() { e: %p = alloca i8 br label %x x: ret i32 0 }",
        "define i32 @main() { e: br label %x x: %p = alloca i8 ret i32 0 }",
        "type inst 0 1 0",
    ),
    "indices": (
        body("%p = alloca { i8, [2 x i8] } %q = getelementptr { i8, [2 x i8] }, ptr %p, i64 0, i32 1, i8 -1"),
        body("%p = alloca { i8, [2 x i8] } %q = getelementptr { i8, [2 x i8] }, ptr %p, i64 0, i32 2"),
        "type inst 0 0 1",
    ),
    "index types": (body("%p = alloca i8 %q = getelementptr i8, ptr %p, i16 1"), body("%p = alloca i8 %q = getelementptr i8, ptr %p, i1 1"), "type inst 0 0 1"),
    "calls": (
        body("%a = call i32 @f(i8 1)", "define i32 @f(i8 %x) { ret i32 0 } "),
        body("%a = call i32 @f(i16 1)", "define i32 @f(i8 %x) { ret i32 0 } "),
        "type inst 1 0 0",
    ),
    "results of calls": (
        body("call void @f()", "define void @f() { ret void } "),
        body("%a = call void @f()", "define void @f() { ret void } "),
        "type inst 1 0 0",
    ),
    "calls by pointer": (body("%p = freeze ptr @main %a = call i8 %p(ptr null)"), body("%p = freeze i64 0 %a = call i8 %p()"), "type inst 0 0 1"),
    "phis": (
        "define i32 @main() { e: br i1 true, label %x, label %x x: %a = phi i32 [ 1, %e ], [ 1, %e ] ret i32 %a }",
        "define i32 @main() { e: br label %x x: %b = add i32 1, 1 %a = phi i32 [ 1, %e ] ret i32 %a }",
        "type inst 0 1 1",
    ),
    "entries": (
        "define i32 @main() { e: br label %x x: %a = phi i32 [ 1, %e ], [ %a, %x ] br label %x }",
        "define i32 @main() { e: br label %x x: %a = phi i32 [ 1, %e ] br label %x }",
        "type inst 0 1 0",
    ),
    "entries of one block": (
        "define i32 @main() { e: br i1 true, label %x, label %x x: %a = phi i8 [ 200, %e ], [ 200, %e ] ret i32 0 }",
        "define i32 @main() { e: br i1 true, label %x, label %x x: %a = phi i8 [ 200, %e ], [ -56, %e ] ret i32 0 }",
        "type inst 0 1 0",
    ),
    "returns": ("define void @f() { ret void }" + MAIN, "define void @f() { ret i32 0 }" + MAIN, "type inst 0 0 0"),
    "conditions": (body("%a = freeze i1 true"), "define i32 @main(i32 %n, ptr %p) { e: br i1 %n, label %x, label %x x: ret i32 0 }", "type inst 0 0 0"),
    "switches": (
        "define i32 @main() { e: switch i8 1, label %x [ i8 255, label %x i8 0, label %x ] x: ret i32 0 }",
        "define i32 @main() { e: switch i8 1, label %x [ i8 255, label %x i8 -1, label %x ] x: ret i32 0 }",
        "type inst 0 0 0",
    ),
    "the entry block": ("define i32 @main() { e: br label %x x: br label %x }", "define i32 @main() { e: br label %x x: br label %e }", "type inst 0 1 0"),
}

# Of two refusals the earlier one, of two places the first.
ORDER = [
    ("%t = type { %u } %t = type { i8 }", "doubled %t"),
    ("@a = global i8 0 @b = global i8 0 @b = global i8 0 @a = global i8 0", "doubled @b"),
    ("@g = global ptr @h @h = global ptr @i %t = type { %u }", "unknown %u"),
    ("@p = global ptr @f %t = type { [67108865 x i8] } declare void @f()", "limit size 67108865"),
    ("%t = type { [67108865 x i8] } %u = type { %u }", "limit nesting 65"),
    ("declare i32 @putchar(i64) define void @f() { %a = call i32 @putchar(i64 1) ret void }", "external @putchar"),
    ("@p = global ptr @b declare void @a() declare void @b() define void @f() { call void @a() ret void }", "external @b"),
    ("@g = global i8 256", "no main"),
    ("@g = global i8 0 @h = global i8 256 @i = global i8 256 " + MAIN, "type global 1"),
    ("declare { i8 } @f() @g = global i8 256 " + MAIN, "type global 0"),
    ("define { i8 } @f() { unreachable } declare { i8 } @g()" + MAIN, "type extern 0"),
    ("define { i8 } @f() { ret i8 0 }" + MAIN, "type function 0"),
    ("@g = global i8 0 @g = global i8 0 %t = type { i8 } %t = type { i8 }", "doubled %t"),
    ("define void @f(i8 %x, i8 %x) { ret void } define void @f() { ret void }", "doubled %x"),
]

PARAMETERS = "declare i32 @p(" + ", ".join(["i32"] * 33) + ") "
ALLOCA = "%p = alloca [70000 x i8]"
LARGE = "@g = global [67108864 x i8] zeroinitializer @h = global i8 0 "

# Of two limits the earlier one.
ORDER += [
    ("%t = type { [67108865 x i8] } " + PARAMETERS + MAIN, "limit size 67108865"),
    (PARAMETERS + body(ALLOCA), "limit parameters 33"),
    (LARGE + body(ALLOCA), "limit frame 70272"),
    (PARAMETERS + body("call void @f()\n" * 65536, "define void @f() { ret void } "), "limit instructions 65537"),
]


F = "define i32 @f(i8 %x) { ret i32 0 } "

# One condition of a rule each, in the first place where it can fail.
CONDITIONS = [
    (body("%a = add i8 256, 1"), "type inst 0 0 0"),
    (body("%a = add i8 1, 256"), "type inst 0 0 0"),
    (body("%a = add ptr null, null"), "type inst 0 0 0"),
    (body("%a = icmp eq i8 256, 0"), "type inst 0 0 0"),
    (body("%a = zext i8 256 to i16"), "type inst 0 0 0"),
    (body("%a = zext i8 1 to i8"), "type inst 0 0 0"),
    (body("%a = sext i8 1 to i8"), "type inst 0 0 0"),
    (body("%c = freeze i32 1 %a = select i1 %c, i8 1, i8 2"), "type inst 0 0 1"),
    (body("%a = select i1 true, i8 256, i8 1"), "type inst 0 0 0"),
    (body("%a = select i1 true, i8 1, i8 256"), "type inst 0 0 0"),
    (body("%a = freeze { i8 } undef"), "type inst 0 0 0"),
    (body("%a = load i8, ptr 1"), "type inst 0 0 0"),
    (body("store i8 1, ptr 1"), "type inst 0 0 0"),
    (body("%a = getelementptr i8, ptr 1, i8 0"), "type inst 0 0 0"),
    (body("%a = getelementptr i8, ptr null, i8 256"), "type inst 0 0 0"),
    (body("%a = getelementptr i8, ptr null, ptr null"), "type inst 0 0 0"),
    ("define i32 @main() { e: br label %x x: %a = phi i8 [ 256, %e ] ret i32 0 }", "type inst 0 1 0"),
    (body("%a = call i32 @f()", F), "type inst 1 0 0"),
    (body("%a = call i32 @f(i8 1, i8 2)", F), "type inst 1 0 0"),
    (body("%a = call i32 @f(i8 256)", F), "type inst 1 0 0"),
    (body("%p = freeze ptr @main %a = call { i8 } %p()"), "type inst 0 0 1"),
    (body("%a = call i64 @putchar(i32 1)", "declare i32 @putchar(i32) "), "type inst 0 0 0"),
    ("define i32 @main() { e: switch ptr null, label %x [] x: ret i32 0 }", "type inst 0 0 0"),
    ("define i32 @main() { e: switch i8 256, label %x [] x: ret i32 0 }", "type inst 0 0 0"),
    ("define i32 @main() { e: switch i8 1, label %x [ i16 1, label %x ] x: ret i32 0 }", "type inst 0 0 0"),
    ("define i32 @main() { e: switch i8 1, label %x [ i8 256, label %x ] x: ret i32 0 }", "type inst 0 0 0"),
    ("@g = global [2 x i8] [ i8 1 ]" + MAIN, "type global 0"),
    ("@g = global { i8 } <{ i8 1 }>" + MAIN, "type global 0"),
    ('@g = global [2 x i16] c"ab"' + MAIN, "type global 0"),
]

# What a module may take from outside, and the type of each that is another.
OUTSIDE = {
    "void @llvm.memcpy.p0.p0.i64(ptr, ptr, i64, i1)": ("call void @llvm.memcpy.p0.p0.i64(ptr %p, ptr %p, i64 1, i1 false)", "void @llvm.memcpy.p0.p0.i64(ptr, ptr, i32, i1)"),
    "void @llvm.memset.p0.i64(ptr, i8, i64, i1)": ("call void @llvm.memset.p0.i64(ptr %p, i8 1, i64 1, i1 true)", "void @llvm.memset.p0.i64(ptr, i32, i64, i1)"),
    "void @llvm.trap()": ("call void @llvm.trap()", "i32 @llvm.trap()"),
    "void @llvm.lifetime.start.p0(i64, ptr)": ("call void @llvm.lifetime.start.p0(i64 1, ptr %p)", "void @llvm.lifetime.start.p0(ptr, i64)"),
    "void @llvm.lifetime.end.p0(ptr)": ("call void @llvm.lifetime.end.p0(ptr %p)", "void @llvm.lifetime.end.p0()"),
    "i32 @putchar(i32)": ("%a = call i32 @putchar(i32 65)", "i32 @putchar(i8)"),
    "i32 @getchar()": ("%b = call i32 @getchar()", "i32 @getchar(i32)"),
    "void @exit(i32)": ("call void @exit(i32 0)", "i32 @exit(i32)"),
}

# A name that has no definition of its kind, in each place where one may stand; of two the first in the text.
UNKNOWN = [
    ("@h = global ptr @nope " + MAIN, "unknown @nope"),
    ("@h = global ptr getelementptr (i8, ptr @main, i64 0)" + MAIN, "unknown @main"),
    ("@h = global ptr getelementptr (%t, ptr @h, i64 0)" + MAIN, "unknown %t"),
    (body("%a = add i8 %u, %v"), "unknown %u"),
    (body("%a = add i8 1, %v"), "unknown %v"),
    (body("%a = icmp eq i8 1, %v"), "unknown %v"),
    (body("%a = zext i8 %v to i16"), "unknown %v"),
    (body("%a = select i1 %c, i8 %u, i8 %v"), "unknown %c"),
    (body("%a = select i1 true, i8 1, i8 %v"), "unknown %v"),
    (body("%a = freeze i8 %v"), "unknown %v"),
    (body("%a = alloca %t"), "unknown %t"),
    (body("%a = load i8, ptr %v"), "unknown %v"),
    (body("store i8 %u, ptr %v"), "unknown %u"),
    (body("store i8 1, ptr %v"), "unknown %v"),
    (body("%a = getelementptr %t, ptr %u, i64 %v"), "unknown %t"),
    (body("%a = getelementptr i8, ptr null, i64 %v"), "unknown %v"),
    (body("%a = call i32 @nope(i8 %v)"), "unknown @nope"),
    (body("%a = call i32 %p(i8 %v)"), "unknown %p"),
    (body("%a = call i32 @main(i8 %v)"), "unknown %v"),
    ("define i32 @main() { e: br label %x x: %a = phi i8 [ %v, %y ] ret i32 0 }", "unknown %v"),
    ("define i32 @main() { e: br label %x x: %a = phi i8 [ 1, %y ] ret i32 0 }", "unknown %y"),
    ("define i32 @main() { e: br i1 %c, label %x, label %y }", "unknown %c"),
    ("define i32 @main() { e: br i1 true, label %x, label %y }", "unknown %x"),
    ("define i32 @main() { e: br i1 true, label %x, label %y x: ret i32 0 }", "unknown %y"),
    ("define i32 @main() { e: switch i8 %v, label %x [] }", "unknown %v"),
    ("define i32 @main() { e: switch i8 1, label %x [ i8 1, label %y ] }", "unknown %x"),
    ("define i32 @main() { e: switch i8 1, label %x [ i8 1, label %y ] x: ret i32 0 }", "unknown %y"),
    ("define %t @main() { ret i32 0 }", "unknown %t"),
    ("define i32 @main(%t %a) { ret i32 0 }", "unknown %t"),
    ("declare %t @f()" + MAIN, "unknown %t"),
    ("declare i32 @f(i8, %t)" + MAIN, "unknown %t"),
]


def outside():
    """All of them in one module, and one at a time with another type."""
    declared = "".join(f"declare {d}\n" for d in OUTSIDE)
    calls = "%p = alloca i8\n" + "\n".join(call for call, _ in OUTSIDE.values())
    yield body(calls, declared), "valid"
    for right, (call, wrong) in OUTSIDE.items():
        name = right[right.index("@") : right.index("(")]
        yield body("%p = alloca i8\n" + call, f"declare {wrong}\n"), f"external {name}"


def named(count, size):
    """Named types, each of twice the size of the one before."""
    lines = [f"%t0 = type {{ [{size} x i8] }}"] + [f"%t{i} = type {{ %t{i - 1}, %t{i - 1} }}" for i in range(1, count)]
    return "\n".join(lines) + "\n" + MAIN


def limits():
    """Each limit at its greatest count and one past it."""
    nest = lambda n: "@g = global " + "[1 x " * n + "i8" + "]" * n + " zeroinitializer " + MAIN
    yield nest(64), "valid"
    yield "%t = type { [1 x i8] } @g = global " + "[1 x " * 63 + "%t" + "]" * 63 + " zeroinitializer " + MAIN, "limit nesting 65"
    yield "%t = type { %u } %u = type { %t }" + MAIN, "limit nesting 65"
    yield "%t = type { [67108864 x i8] }" + MAIN, "valid"
    yield "%t = type { [67108864 x i8], i8 }" + MAIN, "limit size 67108865"
    yield named(30, 1), "limit size 134217728"
    yield named(60, 2**32 - 1), "limit size 4294967295"
    functions = lambda n: "".join(f"define void @f{i}() {{ ret void }}\n" for i in range(n - 1)) + MAIN
    yield functions(4096), "valid"
    yield functions(4097), "limit functions 4097"
    straight = lambda n: "define i32 @main() {\n" + "call void @f()\n" * (n - 1) + "ret i32 0\n}\ndefine void @f() { ret void }\n"
    yield straight(65536), "valid"
    yield straight(65537), "limit instructions 65537"
    parameters = lambda n: "declare i32 @f(" + ", ".join(["i32"] * n) + ")" + MAIN
    yield parameters(32), "valid"
    yield parameters(33), "limit parameters 33"
    frame = lambda n: f"define i32 @main() {{ %p = alloca [{n} x i8] ret i32 0 }}"
    yield frame(65536 - 256 - 16), "valid"
    yield frame(65536 - 256 - 16 + 1), "limit frame 65552"
    # A word of a frame for each parameter, two for a phi, two for each argument past the sixth of the longest call.
    fit = 65536 - 256 - 16
    for n, line in ((fit - 32, "valid"), (fit - 31, "limit frame 65552")):
        yield f"define i32 @main(i32 %n, ptr %q) {{ %p = alloca [{n} x i8] ret i32 0 }}", line
        yield f"define i32 @main() {{ e: %p = alloca [{n} x i8] br label %x x: %a = phi i32 [ 0, %e ] ret i32 %a }}", line
        calls = "call void @f(" + ", ".join(["i8 0"] * 8) + ") call void @g(" + ", ".join(["i8 0"] * 7) + ")"
        taken = lambda k: ", ".join(f"i8 %x{i}" for i in range(k))
        yield body(f"%p = alloca [{n} x i8] {calls}") + f"define void @f({taken(8)}) {{ ret void }} define void @g({taken(7)}) {{ ret void }}", line
    many = ", ".join(["i8 0"] * 33)
    yield body(f"call void %p({many})", "").replace("@main()", "@main(i32 %n, ptr %p)"), "limit parameters 33"
    yield "define void @f(" + ", ".join(f"i8 %x{i}" for i in range(33)) + ") { ret void } " + MAIN, "limit parameters 33"
    # Code is counted by parts: an index is 128, one of a constant place 64, an entry 160, a case 160, an argument 128.
    index = lambda n: body("%a = getelementptr i8, ptr null" + ", i8 0" * n)
    yield index(524_277), "type inst 0 0 0"
    yield index(524_278), "limit code 67108992"
    entry = lambda n: "define i32 @main() { e: br label %x x: %a = phi i8 " + ",".join(["[0,%e]"] * n) + " ret i32 0 }"
    yield entry(419_421), "valid"
    yield entry(419_422), "limit code 67108992"
    place = lambda n: body("%a = load i8, ptr getelementptr (i8, ptr @g" + ",i8 0" * n + ")", "@g = global i8 0 ")
    yield place(1_048_554), "type inst 0 0 0"
    yield place(1_048_555), "limit code 67108928"
    case = lambda n: "define i32 @main() { e: switch i32 0, label %x [" + "".join(f"i32 {i},label %x " for i in range(n)) + "] x: ret i32 0 }"
    yield case(419_421), "valid"
    yield case(419_422), "limit code 67108928"
    yield "%a = type { [4294967295 x %b] } %b = type { [4294967295 x %c] } %c = type { [4294967295 x i8] } " + MAIN, "limit size 18446744073709551615"
    yield "@g = global [0 x [67108865 x i8]] zeroinitializer " + MAIN, "limit size 67108865"
    yield "@g = global { [67108865 x i8], i8 } zeroinitializer " + MAIN, "limit size 67108866"
    yield "@g = global [67108864 x i8] zeroinitializer " + MAIN, "valid"
    yield "@g = global [67108864 x i8] zeroinitializer @h = global i8 0 " + MAIN, "limit bytes 67108880"
    yield "".join(f"@n{i} = global {{}} {{}}\n" for i in range(300_000)) + MAIN, "valid"
    functions = "".join(f"define void @g{i}() {{ {'call void @f() ' * 61} ret void }}\n" for i in range(4000))
    yield functions + "define void @f() { ret void }\n" + MAIN, "valid"


def said(path):
    done = subprocess.run([PROGRAM, "check", path], capture_output=True, check=False, timeout=60)
    return done.returncode, done.stdout, done.stderr.decode("latin-1")


def is_built(path):
    seeds = ["--slot-seed", "1", "--reg-seed", "2", "--layout-seed", "3"]
    done = subprocess.run([PROGRAM, "build", path, *seeds], stdout=subprocess.DEVNULL, stderr=subprocess.PIPE, check=False, timeout=60)
    return (done.returncode, done.stderr) == (0, b"")


def main():
    rows = []
    for rule, (valid, invalid, line) in RULES.items():
        rows += [(rule, valid, "valid"), (rule, invalid, line)]
    for what, pairs in (("order", ORDER), ("conditions", CONDITIONS), ("unknown", UNKNOWN), ("outside", outside()), ("limits", limits())):
        rows += [(what, text, line) for text, line in pairs]
    failed = 0
    with tempfile.TemporaryDirectory() as work:
        path = os.path.join(work, "text.ll")
        for what, text, line in rows:
            with open(path, "w", encoding="ascii") as file:
                file.write(text)
            wanted = (0 if line == "valid" else 4, b"", line + "\n")
            if said(path) != wanted:
                failed += 1
                print(f"{what}: {said(path)} in place of {wanted[2]!r}: {text[:200]!r}")
            elif line == "valid" and not is_built(path):
                failed += 1
                print(f"{what}: a valid module is not built: {text[:200]!r}")
    print(f"{len(rows)} modules, {failed} differences")
    return 1 if failed else 0


if __name__ == "__main__":
    sys.exit(main())
