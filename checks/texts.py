"""Bad texts: the program says of each what a second reader says, grammar.py, and writes nothing where it refuses.

Prefixes of a module, each token left out, doubled or exchanged with the next one, each word that isn't supported at each place
of a short module, and texts at the edges: depths, digits, counts, long names, bytes that are no UTF-8, groups closed wrongly.
"""

import concurrent.futures
import os
import random
import subprocess
import sys
import tempfile

import grammar

SHORT = "@g = global i32 7\ndefine i32 @main(i32 %n) {\n %p = load i32, ptr @g\n %c = call i32 @f(i32 %p)\n ret i32 %c\n}\n"
LONG = r"""; every kind of item, type, value, instruction and attachment
source_filename = "a\0.c"
target datalayout = "e-m:e"
target triple = "x86_64"
%pair = type { i32, [4 x i8] }
%"a b" = type <{ i8, ptr, {}, <{}> }>
@g = private unnamed_addr constant [4 x i8] c"a\00\\b", align 1, section "s", !dbg !0
@h = global %pair { i32 -3, [4 x i8] [ i8 1, i8 true, i8 undef, i8 poison ] }
@i = internal global <{ ptr, i64 }> <{ ptr getelementptr inbounds ([4 x i8], ptr @g, i64 0, i64 1), i64 zeroinitializer }>
@j = global ptr null, align 8
@0 = common global [0 x i32] []
declare i32 @putchar(i32 noundef signext) local_unnamed_addr #0
declare !dbg !3 dso_local noundef ptr @far(ptr nocapture %p, i64) nounwind memory(none) section "t" align 16
declare void @llvm.dbg.value(metadata, metadata, (metadata))
define dso_local i32 @main(i32 noundef %argc, ptr readonly dereferenceable(8) align 8 %0) #1 align 16 !dbg !4 {
  %2 = alloca i32, align 4
  %3 = alloca [4 x i8], i64 2, align 1, !dbg !5
  %a = add nuw nsw i32 %argc, 40, !dbg !6
  %b = icmp samesign slt i32 %a, 5, !dbg !6
  %c = zext nneg i1 %b to i64, !dbg !6
  %d = select i1 %b, i32 1, i32 %a, !prof !7
  %e = freeze i32 %d, !dbg !6
  %4 = alloca i8, !dbg !5
  store volatile i32 %e, ptr %2, align 4, !tbaa !8
  #dbg_value(i32 %e, !9, !DIExpression(), !10)
  call void @llvm.dbg.value(metadata i32 %e, metadata !9, metadata !DIExpression()), !dbg !11
  %f = load volatile i32, ptr %2, align 4
  %x = getelementptr inbounds nuw %pair, ptr @h, i64 0, i32 1, i64 %c, !dbg !12
  %k = tail call fastcc noundef i32 @putchar(i32 noundef %f) nounwind #2, !dbg !13
  notail call ccc void %x(i8 false, ptr @"a b")
  br i1 %b, label %yes, label %"no way", !llvm.loop !14
yes:
  %y = phi i32 [ 0, %1 ], [ %z, %yes ], !dbg !15
  %z = sub i32 %y, -1
  switch i32 %z, label %"no way" [ i32 1, label %yes i32 -2, label %end ], !dbg !16
"no way":
  %w = ashr exact i32 %a, 3
  br label %end
end:
  ret i32 %w, !dbg !17
5:
  unreachable
}
define void @f() local_unnamed_addr noinline section ".text.f" {
  ret void
}
attributes #0 = { nounwind "frame-pointer"="all" [ (1) ] }
attributes #1 = ( uwtable )
!llvm.module.flags = !{!0, !1}
!0 = !{i32 1, !"wchar_size", i32 4}
!1 = distinct !DILocation(line: 3, column: 5, scope: !2)
!2 = !3
"""


def joined(spelled):
    """Tokens with a space between two, so that none becomes another one."""
    return " ".join(spelled).encode("latin-1")


def edited(text):
    """The text with a token left out, doubled, and exchanged with the next one."""
    spelled = [token for _, _, token in grammar.tokens(text.encode("latin-1"))[0]]
    for k in range(len(spelled)):
        yield joined(spelled[:k] + spelled[k + 1 :])
        yield joined(spelled[: k + 1] + spelled[k:])
        yield joined(spelled[:k] + spelled[k : k + 2][::-1] + spelled[k + 2 :])


def with_words(text, words):
    """The text with each of the words in front of each token, and in its place."""
    spelled = [token for _, _, token in grammar.tokens(text.encode("latin-1"))[0]]
    for word in sorted(words):
        for k in range(len(spelled) + 1):
            yield joined(spelled[:k] + [word] + spelled[k:])
            yield joined(spelled[:k] + [word] + spelled[k + 1 :])


def edges():
    """Texts at the edges of what is read."""
    for depth in (63, 64, 65):
        yield b"@g = global " + b"[1 x " * depth + b"i8" + b"]" * depth + b" undef"
        yield b"%T = type " + b"{" * depth + b"}" * depth
        yield b"%T = type " + b"<{" * depth + b"}>" * depth
        yield b"@g = global i8 " + b"[i8 " * depth + b"1" + b"]" * depth
        yield b"define void @f(" + b"{" * depth + b"}" * depth + b" %x) { ret void }"
    for digits in ("9" * 38, "9" * 39, "0" * 38, "0" * 39, "4294967295", "4294967296", "-0", "-1"):
        yield f"@g = global i64 {digits}".encode()
        yield f"@g = global i64 -{digits}".encode()
        yield f"@g = global [{digits} x i8] undef, align {digits}".encode()
        yield f"define void @f() {{ %p = alloca i8, i32 {digits} ret void }}".encode()
    for name in ("a" * 1_000_000, '"' + "a b" * 300_000 + '"', "9" * 1_000_000, "9" * 1_000_000 + "a", '""', '"', ""):
        yield f"@{name} = global i8 1".encode()
        yield f"define void @f() {{ {name}: ret void }}".encode()
    for byte in (0, 9, 11, 31, 127, 128, 255):
        one = bytes([byte])
        yield one
        yield b"; " + one + b"\n@g = global i8 1"
        yield b'source_filename = "' + one + b'"'
        yield b'@g = global [1 x i8] c"' + one + b'"'
        yield b'@"' + one + b'" = global i8 1'
        yield b"@g" + one + b"= global i8 1"
    for opens in "([{":
        for closes in ")]}":
            yield f"attributes #0 = {opens} ( [ x {closes} ) ] {closes}".encode()
            yield f"attributes #0 = {opens} {{ y }} {closes} {closes}".encode()
    yield from (b"", b";", b"!", b"#", b"@", b"%", b'c"', b'c"\\', b'c"\\0', b'c"\\0g"', b"!{", b"= 1")


class Program:
    def __init__(self, program, work):
        self.program, self.work, self.reader = program, work, grammar.Reader()

    def told(self, number, text):
        """What the program says of a text, and whether that is an answer: 0 with an object, or 4 with a line and nothing written."""
        path = os.path.join(self.work, str(number))
        with open(path, "wb") as file:
            file.write(text)
        done = subprocess.run([self.program, "compile", path, "--slot-seed", "1", "--reg-seed", "2"], stdin=subprocess.DEVNULL, capture_output=True, check=False)
        os.remove(path)
        line = done.stderr.decode("latin-1")
        one_line = line.count("\n") == 1 and line.endswith("\n")
        answers = (done.returncode == 0 and done.stdout and not line) or (done.returncode == 4 and not done.stdout and one_line)
        return line.strip(), done.returncode, answers

    def same(self, number, text, wanted):
        line, status, answers = self.told(number, text)
        is_fault = line.split(" ")[0] in ("lex", "grammar", "unsupported")
        if answers and (line == wanted if wanted else not is_fault):
            return None
        return f"status {status}, '{line[:80]}' in place of '{wanted}': {text[:300]!r}"


def cases(reader, rng):
    """The texts, and what has to be said of each."""
    long = LONG.encode("latin-1")
    yield long, None
    for text in (long[:k] for k in range(len(long))):
        yield text, reader.told(text)
    for text in (*edited(LONG), *edited(SHORT), *edges()):
        yield text, reader.told(text)
    words = list(with_words(SHORT, reader.notation.unsupported))
    for text in (*words, *rng.sample(list(with_words(LONG, reader.notation.unsupported)), 1000)):
        yield text, reader.told(text)
    # What the second reader would take minutes for.
    for opens in (b"(", b"[", b"{"):
        text = b"attributes #0 = " + opens * 1_000_000
        yield text, f"grammar {len(text)}"
    yield b"@g = global " + b"[1 x " * 1_000_000, "grammar 332"
    yield b"@g = global i8 " + b"[i8 " * 1_000_000, "grammar 271"


def main():
    program, seed = sys.argv[1], int(sys.argv[2])
    failed = count = 0
    with tempfile.TemporaryDirectory() as work, concurrent.futures.ThreadPoolExecutor(os.cpu_count()) as pool:
        one = Program(program, work)
        running = [pool.submit(one.same, number, text, wanted) for number, (text, wanted) in enumerate(cases(one.reader, random.Random(seed)))]
        for done in running:
            problem = done.result()
            count += 1
            if problem:
                failed += 1
                if failed <= 20:
                    print(problem)
    print(f"{count} texts, {failed} differences")
    return 1 if failed else 0


if __name__ == "__main__":
    sys.exit(main())
