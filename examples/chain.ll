; Four links, each with a letter, a number and a pointer to the next: the letters are printed, and the numbers added.
%link = type { i8, i32, ptr }
@a = global %link { i8 87, i32 10, ptr @b }
@b = global %link { i8 97, i32 20, ptr @c }
@c = global %link { i8 108, i32 30, ptr @d }
@d = global %link { i8 107, i32 40, ptr null }

declare i32 @putchar(i32)

define i32 @main() {
entry:
  br label %test

test:
  %at = phi ptr [ @a, %entry ], [ %next, %walk ]
  %sum = phi i32 [ 0, %entry ], [ %more, %walk ]
  %end = icmp eq ptr %at, null
  br i1 %end, label %done, label %walk

walk:
  %letter = load i8, ptr %at
  %wide = zext i8 %letter to i32
  %put = call i32 @putchar(i32 %wide)
  %number_at = getelementptr %link, ptr %at, i64 0, i32 1
  %number = load i32, ptr %number_at
  %more = add i32 %sum, %number
  %next_at = getelementptr %link, ptr %at, i64 0, i32 2
  %next = load ptr, ptr %next_at
  br label %test

done:
  ret i32 %sum
}
