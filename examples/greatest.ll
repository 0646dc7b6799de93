; The greatest of seven numbers: a loop over an array, with phis.
@numbers = constant [7 x i32] [i32 17, i32 -4, i32 93, i32 8, i32 110, i32 -120, i32 56]

define i32 @main() {
entry:
  br label %loop

loop:
  %i = phi i64 [ 0, %entry ], [ %next, %loop ]
  %best = phi i32 [ -2147483648, %entry ], [ %better, %loop ]
  %place = getelementptr [7 x i32], ptr @numbers, i64 0, i64 %i
  %number = load i32, ptr %place
  %more = icmp sgt i32 %number, %best
  %better = select i1 %more, i32 %number, i32 %best
  %next = add i64 %i, 1
  %last = icmp eq i64 %next, 7
  br i1 %last, label %done, label %loop

done:
  ret i32 %better
}
