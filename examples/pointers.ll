; Three functions through a table of pointers, one after another: ((5 + 1) * 6) - 7.
@steps = constant [3 x ptr] [ptr @plus_one, ptr @times_six, ptr @minus_seven]

define i32 @main() {
entry:
  br label %loop

loop:
  %i = phi i64 [ 0, %entry ], [ %next, %loop ]
  %n = phi i32 [ 5, %entry ], [ %done, %loop ]
  %place = getelementptr [3 x ptr], ptr @steps, i64 0, i64 %i
  %step = load ptr, ptr %place
  %done = call i32 %step(i32 %n)
  %next = add i64 %i, 1
  %last = icmp eq i64 %next, 3
  br i1 %last, label %end, label %loop

end:
  ret i32 %done
}

define internal i32 @plus_one(i32 %n) {
  %m = add i32 %n, 1
  ret i32 %m
}

define internal i32 @times_six(i32 %n) {
  %m = mul i32 %n, 6
  ret i32 %m
}

define internal i32 @minus_seven(i32 %n) {
  %m = sub i32 %n, 7
  ret i32 %m
}
