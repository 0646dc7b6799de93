; A text is copied to the stack, its first letter changed there, and both are printed.
@text = constant [5 x i8] c"cat\0A\00"

declare i32 @putchar(i32)
declare void @llvm.memcpy.p0.p0.i64(ptr, ptr, i64, i1)

define i32 @main() {
  %copy = alloca [5 x i8]
  call void @llvm.memcpy.p0.p0.i64(ptr %copy, ptr @text, i64 5, i1 false)
  store i8 98, ptr %copy
  %first = call i32 @print(ptr @text)
  %second = call i32 @print(ptr %copy)
  %both = add i32 %first, %second
  ret i32 %both
}

define internal i32 @print(ptr %text) {
entry:
  br label %loop

loop:
  %count = phi i32 [ 0, %entry ], [ %more, %some ]
  %at = phi ptr [ %text, %entry ], [ %next, %some ]
  %letter = load i8, ptr %at
  %end = icmp eq i8 %letter, 0
  br i1 %end, label %done, label %some

some:
  %wide = zext i8 %letter to i32
  %put = call i32 @putchar(i32 %wide)
  %next = getelementptr i8, ptr %at, i64 1
  %more = add i32 %count, 1
  br label %loop

done:
  ret i32 %count
}
