; Each byte of the input is printed; the status is how many there were.
declare i32 @getchar()
declare i32 @putchar(i32)

define i32 @main() {
entry:
  br label %loop

loop:
  %count = phi i32 [ 0, %entry ], [ %more, %some ]
  %byte = call i32 @getchar()
  %none = icmp slt i32 %byte, 0
  br i1 %none, label %end, label %some

some:
  %put = call i32 @putchar(i32 %byte)
  %more = add i32 %count, 1
  br label %loop

end:
  ret i32 %count
}
