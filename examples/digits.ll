; 65536 in decimal digits, by a function that calls itself; the status is how many there are.
declare i32 @putchar(i32)

define i32 @main() {
  %count = call i32 @print(i32 65536)
  ret i32 %count
}

define internal i32 @print(i32 %n) {
entry:
  %small = icmp ult i32 %n, 10
  br i1 %small, label %last, label %front

front:
  %rest = udiv i32 %n, 10
  %before = call i32 @print(i32 %rest)
  br label %last

last:
  %printed = phi i32 [ 0, %entry ], [ %before, %front ]
  %digit = urem i32 %n, 10
  %letter = add i32 %digit, 48
  %put = call i32 @putchar(i32 %letter)
  %count = add i32 %printed, 1
  ret i32 %count
}
