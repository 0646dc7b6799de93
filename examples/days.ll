; The days of a year, month by month, by a switch: 365 in all, whose low 8 bits are 109.
define i32 @main() {
entry:
  br label %loop

loop:
  %month = phi i32 [ 1, %entry ], [ %next, %loop ]
  %sum = phi i32 [ 0, %entry ], [ %more, %loop ]
  %days = call i32 @days_of(i32 %month)
  %more = add i32 %sum, %days
  %next = add i32 %month, 1
  %last = icmp eq i32 %month, 12
  br i1 %last, label %done, label %loop

done:
  ret i32 %more
}

define internal i32 @days_of(i32 %month) {
entry:
  switch i32 %month, label %long [
    i32 2, label %february
    i32 4, label %short
    i32 6, label %short
    i32 9, label %short
    i32 11, label %short
  ]

february:
  ret i32 28

short:
  ret i32 30

long:
  ret i32 31
}
