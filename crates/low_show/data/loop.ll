define i32 @main() {
e:
  br label %h
h:
  %i = phi i32 [ 0, %e ], [ %j, %h ]
  %j = add i32 %i, 1
  switch i32 %j, label %h [
    i32 5, label %z
    i32 -1, label %z
  ]
z:
  %k = phi i32 [ %j, %h ], [ %j, %h ]
  ret i32 %k
}
