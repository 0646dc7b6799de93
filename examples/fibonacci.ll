define i32 @main() {
 %f2 = add i32 0, 1
 %f3 = add i32 1, %f2
 %f4 = add i32 %f2, %f3
 %f5 = add i32 %f3, %f4
 %f6 = add i32 %f4, %f5
 %f7 = add i32 %f5, %f6
 %f8 = add i32 %f6, %f7
 %f9 = add i32 %f7, %f8
 %f10 = add i32 %f8, %f9
 %f11 = add i32 %f9, %f10
 %f12 = add i32 %f10, %f11
 %f13 = add i32 %f11, %f12
 ret i32 %f13
}
