define i32 @main() {
 %a = sub i32 0, -2147483648
 %b = sub i32 %a, 1
 %c = sub i32 %b, 2147483600
 ret i32 %c
}
