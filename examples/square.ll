define i32 @main() {
 %a = add i32 40, 2
 %b = mul i32 %a, %a
 %c = sub i32 %b, 1
 ret i32 %c
}
