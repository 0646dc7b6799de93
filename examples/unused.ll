define i32 @main() {
 %a = add i32 1, 2
 %b = mul i32 %a, 1000
 %c = sub i32 %a, 1
 ret i32 %c
}
