define i32 @main() {
 %a = sub i32 3, 10
 %b = mul i32 %a, -9
 ret i32 %b
}
