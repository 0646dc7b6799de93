define i32 @main() {
 %a = mul i32 65536, 65536
 %b = add i32 %a, 42
 ret i32 %b
}
