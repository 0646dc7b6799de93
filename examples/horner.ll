define i32 @main() {
 %x = add i32 4, 5
 %a = mul i32 2, %x
 %b = sub i32 %a, 3
 %c = mul i32 %b, %x
 %d = add i32 %c, 5
 %e = mul i32 %d, %x
 %f = sub i32 %e, 7
 ret i32 %f
}
