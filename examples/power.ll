define i32 @main() {
 %x2 = mul i32 3, 3
 %x4 = mul i32 %x2, %x2
 %x5 = mul i32 %x4, 3
 %x10 = mul i32 %x5, %x5
 %x20 = mul i32 %x10, %x10
 ret i32 %x20
}
