define i32 @main() {
 %p2 = mul i32 1, 2
 %p3 = mul i32 %p2, 3
 %p4 = mul i32 %p3, 4
 %p5 = mul i32 %p4, 5
 ret i32 %p5
}
