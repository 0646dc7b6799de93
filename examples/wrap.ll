define i32 @main() {
 %a = add i32 4294967295, 4
 ret i32 %a
}
