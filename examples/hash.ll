define i32 @main() {
 %m0 = mul i32 5381, 33
 %h0 = add i32 %m0, 71
 %m1 = mul i32 %h0, 33
 %h1 = add i32 %m1, 69
 %m2 = mul i32 %h1, 33
 %h2 = add i32 %m2, 84
 %m3 = mul i32 %h2, 33
 %h3 = add i32 %m3, 32
 %m4 = mul i32 %h3, 33
 %h4 = add i32 %m4, 47
 ret i32 %h4
}
