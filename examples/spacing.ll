

  define   i32
@main()
{
%_ = add i32 20,
1
%A9_x
=
add i32 %_,   %_
ret i32   %A9_x   }

