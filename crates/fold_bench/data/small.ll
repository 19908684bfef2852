define i32 @f() {
entry:
  %u = add i32 undef, 1
  %a = add i32 1, 2
  %c = icmp eq i32 %a, 3
  br i1 %c, label %x, label %y
x:
  %b = add i32 %a, %u
  ret i32 %b
y:
  ret i32 %u
}
