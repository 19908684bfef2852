define i32 @main(i32 %a0, i32 %a1) {
b0:
  %v0 = call i32 @"(24,2,_)frame"(i32 %a1)
  ret i32 %v0
}
define internal i32 @"(24,2,_)frame"(i32 %a0) {
b0:
  %v0 = call i32 @"(28,_)pad"(i32 %a0)
  ret i32 %v0
}
define internal i32 @"(28,_)pad"(i32 %a0) {
b0:
  %v0 = add i32 31, %a0
  ret i32 %v0
}
