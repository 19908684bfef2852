define i32 @main() {
  %r = call i32 @two()
  %s = add i32 %r, 1
  ret i32 %s
}
define internal i32 @two() {
  ret i32 2
}
define i32 @gone() {
  ret i32 9
}
