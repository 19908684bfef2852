define i32 @main() {
b0:
  %v0 = call i32 @two()
  %v1 = add i32 %v0, 1
  ret i32 %v1
}
define internal i32 @two() {
b0:
  ret i32 2
}
