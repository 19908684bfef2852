; The size of a frame is known once the deployment's channels are.
define i32 @main(i32 %channels, i32 %rate) {
  %header = add i32 20, 4
  %size = call i32 @frame(i32 %header, i32 %channels, i32 %rate)
  ret i32 %size
}
define internal i32 @frame(i32 %header, i32 %channels, i32 %rate) {
  %twice = add i32 %channels, %channels
  %fixed = add i32 %header, %twice
  %body = call i32 @pad(i32 %fixed, i32 %rate)
  ret i32 %body
}
define internal i32 @pad(i32 %fixed, i32 %rate) {
  %more = add i32 %fixed, 3
  %all = add i32 %more, %rate
  ret i32 %all
}
define i32 @spare(i32 %x) {
  ret i32 %x
}
