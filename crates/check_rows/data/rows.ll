; == operands: add i32
define void @f(i32 %x, i64 %l, ptr %p, i1 %c) {
  %r = add i32 %x, %x
  ret void
}
@g = external global i32
declare i32 @callee(i32, ptr)
declare i32 @printf(ptr, ...)
declare void @llvm.memcpy.p0.p0.i64(ptr, ptr, i64, i1)
; == operands: add of another type
define void @f(i32 %x, i64 %l, ptr %p, i1 %c) {
  %r = add i64 %x, %x
  ret void
}
@g = external global i32
declare i32 @callee(i32, ptr)
declare i32 @printf(ptr, ...)
declare void @llvm.memcpy.p0.p0.i64(ptr, ptr, i64, i1)
; == operands: add of pointers
define void @f(i32 %x, i64 %l, ptr %p, i1 %c) {
  %r = add ptr %p, %p
  ret void
}
@g = external global i32
declare i32 @callee(i32, ptr)
declare i32 @printf(ptr, ...)
declare void @llvm.memcpy.p0.p0.i64(ptr, ptr, i64, i1)
; == operands: add of a parameter that is not there
define void @f(i32 %x, i64 %l, ptr %p, i1 %c) {
  %r = add i32 %4, %4
  ret void
}
@g = external global i32
declare i32 @callee(i32, ptr)
declare i32 @printf(ptr, ...)
declare void @llvm.memcpy.p0.p0.i64(ptr, ptr, i64, i1)
; == operands: comparison of pointers
define void @f(i32 %x, i64 %l, ptr %p, i1 %c) {
  %r = icmp eq ptr %p, %p
  ret void
}
@g = external global i32
declare i32 @callee(i32, ptr)
declare i32 @printf(ptr, ...)
declare void @llvm.memcpy.p0.p0.i64(ptr, ptr, i64, i1)
; == operands: comparison at another type
define void @f(i32 %x, i64 %l, ptr %p, i1 %c) {
  %r = icmp eq i8 %p, %p
  ret void
}
@g = external global i32
declare i32 @callee(i32, ptr)
declare i32 @printf(ptr, ...)
declare void @llvm.memcpy.p0.p0.i64(ptr, ptr, i64, i1)
; == operands: select
define void @f(i32 %x, i64 %l, ptr %p, i1 %c) {
  %r = select i1 %c, i32 %x, i32 7
  ret void
}
@g = external global i32
declare i32 @callee(i32, ptr)
declare i32 @printf(ptr, ...)
declare void @llvm.memcpy.p0.p0.i64(ptr, ptr, i64, i1)
; == operands: select by a number
define void @f(i32 %x, i64 %l, ptr %p, i1 %c) {
  %r = select i1 %x, i32 %x, i32 7
  ret void
}
@g = external global i32
declare i32 @callee(i32, ptr)
declare i32 @printf(ptr, ...)
declare void @llvm.memcpy.p0.p0.i64(ptr, ptr, i64, i1)
; == casts: zext
define void @f(i32 %x, i64 %l, ptr %p, i1 %c) {
  %r = zext i32 %x to i64
  ret void
}
@g = external global i32
declare i32 @callee(i32, ptr)
declare i32 @printf(ptr, ...)
declare void @llvm.memcpy.p0.p0.i64(ptr, ptr, i64, i1)
; == casts: zext to the same width
define void @f(i32 %x, i64 %l, ptr %p, i1 %c) {
  %r = zext i32 %x to i32
  ret void
}
@g = external global i32
declare i32 @callee(i32, ptr)
declare i32 @printf(ptr, ...)
declare void @llvm.memcpy.p0.p0.i64(ptr, ptr, i64, i1)
; == casts: zext to a pointer
define void @f(i32 %x, i64 %l, ptr %p, i1 %c) {
  %r = zext i32 %x to ptr
  ret void
}
@g = external global i32
declare i32 @callee(i32, ptr)
declare i32 @printf(ptr, ...)
declare void @llvm.memcpy.p0.p0.i64(ptr, ptr, i64, i1)
; == casts: sext
define void @f(i32 %x, i64 %l, ptr %p, i1 %c) {
  %r = sext i1 %c to i8
  ret void
}
@g = external global i32
declare i32 @callee(i32, ptr)
declare i32 @printf(ptr, ...)
declare void @llvm.memcpy.p0.p0.i64(ptr, ptr, i64, i1)
; == casts: sext to a narrower one
define void @f(i32 %x, i64 %l, ptr %p, i1 %c) {
  %r = sext i64 %l to i8
  ret void
}
@g = external global i32
declare i32 @callee(i32, ptr)
declare i32 @printf(ptr, ...)
declare void @llvm.memcpy.p0.p0.i64(ptr, ptr, i64, i1)
; == casts: trunc
define void @f(i32 %x, i64 %l, ptr %p, i1 %c) {
  %r = trunc i64 %l to i32
  ret void
}
@g = external global i32
declare i32 @callee(i32, ptr)
declare i32 @printf(ptr, ...)
declare void @llvm.memcpy.p0.p0.i64(ptr, ptr, i64, i1)
; == casts: trunc to the same width
define void @f(i32 %x, i64 %l, ptr %p, i1 %c) {
  %r = trunc i32 %x to i32
  ret void
}
@g = external global i32
declare i32 @callee(i32, ptr)
declare i32 @printf(ptr, ...)
declare void @llvm.memcpy.p0.p0.i64(ptr, ptr, i64, i1)
; == sizes: 2^31 - 1 bytes
define void @f(i32 %x, i64 %l, ptr %p, i1 %c) {
  %r = alloca [2147483647 x i8]
  ret void
}
@g = external global i32
declare i32 @callee(i32, ptr)
declare i32 @printf(ptr, ...)
declare void @llvm.memcpy.p0.p0.i64(ptr, ptr, i64, i1)
; == sizes: twice 2^31 - 1 bytes
define void @f(i32 %x, i64 %l, ptr %p, i1 %c) {
  %r = alloca [2147483647 x i8], i64 2
  ret void
}
@g = external global i32
declare i32 @callee(i32, ptr)
declare i32 @printf(ptr, ...)
declare void @llvm.memcpy.p0.p0.i64(ptr, ptr, i64, i1)
; == sizes: none of 2^31 bytes
define void @f(i32 %x, i64 %l, ptr %p, i1 %c) {
  %r = alloca [2147483648 x i8], i64 0
  ret void
}
@g = external global i32
declare i32 @callee(i32, ptr)
declare i32 @printf(ptr, ...)
declare void @llvm.memcpy.p0.p0.i64(ptr, ptr, i64, i1)
; == sizes: 2^31 - 1 of one byte
define void @f(i32 %x, i64 %l, ptr %p, i1 %c) {
  %r = alloca i8, i64 2147483647
  ret void
}
@g = external global i32
declare i32 @callee(i32, ptr)
declare i32 @printf(ptr, ...)
declare void @llvm.memcpy.p0.p0.i64(ptr, ptr, i64, i1)
; == sizes: 2^31 of one byte
define void @f(i32 %x, i64 %l, ptr %p, i1 %c) {
  %r = alloca i8, i64 2147483648
  ret void
}
@g = external global i32
declare i32 @callee(i32, ptr)
declare i32 @printf(ptr, ...)
declare void @llvm.memcpy.p0.p0.i64(ptr, ptr, i64, i1)
; == sizes: 2^28 - 1 of eight bytes
define void @f(i32 %x, i64 %l, ptr %p, i1 %c) {
  %r = alloca i64, i64 268435455
  ret void
}
@g = external global i32
declare i32 @callee(i32, ptr)
declare i32 @printf(ptr, ...)
declare void @llvm.memcpy.p0.p0.i64(ptr, ptr, i64, i1)
; == sizes: 2^28 of eight bytes
define void @f(i32 %x, i64 %l, ptr %p, i1 %c) {
  %r = alloca i64, i64 268435456
  ret void
}
@g = external global i32
declare i32 @callee(i32, ptr)
declare i32 @printf(ptr, ...)
declare void @llvm.memcpy.p0.p0.i64(ptr, ptr, i64, i1)
; == sizes: 2^64 - 1 of eight bytes
define void @f(i32 %x, i64 %l, ptr %p, i1 %c) {
  %r = alloca i64, i64 -1
  ret void
}
@g = external global i32
declare i32 @callee(i32, ptr)
declare i32 @printf(ptr, ...)
declare void @llvm.memcpy.p0.p0.i64(ptr, ptr, i64, i1)
; == memory: load
define void @f(i32 %x, i64 %l, ptr %p, i1 %c) {
  %r = load i32, ptr %p
  ret void
}
@g = external global i32
declare i32 @callee(i32, ptr)
declare i32 @printf(ptr, ...)
declare void @llvm.memcpy.p0.p0.i64(ptr, ptr, i64, i1)
; == memory: load from a number
define void @f(i32 %x, i64 %l, ptr %p, i1 %c) {
  %r = load i32, ptr %x
  ret void
}
@g = external global i32
declare i32 @callee(i32, ptr)
declare i32 @printf(ptr, ...)
declare void @llvm.memcpy.p0.p0.i64(ptr, ptr, i64, i1)
; == memory: load from an intrinsic
define void @f(i32 %x, i64 %l, ptr %p, i1 %c) {
  %r = load i32, ptr @llvm.memcpy.p0.p0.i64
  ret void
}
@g = external global i32
declare i32 @callee(i32, ptr)
declare i32 @printf(ptr, ...)
declare void @llvm.memcpy.p0.p0.i64(ptr, ptr, i64, i1)
; == memory: store
define void @f(i32 %x, i64 %l, ptr %p, i1 %c) {
  store i32 %x, ptr %p
  ret void
}
@g = external global i32
declare i32 @callee(i32, ptr)
declare i32 @printf(ptr, ...)
declare void @llvm.memcpy.p0.p0.i64(ptr, ptr, i64, i1)
; == memory: store of another type
define void @f(i32 %x, i64 %l, ptr %p, i1 %c) {
  store i64 %x, ptr %p
  ret void
}
@g = external global i32
declare i32 @callee(i32, ptr)
declare i32 @printf(ptr, ...)
declare void @llvm.memcpy.p0.p0.i64(ptr, ptr, i64, i1)
; == memory: store of an address
define void @f(i32 %x, i64 %l, ptr %p, i1 %c) {
  store ptr @g, ptr %p
  ret void
}
@g = external global i32
declare i32 @callee(i32, ptr)
declare i32 @printf(ptr, ...)
declare void @llvm.memcpy.p0.p0.i64(ptr, ptr, i64, i1)
; == memory: store of an intrinsic
define void @f(i32 %x, i64 %l, ptr %p, i1 %c) {
  store ptr @llvm.memcpy.p0.p0.i64, ptr %p
  ret void
}
@g = external global i32
declare i32 @callee(i32, ptr)
declare i32 @printf(ptr, ...)
declare void @llvm.memcpy.p0.p0.i64(ptr, ptr, i64, i1)
; == memory: store to a register that is not there
define void @f(i32 %x, i64 %l, ptr %p, i1 %c) {
  store i32 %x, ptr %r
  ret void
}
@g = external global i32
declare i32 @callee(i32, ptr)
declare i32 @printf(ptr, ...)
declare void @llvm.memcpy.p0.p0.i64(ptr, ptr, i64, i1)
; == walks: over whole values
define void @f(i32 %x, i64 %l, ptr %p, i1 %c) {
  %r = getelementptr inbounds { i32, [2 x i64] }, ptr %p, i64 %l
  ret void
}
@g = external global i32
declare i32 @callee(i32, ptr)
declare i32 @printf(ptr, ...)
declare void @llvm.memcpy.p0.p0.i64(ptr, ptr, i64, i1)
; == walks: to an element of a field
define void @f(i32 %x, i64 %l, ptr %p, i1 %c) {
  %r = getelementptr inbounds { i32, [2 x i64] }, ptr %p, i64 %l, i32 1, i64 %l
  ret void
}
@g = external global i32
declare i32 @callee(i32, ptr)
declare i32 @printf(ptr, ...)
declare void @llvm.memcpy.p0.p0.i64(ptr, ptr, i64, i1)
; == walks: into a scalar
define void @f(i32 %x, i64 %l, ptr %p, i1 %c) {
  %r = getelementptr inbounds { i32, [2 x i64] }, ptr %p, i64 %l, i32 0, i32 0
  ret void
}
@g = external global i32
declare i32 @callee(i32, ptr)
declare i32 @printf(ptr, ...)
declare void @llvm.memcpy.p0.p0.i64(ptr, ptr, i64, i1)
; == walks: to a field by a register
define void @f(i32 %x, i64 %l, ptr %p, i1 %c) {
  %r = getelementptr inbounds { i32, [2 x i64] }, ptr %p, i64 %l, i32 %x
  ret void
}
@g = external global i32
declare i32 @callee(i32, ptr)
declare i32 @printf(ptr, ...)
declare void @llvm.memcpy.p0.p0.i64(ptr, ptr, i64, i1)
; == walks: to a field by a number of i64
define void @f(i32 %x, i64 %l, ptr %p, i1 %c) {
  %r = getelementptr inbounds { i32, [2 x i64] }, ptr %p, i64 %l, i64 1
  ret void
}
@g = external global i32
declare i32 @callee(i32, ptr)
declare i32 @printf(ptr, ...)
declare void @llvm.memcpy.p0.p0.i64(ptr, ptr, i64, i1)
; == walks: to a field out of range
define void @f(i32 %x, i64 %l, ptr %p, i1 %c) {
  %r = getelementptr inbounds { i32, [2 x i64] }, ptr %p, i64 %l, i32 2
  ret void
}
@g = external global i32
declare i32 @callee(i32, ptr)
declare i32 @printf(ptr, ...)
declare void @llvm.memcpy.p0.p0.i64(ptr, ptr, i64, i1)
; == walks: by an index of another type
define void @f(i32 %x, i64 %l, ptr %p, i1 %c) {
  %r = getelementptr inbounds { i32, [2 x i64] }, ptr %p, i64 %l, i32 1, i32 %l
  ret void
}
@g = external global i32
declare i32 @callee(i32, ptr)
declare i32 @printf(ptr, ...)
declare void @llvm.memcpy.p0.p0.i64(ptr, ptr, i64, i1)
; == walks: over 2^31 - 1 bytes
define void @f(i32 %x, i64 %l, ptr %p, i1 %c) {
  %r = getelementptr [2147483647 x i8], ptr %p
  ret void
}
@g = external global i32
declare i32 @callee(i32, ptr)
declare i32 @printf(ptr, ...)
declare void @llvm.memcpy.p0.p0.i64(ptr, ptr, i64, i1)
; == walks: over 2^31 bytes
define void @f(i32 %x, i64 %l, ptr %p, i1 %c) {
  %r = getelementptr [2147483648 x i8], ptr %p
  ret void
}
@g = external global i32
declare i32 @callee(i32, ptr)
declare i32 @printf(ptr, ...)
declare void @llvm.memcpy.p0.p0.i64(ptr, ptr, i64, i1)
; == calls: as many arguments
define void @f(i32 %x, i64 %l, ptr %p, i1 %c) {
  %r = call i32 (i32, ptr) @callee(i32 %x, ptr @g)
  ret void
}
@g = external global i32
declare i32 @callee(i32, ptr)
declare i32 @printf(ptr, ...)
declare void @llvm.memcpy.p0.p0.i64(ptr, ptr, i64, i1)
; == calls: one argument more
define void @f(i32 %x, i64 %l, ptr %p, i1 %c) {
  %r = call i32 (i32, ptr) @callee(i32 %x, ptr @g, i64 %l)
  ret void
}
@g = external global i32
declare i32 @callee(i32, ptr)
declare i32 @printf(ptr, ...)
declare void @llvm.memcpy.p0.p0.i64(ptr, ptr, i64, i1)
; == calls: one argument fewer
define void @f(i32 %x, i64 %l, ptr %p, i1 %c) {
  %r = call i32 (i32, ptr) @callee(i32 1)
  ret void
}
@g = external global i32
declare i32 @callee(i32, ptr)
declare i32 @printf(ptr, ...)
declare void @llvm.memcpy.p0.p0.i64(ptr, ptr, i64, i1)
; == calls: an argument of another type than the callee has
define void @f(i32 %x, i64 %l, ptr %p, i1 %c) {
  %r = call i32 (i32, ptr) @callee(i32 1, i64 1)
  ret void
}
@g = external global i32
declare i32 @callee(i32, ptr)
declare i32 @printf(ptr, ...)
declare void @llvm.memcpy.p0.p0.i64(ptr, ptr, i64, i1)
; == calls: an argument of another type than is written
define void @f(i32 %x, i64 %l, ptr %p, i1 %c) {
  %r = call i32 (i32, ptr) @callee(i32 %l, ptr @g)
  ret void
}
@g = external global i32
declare i32 @callee(i32, ptr)
declare i32 @printf(ptr, ...)
declare void @llvm.memcpy.p0.p0.i64(ptr, ptr, i64, i1)
; == calls: more arguments through a pointer
define void @f(i32 %x, i64 %l, ptr %p, i1 %c) {
  %r = call i32 (i32, ptr, ...) %p(i32 %x, ptr @g, i64 %l, i64 %l)
  ret void
}
@g = external global i32
declare i32 @callee(i32, ptr)
declare i32 @printf(ptr, ...)
declare void @llvm.memcpy.p0.p0.i64(ptr, ptr, i64, i1)
; == calls: too few for a variadic type
define void @f(i32 %x, i64 %l, ptr %p, i1 %c) {
  %r = call i32 (i32, ptr, ...) %p(i32 1)
  ret void
}
@g = external global i32
declare i32 @callee(i32, ptr)
declare i32 @printf(ptr, ...)
declare void @llvm.memcpy.p0.p0.i64(ptr, ptr, i64, i1)
; == calls: a variadic type of a callee that is not variadic
define void @f(i32 %x, i64 %l, ptr %p, i1 %c) {
  %r = call i32 (i32, ptr, ...) @callee(i32 %x, ptr @g)
  ret void
}
@g = external global i32
declare i32 @callee(i32, ptr)
declare i32 @printf(ptr, ...)
declare void @llvm.memcpy.p0.p0.i64(ptr, ptr, i64, i1)
; == calls: another callee
define void @f(i32 %x, i64 %l, ptr %p, i1 %c) {
  %r = call i32 (i32, ptr) @printf(i32 %x, ptr @g)
  ret void
}
@g = external global i32
declare i32 @callee(i32, ptr)
declare i32 @printf(ptr, ...)
declare void @llvm.memcpy.p0.p0.i64(ptr, ptr, i64, i1)
; == calls: a variable as the callee
define void @f(i32 %x, i64 %l, ptr %p, i1 %c) {
  %r = call i32 (i32, ptr) @g(i32 %x, ptr @g)
  ret void
}
@g = external global i32
declare i32 @callee(i32, ptr)
declare i32 @printf(ptr, ...)
declare void @llvm.memcpy.p0.p0.i64(ptr, ptr, i64, i1)
; == calls: a place behind the callee
define void @f(i32 %x, i64 %l, ptr %p, i1 %c) {
  %r = call i32 (i32, ptr) getelementptr (i8, ptr @callee, i64 8)(i32 %x, ptr @g)
  ret void
}
@g = external global i32
declare i32 @callee(i32, ptr)
declare i32 @printf(ptr, ...)
declare void @llvm.memcpy.p0.p0.i64(ptr, ptr, i64, i1)
; == calls: a number as the callee
define void @f(i32 %x, i64 %l, ptr %p, i1 %c) {
  %r = call i32 (i32, ptr) %x(i32 %x, ptr @g)
  ret void
}
@g = external global i32
declare i32 @callee(i32, ptr)
declare i32 @printf(ptr, ...)
declare void @llvm.memcpy.p0.p0.i64(ptr, ptr, i64, i1)
; == calls: a copy of memory
define void @f(i32 %x, i64 %l, ptr %p, i1 %c) {
  call void @llvm.memcpy.p0.p0.i64(ptr %p, ptr @g, i64 %l, i1 false)
  ret void
}
@g = external global i32
declare i32 @callee(i32, ptr)
declare i32 @printf(ptr, ...)
declare void @llvm.memcpy.p0.p0.i64(ptr, ptr, i64, i1)
; == calls: a copy from an intrinsic
define void @f(i32 %x, i64 %l, ptr %p, i1 %c) {
  call void @llvm.memcpy.p0.p0.i64(ptr %p, ptr @llvm.memcpy.p0.p0.i64, i64 %l, i1 false)
  ret void
}
@g = external global i32
declare i32 @callee(i32, ptr)
declare i32 @printf(ptr, ...)
declare void @llvm.memcpy.p0.p0.i64(ptr, ptr, i64, i1)
; == returned: a number
define i32 @f(i32 %x, i64 %l, ptr %p, i1 %c) {
  ret i32 %x
}
; == returned: a parameter of another type
define i32 @f(i32 %x, i64 %l, ptr %p, i1 %c) {
  ret i32 %l
}
; == returned: another type
define i32 @f(i32 %x, i64 %l, ptr %p, i1 %c) {
  ret i64 %l
}
; == returned: a number for void
define void @f(i32 %x, i64 %l, ptr %p, i1 %c) {
  ret i32 %x
}
; == returned: void for a number
define i32 @f(i32 %x, i64 %l, ptr %p, i1 %c) {
  ret void
}
; == returned: void
define void @f(i32 %x, i64 %l, ptr %p, i1 %c) {
  ret void
}
; == returned: nothing
define i32 @f(i32 %x, i64 %l, ptr %p, i1 %c) {
  unreachable
}
; == entries: one for each edge
define i32 @f(i32 %x, i64 %l, ptr %p, i1 %c) {
b0:
  br i1 %c, label %b1, label %b2
b1:
  br label %b3
b2:
  br label %b3
b3:
  %m = phi i32 [ 0, %b1 ], [ 1, %b2 ]
  ret i32 %m
}
; == entries: in another order
define i32 @f(i32 %x, i64 %l, ptr %p, i1 %c) {
b0:
  br i1 %c, label %b1, label %b2
b1:
  br label %b3
b2:
  br label %b3
b3:
  %m = phi i32 [ 0, %b2 ], [ 1, %b1 ]
  ret i32 %m
}
; == entries: a branch on a number
define i32 @f(i32 %x, i64 %l, ptr %p, i1 %c) {
b0:
  br i1 %x, label %b1, label %b2
b1:
  br label %b3
b2:
  br label %b3
b3:
  %m = phi i32 [ 0, %b1 ], [ 1, %b2 ]
  ret i32 %m
}
; == entries: one edge too few
define i32 @f(i32 %x, i64 %l, ptr %p, i1 %c) {
b0:
  br i1 %c, label %b1, label %b2
b1:
  br label %b3
b2:
  br label %b3
b3:
  %m = phi i32 [ 0, %b1 ]
  ret i32 %m
}
; == entries: one edge twice
define i32 @f(i32 %x, i64 %l, ptr %p, i1 %c) {
b0:
  br i1 %c, label %b1, label %b2
b1:
  br label %b3
b2:
  br label %b3
b3:
  %m = phi i32 [ 0, %b1 ], [ 1, %b2 ], [ 2, %b2 ]
  ret i32 %m
}
; == entries: a block that is no predecessor
define i32 @f(i32 %x, i64 %l, ptr %p, i1 %c) {
b0:
  br i1 %c, label %b1, label %b2
b1:
  br label %b3
b2:
  br label %b3
b3:
  %m = phi i32 [ 0, %b1 ], [ 1, %b0 ]
  ret i32 %m
}
; == entries: a block that is not there
define i32 @f(i32 %x, i64 %l, ptr %p, i1 %c) {
b0:
  br i1 %c, label %b1, label %b2
b1:
  br label %b3
b2:
  br label %b3
b3:
  %m = phi i32 [ 0, %b1 ], [ 1, %b9 ]
  ret i32 %m
}
; == entries: none
define i32 @f(i32 %x, i64 %l, ptr %p, i1 %c) {
b0:
  br i1 %c, label %b1, label %b2
b1:
  br label %b3
b2:
  br label %b3
b3:
  %m = phi i32 
  ret i32 %m
}
; == switches: two edges from one block
define i32 @f(i32 %x, i64 %l, ptr %p, i1 %c) {
b0:
  switch i32 %x, label %b1 [ i32 4, label %b3 i32 6, label %b3 ]
b1:
  br label %b3
b2:
  br label %b3
b3:
  %m = phi i32 [ 8, %b0 ], [ 8, %b0 ], [ %x, %b1 ], [ 5, %b2 ]
  ret i32 %m
}
; == switches: two edges from one block with different values
define i32 @f(i32 %x, i64 %l, ptr %p, i1 %c) {
b0:
  switch i32 %x, label %b1 [ i32 4, label %b3 i32 6, label %b3 ]
b1:
  br label %b3
b2:
  br label %b3
b3:
  %m = phi i32 [ 8, %b0 ], [ 9, %b0 ], [ %x, %b1 ], [ 5, %b2 ]
  ret i32 %m
}
; == switches: one edge too few
define i32 @f(i32 %x, i64 %l, ptr %p, i1 %c) {
b0:
  switch i32 %x, label %b1 [ i32 4, label %b3 i32 6, label %b3 ]
b1:
  br label %b3
b2:
  br label %b3
b3:
  %m = phi i32 [ 8, %b0 ], [ %x, %b1 ], [ 5, %b2 ]
  ret i32 %m
}
; == switches: one edge too many
define i32 @f(i32 %x, i64 %l, ptr %p, i1 %c) {
b0:
  switch i32 %x, label %b1 [ i32 4, label %b3 ]
b1:
  br label %b3
b2:
  br label %b3
b3:
  %m = phi i32 [ 8, %b0 ], [ 8, %b0 ], [ %x, %b1 ], [ 5, %b2 ]
  ret i32 %m
}
; == switches: a doubled case
define i32 @f(i32 %x, i64 %l, ptr %p, i1 %c) {
b0:
  switch i32 %x, label %b1 [ i32 4, label %b3 i32 4, label %b3 ]
b1:
  br label %b3
b2:
  br label %b3
b3:
  %m = phi i32 [ 8, %b0 ], [ 8, %b0 ], [ %x, %b1 ], [ 5, %b2 ]
  ret i32 %m
}
; == switches: another type
define i32 @f(i32 %x, i64 %l, ptr %p, i1 %c) {
b0:
  switch i64 %x, label %b1 [ i64 4, label %b3 ]
b1:
  br label %b3
b2:
  br label %b3
b3:
  %m = phi i32 [ 8, %b0 ], [ %x, %b1 ], [ 5, %b2 ]
  ret i32 %m
}
; == switches: on a pointer
define i32 @f(i32 %x, i64 %l, ptr %p, i1 %c) {
b0:
  switch ptr %x, label %b1 [ ]
b1:
  br label %b3
b2:
  br label %b3
b3:
  %m = phi i32 [ %x, %b1 ], [ 5, %b2 ]
  ret i32 %m
}
; == the first block is entered: by itself
define void @f(i32 %x, i64 %l, ptr %p, i1 %c) {
b0:
  br label %b0
}
; == the first block is entered: by a branch
define i32 @f(i32 %x, i64 %l, ptr %p, i1 %c) {
b0:
  br i1 %c, label %b0, label %b3
b1:
  br label %b3
b2:
  br label %b3
b3:
  %m = phi i32 [ 1, %b1 ], [ 2, %b2 ]
  ret i32 %m
}
; == a phi of another type
define i32 @f(i32 %x, i64 %l, ptr %p, i1 %c) {
b0:
  br i1 %c, label %b1, label %b2
b1:
  br label %b3
b2:
  br label %b3
b3:
  %m = phi i32 [ %l, %b1 ], [ 2, %b2 ]
  ret i32 %m
}
; == variables: 2^31 - 1 bytes
@v = external global [2147483647 x i8]
; == variables: 2^31 bytes
@v = external global [2147483648 x i8]
; == initialisers: a function
@v = global [2 x ptr] [ptr null, ptr @memory]
declare void @memory(ptr, ptr, i64, i1)
; == initialisers: a name of the intrinsics that is none
@v = global [2 x ptr] [ptr null, ptr @llvm.memory]
declare void @llvm.memory(ptr, ptr, i64, i1)
; == initialisers: a copy of memory
@v = global [2 x ptr] [ptr null, ptr @llvm.memcpy.p0.p0.i64]
declare void @llvm.memcpy.p0.p0.i64(ptr, ptr, i64, i1)
; == initialisers: a move of memory
@v = global [2 x ptr] [ptr null, ptr @llvm.memmove.p0.p0.i64]
declare void @llvm.memmove.p0.p0.i64(ptr, ptr, i64, i1)
; == intrinsics: a fill
declare void @llvm.memset.p0.i64(ptr, i8, i64, i1)
; == intrinsics: a fill with a pointer
declare void @llvm.memset.p0.i64(ptr, ptr, i64, i1)
; == intrinsics: a copy
declare void @llvm.memcpy.p0.p0.i64(ptr, ptr, i64, i1)
; == intrinsics: a copy of a byte
declare void @llvm.memcpy.p0.p0.i64(ptr, i8, i64, i1)
; == definitions: the type that is returned
define i32 @main(i32 %x) {
  ret i32 %x
}
; == definitions: another type
define i32 @main(i64 %x) {
  ret i32 %x
}
; == definitions: variadic
define i32 @main(i32 %x, ...) {
  ret i32 %x
}
; == the first of two
define i32 @a(i32 %x) {
  ret i32 %x
}
define i32 @b(i64 %x) {
  ret i32 %x
}
define i32 @c(i32 %x) {
  ret i32 %x
}
define i32 @d(i8 %x) {
  ret i32 %x
}
; == no items
; == paths: straight
define i32 @f(i32 %x, i1 %c) {
b0:
  %r0 = add i32 %x, %x
  %r1 = add i32 %r0, %x
  ret i32 %r1
}
; == paths: used in its own definition
define i32 @f(i32 %x, i1 %c) {
b0:
  %r0 = add i32 %r0, %x
  ret i32 %x
}
; == paths: used before it in its block
define i32 @f(i32 %x, i1 %c) {
b0:
  %r0 = add i32 %r1, %x
  %r1 = add i32 %x, %x
  ret i32 %x
}
; == paths: used before it in a loop of one block
define i32 @f(i32 %x, i1 %c) {
b0:
  br label %b1
b1:
  %r0 = add i32 %r1, %x
  %r1 = add i32 %x, %x
  br i1 %c, label %b1, label %b2
b2:
  ret i32 %x
}
; == paths: used where no path comes
define i32 @f(i32 %x, i1 %c) {
b0:
  ret i32 %x
b1:
  %r0 = add i32 %r0, %r1
  %r1 = add i32 %x, %x
  br label %b1
}
; == paths: used from where no path comes
define i32 @f(i32 %x, i1 %c) {
b0:
  br label %b2
b1:
  %r0 = add i32 %x, %x
  br label %b2
b2:
  ret i32 %r0
}
; == paths: defined on one side
define i32 @f(i32 %x, i1 %c) {
b0:
  br i1 %c, label %b1, label %b2
b1:
  %r0 = add i32 %x, %x
  br label %b2
b2:
  ret i32 %r0
}
; == paths: defined on both sides apart
define i32 @f(i32 %x, i1 %c) {
b0:
  br i1 %c, label %b1, label %b2
b1:
  %r0 = add i32 %x, %x
  br label %b3
b2:
  %r1 = add i32 %x, %x
  br label %b3
b3:
  %r2 = phi i32 [ %r0, %b1 ], [ %r1, %b2 ]
  ret i32 %r2
}
; == paths: phi takes the other side
define i32 @f(i32 %x, i1 %c) {
b0:
  br i1 %c, label %b1, label %b2
b1:
  %r0 = add i32 %x, %x
  br label %b3
b2:
  %r1 = add i32 %x, %x
  br label %b3
b3:
  %r2 = phi i32 [ %r1, %b1 ], [ %r0, %b2 ]
  ret i32 %r2
}
; == paths: loop
define i32 @f(i32 %x, i1 %c) {
b0:
  %r0 = add i32 %x, %x
  br label %b1
b1:
  %r1 = phi i32 [ %r0, %b0 ], [ %r2, %b1 ]
  %r2 = add i32 %r1, %r0
  %t1 = icmp eq i32 %r2, 0
  br i1 %t1, label %b1, label %b2
b2:
  ret i32 %r2
}
; == paths: defined in a loop that may not run
define i32 @f(i32 %x, i1 %c) {
b0:
  br label %b1
b1:
  br i1 %c, label %b2, label %b3
b2:
  %r0 = add i32 %x, %x
  br label %b1
b3:
  ret i32 %r0
}
; == paths: used in a loop after the definition behind it
define i32 @f(i32 %x, i1 %c) {
b0:
  br label %b1
b1:
  %r0 = add i32 %r0, %x
  br i1 %c, label %b2, label %b3
b2:
  %r1 = add i32 %x, %x
  br label %b1
b3:
  ret i32 %x
}
; == paths: defined in the first block of two loops
define i32 @f(i32 %x, i1 %c) {
b0:
  %r0 = add i32 %x, %x
  br label %b1
b1:
  %r1 = add i32 %r0, %x
  br label %b2
b2:
  %r2 = add i32 %r0, %r1
  switch i32 %r0, label %b2 [ i32 0, label %b1 i32 1, label %b3 ]
b3:
  ret i32 %r2
}
; == paths: irreducible from before
define i32 @f(i32 %x, i1 %c) {
b0:
  %r0 = add i32 %x, %x
  br i1 %c, label %b1, label %b2
b1:
  br label %b2
b2:
  br i1 %c, label %b1, label %b3
b3:
  ret i32 %r0
}
; == paths: irreducible past one entry
define i32 @f(i32 %x, i1 %c) {
b0:
  br i1 %c, label %b1, label %b2
b1:
  %r0 = add i32 %x, %x
  br label %b2
b2:
  br i1 %c, label %b1, label %b3
b3:
  ret i32 %r0
}
; == paths: irreducible through the other entry
define i32 @f(i32 %x, i1 %c) {
b0:
  br i1 %c, label %b1, label %b2
b1:
  br label %b2
b2:
  %r0 = add i32 %x, %x
  br i1 %c, label %b1, label %b3
b3:
  ret i32 %r0
}
; == paths: phi over two edges of one block
define i32 @f(i32 %x, i1 %c) {
b0:
  %r0 = add i32 %x, %x
  br i1 %c, label %b1, label %b1
b1:
  %r1 = phi i32 [ %r0, %b0 ], [ %r0, %b0 ]
  ret i32 %r1
}
; == paths: phi over edges of a switch
define i32 @f(i32 %x, i1 %c) {
b0:
  switch i32 %x, label %b1 [ i32 0, label %b2 i32 1, label %b2 ]
b1:
  %r0 = add i32 %x, %x
  br label %b2
b2:
  %r1 = phi i32 [ %x, %b0 ], [ %x, %b0 ], [ %r0, %b1 ]
  ret i32 %r1
}
; == paths: phi of itself over the back edge
define i32 @f(i32 %x, i1 %c) {
b0:
  br label %b1
b1:
  %r0 = phi i32 [ %x, %b0 ], [ %r0, %b1 ]
  br i1 %c, label %b1, label %b2
b2:
  ret i32 %r0
}
; == paths: phi of itself over the entry edge
define i32 @f(i32 %x, i1 %c) {
b0:
  br label %b1
b1:
  %r0 = phi i32 [ %r0, %b0 ], [ %x, %b1 ]
  br i1 %c, label %b1, label %b2
b2:
  ret i32 %r0
}
; == paths: phi of a result of its predecessor
define i32 @f(i32 %x, i1 %c) {
b0:
  %r0 = add i32 %x, %x
  br label %b1
b1:
  %r1 = phi i32 [ %r0, %b0 ]
  ret i32 %r1
}
; == paths: phi of a later result over the back edge
define i32 @f(i32 %x, i1 %c) {
b0:
  br label %b1
b1:
  %r0 = phi i32 [ %x, %b0 ], [ %r1, %b1 ]
  %r1 = add i32 %r0, %r0
  br i1 %c, label %b1, label %b2
b2:
  ret i32 %r1
}
; == paths: phi of a later result over the entry edge
define i32 @f(i32 %x, i1 %c) {
b0:
  br label %b1
b1:
  %r0 = phi i32 [ %r1, %b0 ], [ %x, %b1 ]
  %r1 = add i32 %r0, %r0
  br i1 %c, label %b1, label %b2
b2:
  ret i32 %r1
}
; == paths: phi of the phi before it
define i32 @f(i32 %x, i1 %c) {
b0:
  br label %b1
b1:
  %r0 = phi i32 [ %x, %b0 ], [ %r1, %b1 ]
  %r1 = phi i32 [ %x, %b0 ], [ %r0, %b1 ]
  br i1 %c, label %b1, label %b2
b2:
  ret i32 %r1
}
; == paths: used before the definition backwards
define i32 @f(i32 %x, i1 %c) {
b0:
  %r0 = add i32 %x, %x
  br label %b4
b1:
  ret i32 %x
b2:
  %r1 = add i32 %r0, %r0
  br label %b1
b3:
  %r2 = add i32 %r1, %x
  br label %b2
b4:
  br label %b3
}
; == paths: defined before the use backwards
define i32 @f(i32 %x, i1 %c) {
b0:
  %r0 = add i32 %x, %x
  br label %b4
b1:
  ret i32 %r1
b2:
  %r1 = add i32 %r0, %r0
  br label %b1
b3:
  br label %b2
b4:
  br label %b3
}
; == paths: 200 definitions
define void @f(i32 %x, i1 %c) {
b0:
  %r0 = add i32 %x, %x
  br label %b1
b1:
  %r1 = add i32 %x, %x
  br label %b2
b2:
  %r2 = add i32 %x, %x
  br label %b3
b3:
  %r3 = add i32 %x, %x
  br label %b4
b4:
  %r4 = add i32 %x, %x
  br label %b5
b5:
  %r5 = add i32 %x, %x
  br label %b6
b6:
  %r6 = add i32 %x, %x
  br label %b7
b7:
  %r7 = add i32 %x, %x
  br label %b8
b8:
  %r8 = add i32 %x, %x
  br label %b9
b9:
  %r9 = add i32 %x, %x
  br label %b10
b10:
  %r10 = add i32 %x, %x
  br label %b11
b11:
  %r11 = add i32 %x, %x
  br label %b12
b12:
  %r12 = add i32 %x, %x
  br label %b13
b13:
  %r13 = add i32 %x, %x
  br label %b14
b14:
  %r14 = add i32 %x, %x
  br label %b15
b15:
  %r15 = add i32 %x, %x
  br label %b16
b16:
  %r16 = add i32 %x, %x
  br label %b17
b17:
  %r17 = add i32 %x, %x
  br label %b18
b18:
  %r18 = add i32 %x, %x
  br label %b19
b19:
  %r19 = add i32 %x, %x
  br label %b20
b20:
  %r20 = add i32 %x, %x
  br label %b21
b21:
  %r21 = add i32 %x, %x
  br label %b22
b22:
  %r22 = add i32 %x, %x
  br label %b23
b23:
  %r23 = add i32 %x, %x
  br label %b24
b24:
  %r24 = add i32 %x, %x
  br label %b25
b25:
  %r25 = add i32 %x, %x
  br label %b26
b26:
  %r26 = add i32 %x, %x
  br label %b27
b27:
  %r27 = add i32 %x, %x
  br label %b28
b28:
  %r28 = add i32 %x, %x
  br label %b29
b29:
  %r29 = add i32 %x, %x
  br label %b30
b30:
  %r30 = add i32 %x, %x
  br label %b31
b31:
  %r31 = add i32 %x, %x
  br label %b32
b32:
  %r32 = add i32 %x, %x
  br label %b33
b33:
  %r33 = add i32 %x, %x
  br label %b34
b34:
  %r34 = add i32 %x, %x
  br label %b35
b35:
  %r35 = add i32 %x, %x
  br label %b36
b36:
  %r36 = add i32 %x, %x
  br label %b37
b37:
  %r37 = add i32 %x, %x
  br label %b38
b38:
  %r38 = add i32 %x, %x
  br label %b39
b39:
  %r39 = add i32 %x, %x
  br label %b40
b40:
  %r40 = add i32 %x, %x
  br label %b41
b41:
  %r41 = add i32 %x, %x
  br label %b42
b42:
  %r42 = add i32 %x, %x
  br label %b43
b43:
  %r43 = add i32 %x, %x
  br label %b44
b44:
  %r44 = add i32 %x, %x
  br label %b45
b45:
  %r45 = add i32 %x, %x
  br label %b46
b46:
  %r46 = add i32 %x, %x
  br label %b47
b47:
  %r47 = add i32 %x, %x
  br label %b48
b48:
  %r48 = add i32 %x, %x
  br label %b49
b49:
  %r49 = add i32 %x, %x
  br label %b50
b50:
  %r50 = add i32 %x, %x
  br label %b51
b51:
  %r51 = add i32 %x, %x
  br label %b52
b52:
  %r52 = add i32 %x, %x
  br label %b53
b53:
  %r53 = add i32 %x, %x
  br label %b54
b54:
  %r54 = add i32 %x, %x
  br label %b55
b55:
  %r55 = add i32 %x, %x
  br label %b56
b56:
  %r56 = add i32 %x, %x
  br label %b57
b57:
  %r57 = add i32 %x, %x
  br label %b58
b58:
  %r58 = add i32 %x, %x
  br label %b59
b59:
  %r59 = add i32 %x, %x
  br label %b60
b60:
  %r60 = add i32 %x, %x
  br label %b61
b61:
  %r61 = add i32 %x, %x
  br label %b62
b62:
  %r62 = add i32 %x, %x
  br label %b63
b63:
  %r63 = add i32 %x, %x
  br label %b64
b64:
  %r64 = add i32 %x, %x
  br label %b65
b65:
  %r65 = add i32 %x, %x
  br label %b66
b66:
  %r66 = add i32 %x, %x
  br label %b67
b67:
  %r67 = add i32 %x, %x
  br label %b68
b68:
  %r68 = add i32 %x, %x
  br label %b69
b69:
  %r69 = add i32 %x, %x
  br label %b70
b70:
  %r70 = add i32 %x, %x
  br label %b71
b71:
  %r71 = add i32 %x, %x
  br label %b72
b72:
  %r72 = add i32 %x, %x
  br label %b73
b73:
  %r73 = add i32 %x, %x
  br label %b74
b74:
  %r74 = add i32 %x, %x
  br label %b75
b75:
  %r75 = add i32 %x, %x
  br label %b76
b76:
  %r76 = add i32 %x, %x
  br label %b77
b77:
  %r77 = add i32 %x, %x
  br label %b78
b78:
  %r78 = add i32 %x, %x
  br label %b79
b79:
  %r79 = add i32 %x, %x
  br label %b80
b80:
  %r80 = add i32 %x, %x
  br label %b81
b81:
  %r81 = add i32 %x, %x
  br label %b82
b82:
  %r82 = add i32 %x, %x
  br label %b83
b83:
  %r83 = add i32 %x, %x
  br label %b84
b84:
  %r84 = add i32 %x, %x
  br label %b85
b85:
  %r85 = add i32 %x, %x
  br label %b86
b86:
  %r86 = add i32 %x, %x
  br label %b87
b87:
  %r87 = add i32 %x, %x
  br label %b88
b88:
  %r88 = add i32 %x, %x
  br label %b89
b89:
  %r89 = add i32 %x, %x
  br label %b90
b90:
  %r90 = add i32 %x, %x
  br label %b91
b91:
  %r91 = add i32 %x, %x
  br label %b92
b92:
  %r92 = add i32 %x, %x
  br label %b93
b93:
  %r93 = add i32 %x, %x
  br label %b94
b94:
  %r94 = add i32 %x, %x
  br label %b95
b95:
  %r95 = add i32 %x, %x
  br label %b96
b96:
  %r96 = add i32 %x, %x
  br label %b97
b97:
  %r97 = add i32 %x, %x
  br label %b98
b98:
  %r98 = add i32 %x, %x
  br label %b99
b99:
  %r99 = add i32 %x, %x
  br label %b100
b100:
  %r100 = add i32 %x, %x
  br label %b101
b101:
  %r101 = add i32 %x, %x
  br label %b102
b102:
  %r102 = add i32 %x, %x
  br label %b103
b103:
  %r103 = add i32 %x, %x
  br label %b104
b104:
  %r104 = add i32 %x, %x
  br label %b105
b105:
  %r105 = add i32 %x, %x
  br label %b106
b106:
  %r106 = add i32 %x, %x
  br label %b107
b107:
  %r107 = add i32 %x, %x
  br label %b108
b108:
  %r108 = add i32 %x, %x
  br label %b109
b109:
  %r109 = add i32 %x, %x
  br label %b110
b110:
  %r110 = add i32 %x, %x
  br label %b111
b111:
  %r111 = add i32 %x, %x
  br label %b112
b112:
  %r112 = add i32 %x, %x
  br label %b113
b113:
  %r113 = add i32 %x, %x
  br label %b114
b114:
  %r114 = add i32 %x, %x
  br label %b115
b115:
  %r115 = add i32 %x, %x
  br label %b116
b116:
  %r116 = add i32 %x, %x
  br label %b117
b117:
  %r117 = add i32 %x, %x
  br label %b118
b118:
  %r118 = add i32 %x, %x
  br label %b119
b119:
  %r119 = add i32 %x, %x
  br label %b120
b120:
  %r120 = add i32 %x, %x
  br label %b121
b121:
  %r121 = add i32 %x, %x
  br label %b122
b122:
  %r122 = add i32 %x, %x
  br label %b123
b123:
  %r123 = add i32 %x, %x
  br label %b124
b124:
  %r124 = add i32 %x, %x
  br label %b125
b125:
  %r125 = add i32 %x, %x
  br label %b126
b126:
  %r126 = add i32 %x, %x
  br label %b127
b127:
  %r127 = add i32 %x, %x
  br label %b128
b128:
  %r128 = add i32 %x, %x
  br label %b129
b129:
  %r129 = add i32 %x, %x
  br label %b130
b130:
  %r130 = add i32 %x, %x
  br label %b131
b131:
  %r131 = add i32 %x, %x
  br label %b132
b132:
  %r132 = add i32 %x, %x
  br label %b133
b133:
  %r133 = add i32 %x, %x
  br label %b134
b134:
  %r134 = add i32 %x, %x
  br label %b135
b135:
  %r135 = add i32 %x, %x
  br label %b136
b136:
  %r136 = add i32 %x, %x
  br label %b137
b137:
  %r137 = add i32 %x, %x
  br label %b138
b138:
  %r138 = add i32 %x, %x
  br label %b139
b139:
  %r139 = add i32 %x, %x
  br label %b140
b140:
  %r140 = add i32 %x, %x
  br label %b141
b141:
  %r141 = add i32 %x, %x
  br label %b142
b142:
  %r142 = add i32 %x, %x
  br label %b143
b143:
  %r143 = add i32 %x, %x
  br label %b144
b144:
  %r144 = add i32 %x, %x
  br label %b145
b145:
  %r145 = add i32 %x, %x
  br label %b146
b146:
  %r146 = add i32 %x, %x
  br label %b147
b147:
  %r147 = add i32 %x, %x
  br label %b148
b148:
  %r148 = add i32 %x, %x
  br label %b149
b149:
  %r149 = add i32 %x, %x
  br label %b150
b150:
  %r150 = add i32 %x, %x
  br label %b151
b151:
  %r151 = add i32 %x, %x
  br label %b152
b152:
  %r152 = add i32 %x, %x
  br label %b153
b153:
  %r153 = add i32 %x, %x
  br label %b154
b154:
  %r154 = add i32 %x, %x
  br label %b155
b155:
  %r155 = add i32 %x, %x
  br label %b156
b156:
  %r156 = add i32 %x, %x
  br label %b157
b157:
  %r157 = add i32 %x, %x
  br label %b158
b158:
  %r158 = add i32 %x, %x
  br label %b159
b159:
  %r159 = add i32 %x, %x
  br label %b160
b160:
  %r160 = add i32 %x, %x
  br label %b161
b161:
  %r161 = add i32 %x, %x
  br label %b162
b162:
  %r162 = add i32 %x, %x
  br label %b163
b163:
  %r163 = add i32 %x, %x
  br label %b164
b164:
  %r164 = add i32 %x, %x
  br label %b165
b165:
  %r165 = add i32 %x, %x
  br label %b166
b166:
  %r166 = add i32 %x, %x
  br label %b167
b167:
  %r167 = add i32 %x, %x
  br label %b168
b168:
  %r168 = add i32 %x, %x
  br label %b169
b169:
  %r169 = add i32 %x, %x
  br label %b170
b170:
  %r170 = add i32 %x, %x
  br label %b171
b171:
  %r171 = add i32 %x, %x
  br label %b172
b172:
  %r172 = add i32 %x, %x
  br label %b173
b173:
  %r173 = add i32 %x, %x
  br label %b174
b174:
  %r174 = add i32 %x, %x
  br label %b175
b175:
  %r175 = add i32 %x, %x
  br label %b176
b176:
  %r176 = add i32 %x, %x
  br label %b177
b177:
  %r177 = add i32 %x, %x
  br label %b178
b178:
  %r178 = add i32 %x, %x
  br label %b179
b179:
  %r179 = add i32 %x, %x
  br label %b180
b180:
  %r180 = add i32 %x, %x
  br label %b181
b181:
  %r181 = add i32 %x, %x
  br label %b182
b182:
  %r182 = add i32 %x, %x
  br label %b183
b183:
  %r183 = add i32 %x, %x
  br label %b184
b184:
  %r184 = add i32 %x, %x
  br label %b185
b185:
  %r185 = add i32 %x, %x
  br label %b186
b186:
  %r186 = add i32 %x, %x
  br label %b187
b187:
  %r187 = add i32 %x, %x
  br label %b188
b188:
  %r188 = add i32 %x, %x
  br label %b189
b189:
  %r189 = add i32 %x, %x
  br label %b190
b190:
  %r190 = add i32 %x, %x
  br label %b191
b191:
  %r191 = add i32 %x, %x
  br label %b192
b192:
  %r192 = add i32 %x, %x
  br label %b193
b193:
  %r193 = add i32 %x, %x
  br label %b194
b194:
  %r194 = add i32 %x, %x
  br label %b195
b195:
  %r195 = add i32 %x, %x
  br label %b196
b196:
  %r196 = add i32 %x, %x
  br label %b197
b197:
  %r197 = add i32 %x, %x
  br label %b198
b198:
  %r198 = add i32 %x, %x
  br label %b199
b199:
  %r199 = add i32 %x, %x
  br label %b200
b200:
  %u0 = add i32 %r0, %r0
  %u1 = add i32 %r1, %r1
  %u2 = add i32 %r2, %r2
  %u3 = add i32 %r3, %r3
  %u4 = add i32 %r4, %r4
  %u5 = add i32 %r5, %r5
  %u6 = add i32 %r6, %r6
  %u7 = add i32 %r7, %r7
  %u8 = add i32 %r8, %r8
  %u9 = add i32 %r9, %r9
  %u10 = add i32 %r10, %r10
  %u11 = add i32 %r11, %r11
  %u12 = add i32 %r12, %r12
  %u13 = add i32 %r13, %r13
  %u14 = add i32 %r14, %r14
  %u15 = add i32 %r15, %r15
  %u16 = add i32 %r16, %r16
  %u17 = add i32 %r17, %r17
  %u18 = add i32 %r18, %r18
  %u19 = add i32 %r19, %r19
  %u20 = add i32 %r20, %r20
  %u21 = add i32 %r21, %r21
  %u22 = add i32 %r22, %r22
  %u23 = add i32 %r23, %r23
  %u24 = add i32 %r24, %r24
  %u25 = add i32 %r25, %r25
  %u26 = add i32 %r26, %r26
  %u27 = add i32 %r27, %r27
  %u28 = add i32 %r28, %r28
  %u29 = add i32 %r29, %r29
  %u30 = add i32 %r30, %r30
  %u31 = add i32 %r31, %r31
  %u32 = add i32 %r32, %r32
  %u33 = add i32 %r33, %r33
  %u34 = add i32 %r34, %r34
  %u35 = add i32 %r35, %r35
  %u36 = add i32 %r36, %r36
  %u37 = add i32 %r37, %r37
  %u38 = add i32 %r38, %r38
  %u39 = add i32 %r39, %r39
  %u40 = add i32 %r40, %r40
  %u41 = add i32 %r41, %r41
  %u42 = add i32 %r42, %r42
  %u43 = add i32 %r43, %r43
  %u44 = add i32 %r44, %r44
  %u45 = add i32 %r45, %r45
  %u46 = add i32 %r46, %r46
  %u47 = add i32 %r47, %r47
  %u48 = add i32 %r48, %r48
  %u49 = add i32 %r49, %r49
  %u50 = add i32 %r50, %r50
  %u51 = add i32 %r51, %r51
  %u52 = add i32 %r52, %r52
  %u53 = add i32 %r53, %r53
  %u54 = add i32 %r54, %r54
  %u55 = add i32 %r55, %r55
  %u56 = add i32 %r56, %r56
  %u57 = add i32 %r57, %r57
  %u58 = add i32 %r58, %r58
  %u59 = add i32 %r59, %r59
  %u60 = add i32 %r60, %r60
  %u61 = add i32 %r61, %r61
  %u62 = add i32 %r62, %r62
  %u63 = add i32 %r63, %r63
  %u64 = add i32 %r64, %r64
  %u65 = add i32 %r65, %r65
  %u66 = add i32 %r66, %r66
  %u67 = add i32 %r67, %r67
  %u68 = add i32 %r68, %r68
  %u69 = add i32 %r69, %r69
  %u70 = add i32 %r70, %r70
  %u71 = add i32 %r71, %r71
  %u72 = add i32 %r72, %r72
  %u73 = add i32 %r73, %r73
  %u74 = add i32 %r74, %r74
  %u75 = add i32 %r75, %r75
  %u76 = add i32 %r76, %r76
  %u77 = add i32 %r77, %r77
  %u78 = add i32 %r78, %r78
  %u79 = add i32 %r79, %r79
  %u80 = add i32 %r80, %r80
  %u81 = add i32 %r81, %r81
  %u82 = add i32 %r82, %r82
  %u83 = add i32 %r83, %r83
  %u84 = add i32 %r84, %r84
  %u85 = add i32 %r85, %r85
  %u86 = add i32 %r86, %r86
  %u87 = add i32 %r87, %r87
  %u88 = add i32 %r88, %r88
  %u89 = add i32 %r89, %r89
  %u90 = add i32 %r90, %r90
  %u91 = add i32 %r91, %r91
  %u92 = add i32 %r92, %r92
  %u93 = add i32 %r93, %r93
  %u94 = add i32 %r94, %r94
  %u95 = add i32 %r95, %r95
  %u96 = add i32 %r96, %r96
  %u97 = add i32 %r97, %r97
  %u98 = add i32 %r98, %r98
  %u99 = add i32 %r99, %r99
  %u100 = add i32 %r100, %r100
  %u101 = add i32 %r101, %r101
  %u102 = add i32 %r102, %r102
  %u103 = add i32 %r103, %r103
  %u104 = add i32 %r104, %r104
  %u105 = add i32 %r105, %r105
  %u106 = add i32 %r106, %r106
  %u107 = add i32 %r107, %r107
  %u108 = add i32 %r108, %r108
  %u109 = add i32 %r109, %r109
  %u110 = add i32 %r110, %r110
  %u111 = add i32 %r111, %r111
  %u112 = add i32 %r112, %r112
  %u113 = add i32 %r113, %r113
  %u114 = add i32 %r114, %r114
  %u115 = add i32 %r115, %r115
  %u116 = add i32 %r116, %r116
  %u117 = add i32 %r117, %r117
  %u118 = add i32 %r118, %r118
  %u119 = add i32 %r119, %r119
  %u120 = add i32 %r120, %r120
  %u121 = add i32 %r121, %r121
  %u122 = add i32 %r122, %r122
  %u123 = add i32 %r123, %r123
  %u124 = add i32 %r124, %r124
  %u125 = add i32 %r125, %r125
  %u126 = add i32 %r126, %r126
  %u127 = add i32 %r127, %r127
  %u128 = add i32 %r128, %r128
  %u129 = add i32 %r129, %r129
  %u130 = add i32 %r130, %r130
  %u131 = add i32 %r131, %r131
  %u132 = add i32 %r132, %r132
  %u133 = add i32 %r133, %r133
  %u134 = add i32 %r134, %r134
  %u135 = add i32 %r135, %r135
  %u136 = add i32 %r136, %r136
  %u137 = add i32 %r137, %r137
  %u138 = add i32 %r138, %r138
  %u139 = add i32 %r139, %r139
  %u140 = add i32 %r140, %r140
  %u141 = add i32 %r141, %r141
  %u142 = add i32 %r142, %r142
  %u143 = add i32 %r143, %r143
  %u144 = add i32 %r144, %r144
  %u145 = add i32 %r145, %r145
  %u146 = add i32 %r146, %r146
  %u147 = add i32 %r147, %r147
  %u148 = add i32 %r148, %r148
  %u149 = add i32 %r149, %r149
  %u150 = add i32 %r150, %r150
  %u151 = add i32 %r151, %r151
  %u152 = add i32 %r152, %r152
  %u153 = add i32 %r153, %r153
  %u154 = add i32 %r154, %r154
  %u155 = add i32 %r155, %r155
  %u156 = add i32 %r156, %r156
  %u157 = add i32 %r157, %r157
  %u158 = add i32 %r158, %r158
  %u159 = add i32 %r159, %r159
  %u160 = add i32 %r160, %r160
  %u161 = add i32 %r161, %r161
  %u162 = add i32 %r162, %r162
  %u163 = add i32 %r163, %r163
  %u164 = add i32 %r164, %r164
  %u165 = add i32 %r165, %r165
  %u166 = add i32 %r166, %r166
  %u167 = add i32 %r167, %r167
  %u168 = add i32 %r168, %r168
  %u169 = add i32 %r169, %r169
  %u170 = add i32 %r170, %r170
  %u171 = add i32 %r171, %r171
  %u172 = add i32 %r172, %r172
  %u173 = add i32 %r173, %r173
  %u174 = add i32 %r174, %r174
  %u175 = add i32 %r175, %r175
  %u176 = add i32 %r176, %r176
  %u177 = add i32 %r177, %r177
  %u178 = add i32 %r178, %r178
  %u179 = add i32 %r179, %r179
  %u180 = add i32 %r180, %r180
  %u181 = add i32 %r181, %r181
  %u182 = add i32 %r182, %r182
  %u183 = add i32 %r183, %r183
  %u184 = add i32 %r184, %r184
  %u185 = add i32 %r185, %r185
  %u186 = add i32 %r186, %r186
  %u187 = add i32 %r187, %r187
  %u188 = add i32 %r188, %r188
  %u189 = add i32 %r189, %r189
  %u190 = add i32 %r190, %r190
  %u191 = add i32 %r191, %r191
  %u192 = add i32 %r192, %r192
  %u193 = add i32 %r193, %r193
  %u194 = add i32 %r194, %r194
  %u195 = add i32 %r195, %r195
  %u196 = add i32 %r196, %r196
  %u197 = add i32 %r197, %r197
  %u198 = add i32 %r198, %r198
  %u199 = add i32 %r199, %r199
  ret void
}
; == paths: 200 definitions, past block 1
define void @f(i32 %x, i1 %c) {
b0:
  %r0 = add i32 %x, %x
  br i1 %c, label %b1, label %b2
b1:
  %r1 = add i32 %x, %x
  br label %b2
b2:
  %r2 = add i32 %x, %x
  br label %b3
b3:
  %r3 = add i32 %x, %x
  br label %b4
b4:
  %r4 = add i32 %x, %x
  br label %b5
b5:
  %r5 = add i32 %x, %x
  br label %b6
b6:
  %r6 = add i32 %x, %x
  br label %b7
b7:
  %r7 = add i32 %x, %x
  br label %b8
b8:
  %r8 = add i32 %x, %x
  br label %b9
b9:
  %r9 = add i32 %x, %x
  br label %b10
b10:
  %r10 = add i32 %x, %x
  br label %b11
b11:
  %r11 = add i32 %x, %x
  br label %b12
b12:
  %r12 = add i32 %x, %x
  br label %b13
b13:
  %r13 = add i32 %x, %x
  br label %b14
b14:
  %r14 = add i32 %x, %x
  br label %b15
b15:
  %r15 = add i32 %x, %x
  br label %b16
b16:
  %r16 = add i32 %x, %x
  br label %b17
b17:
  %r17 = add i32 %x, %x
  br label %b18
b18:
  %r18 = add i32 %x, %x
  br label %b19
b19:
  %r19 = add i32 %x, %x
  br label %b20
b20:
  %r20 = add i32 %x, %x
  br label %b21
b21:
  %r21 = add i32 %x, %x
  br label %b22
b22:
  %r22 = add i32 %x, %x
  br label %b23
b23:
  %r23 = add i32 %x, %x
  br label %b24
b24:
  %r24 = add i32 %x, %x
  br label %b25
b25:
  %r25 = add i32 %x, %x
  br label %b26
b26:
  %r26 = add i32 %x, %x
  br label %b27
b27:
  %r27 = add i32 %x, %x
  br label %b28
b28:
  %r28 = add i32 %x, %x
  br label %b29
b29:
  %r29 = add i32 %x, %x
  br label %b30
b30:
  %r30 = add i32 %x, %x
  br label %b31
b31:
  %r31 = add i32 %x, %x
  br label %b32
b32:
  %r32 = add i32 %x, %x
  br label %b33
b33:
  %r33 = add i32 %x, %x
  br label %b34
b34:
  %r34 = add i32 %x, %x
  br label %b35
b35:
  %r35 = add i32 %x, %x
  br label %b36
b36:
  %r36 = add i32 %x, %x
  br label %b37
b37:
  %r37 = add i32 %x, %x
  br label %b38
b38:
  %r38 = add i32 %x, %x
  br label %b39
b39:
  %r39 = add i32 %x, %x
  br label %b40
b40:
  %r40 = add i32 %x, %x
  br label %b41
b41:
  %r41 = add i32 %x, %x
  br label %b42
b42:
  %r42 = add i32 %x, %x
  br label %b43
b43:
  %r43 = add i32 %x, %x
  br label %b44
b44:
  %r44 = add i32 %x, %x
  br label %b45
b45:
  %r45 = add i32 %x, %x
  br label %b46
b46:
  %r46 = add i32 %x, %x
  br label %b47
b47:
  %r47 = add i32 %x, %x
  br label %b48
b48:
  %r48 = add i32 %x, %x
  br label %b49
b49:
  %r49 = add i32 %x, %x
  br label %b50
b50:
  %r50 = add i32 %x, %x
  br label %b51
b51:
  %r51 = add i32 %x, %x
  br label %b52
b52:
  %r52 = add i32 %x, %x
  br label %b53
b53:
  %r53 = add i32 %x, %x
  br label %b54
b54:
  %r54 = add i32 %x, %x
  br label %b55
b55:
  %r55 = add i32 %x, %x
  br label %b56
b56:
  %r56 = add i32 %x, %x
  br label %b57
b57:
  %r57 = add i32 %x, %x
  br label %b58
b58:
  %r58 = add i32 %x, %x
  br label %b59
b59:
  %r59 = add i32 %x, %x
  br label %b60
b60:
  %r60 = add i32 %x, %x
  br label %b61
b61:
  %r61 = add i32 %x, %x
  br label %b62
b62:
  %r62 = add i32 %x, %x
  br label %b63
b63:
  %r63 = add i32 %x, %x
  br label %b64
b64:
  %r64 = add i32 %x, %x
  br label %b65
b65:
  %r65 = add i32 %x, %x
  br label %b66
b66:
  %r66 = add i32 %x, %x
  br label %b67
b67:
  %r67 = add i32 %x, %x
  br label %b68
b68:
  %r68 = add i32 %x, %x
  br label %b69
b69:
  %r69 = add i32 %x, %x
  br label %b70
b70:
  %r70 = add i32 %x, %x
  br label %b71
b71:
  %r71 = add i32 %x, %x
  br label %b72
b72:
  %r72 = add i32 %x, %x
  br label %b73
b73:
  %r73 = add i32 %x, %x
  br label %b74
b74:
  %r74 = add i32 %x, %x
  br label %b75
b75:
  %r75 = add i32 %x, %x
  br label %b76
b76:
  %r76 = add i32 %x, %x
  br label %b77
b77:
  %r77 = add i32 %x, %x
  br label %b78
b78:
  %r78 = add i32 %x, %x
  br label %b79
b79:
  %r79 = add i32 %x, %x
  br label %b80
b80:
  %r80 = add i32 %x, %x
  br label %b81
b81:
  %r81 = add i32 %x, %x
  br label %b82
b82:
  %r82 = add i32 %x, %x
  br label %b83
b83:
  %r83 = add i32 %x, %x
  br label %b84
b84:
  %r84 = add i32 %x, %x
  br label %b85
b85:
  %r85 = add i32 %x, %x
  br label %b86
b86:
  %r86 = add i32 %x, %x
  br label %b87
b87:
  %r87 = add i32 %x, %x
  br label %b88
b88:
  %r88 = add i32 %x, %x
  br label %b89
b89:
  %r89 = add i32 %x, %x
  br label %b90
b90:
  %r90 = add i32 %x, %x
  br label %b91
b91:
  %r91 = add i32 %x, %x
  br label %b92
b92:
  %r92 = add i32 %x, %x
  br label %b93
b93:
  %r93 = add i32 %x, %x
  br label %b94
b94:
  %r94 = add i32 %x, %x
  br label %b95
b95:
  %r95 = add i32 %x, %x
  br label %b96
b96:
  %r96 = add i32 %x, %x
  br label %b97
b97:
  %r97 = add i32 %x, %x
  br label %b98
b98:
  %r98 = add i32 %x, %x
  br label %b99
b99:
  %r99 = add i32 %x, %x
  br label %b100
b100:
  %r100 = add i32 %x, %x
  br label %b101
b101:
  %r101 = add i32 %x, %x
  br label %b102
b102:
  %r102 = add i32 %x, %x
  br label %b103
b103:
  %r103 = add i32 %x, %x
  br label %b104
b104:
  %r104 = add i32 %x, %x
  br label %b105
b105:
  %r105 = add i32 %x, %x
  br label %b106
b106:
  %r106 = add i32 %x, %x
  br label %b107
b107:
  %r107 = add i32 %x, %x
  br label %b108
b108:
  %r108 = add i32 %x, %x
  br label %b109
b109:
  %r109 = add i32 %x, %x
  br label %b110
b110:
  %r110 = add i32 %x, %x
  br label %b111
b111:
  %r111 = add i32 %x, %x
  br label %b112
b112:
  %r112 = add i32 %x, %x
  br label %b113
b113:
  %r113 = add i32 %x, %x
  br label %b114
b114:
  %r114 = add i32 %x, %x
  br label %b115
b115:
  %r115 = add i32 %x, %x
  br label %b116
b116:
  %r116 = add i32 %x, %x
  br label %b117
b117:
  %r117 = add i32 %x, %x
  br label %b118
b118:
  %r118 = add i32 %x, %x
  br label %b119
b119:
  %r119 = add i32 %x, %x
  br label %b120
b120:
  %r120 = add i32 %x, %x
  br label %b121
b121:
  %r121 = add i32 %x, %x
  br label %b122
b122:
  %r122 = add i32 %x, %x
  br label %b123
b123:
  %r123 = add i32 %x, %x
  br label %b124
b124:
  %r124 = add i32 %x, %x
  br label %b125
b125:
  %r125 = add i32 %x, %x
  br label %b126
b126:
  %r126 = add i32 %x, %x
  br label %b127
b127:
  %r127 = add i32 %x, %x
  br label %b128
b128:
  %r128 = add i32 %x, %x
  br label %b129
b129:
  %r129 = add i32 %x, %x
  br label %b130
b130:
  %r130 = add i32 %x, %x
  br label %b131
b131:
  %r131 = add i32 %x, %x
  br label %b132
b132:
  %r132 = add i32 %x, %x
  br label %b133
b133:
  %r133 = add i32 %x, %x
  br label %b134
b134:
  %r134 = add i32 %x, %x
  br label %b135
b135:
  %r135 = add i32 %x, %x
  br label %b136
b136:
  %r136 = add i32 %x, %x
  br label %b137
b137:
  %r137 = add i32 %x, %x
  br label %b138
b138:
  %r138 = add i32 %x, %x
  br label %b139
b139:
  %r139 = add i32 %x, %x
  br label %b140
b140:
  %r140 = add i32 %x, %x
  br label %b141
b141:
  %r141 = add i32 %x, %x
  br label %b142
b142:
  %r142 = add i32 %x, %x
  br label %b143
b143:
  %r143 = add i32 %x, %x
  br label %b144
b144:
  %r144 = add i32 %x, %x
  br label %b145
b145:
  %r145 = add i32 %x, %x
  br label %b146
b146:
  %r146 = add i32 %x, %x
  br label %b147
b147:
  %r147 = add i32 %x, %x
  br label %b148
b148:
  %r148 = add i32 %x, %x
  br label %b149
b149:
  %r149 = add i32 %x, %x
  br label %b150
b150:
  %r150 = add i32 %x, %x
  br label %b151
b151:
  %r151 = add i32 %x, %x
  br label %b152
b152:
  %r152 = add i32 %x, %x
  br label %b153
b153:
  %r153 = add i32 %x, %x
  br label %b154
b154:
  %r154 = add i32 %x, %x
  br label %b155
b155:
  %r155 = add i32 %x, %x
  br label %b156
b156:
  %r156 = add i32 %x, %x
  br label %b157
b157:
  %r157 = add i32 %x, %x
  br label %b158
b158:
  %r158 = add i32 %x, %x
  br label %b159
b159:
  %r159 = add i32 %x, %x
  br label %b160
b160:
  %r160 = add i32 %x, %x
  br label %b161
b161:
  %r161 = add i32 %x, %x
  br label %b162
b162:
  %r162 = add i32 %x, %x
  br label %b163
b163:
  %r163 = add i32 %x, %x
  br label %b164
b164:
  %r164 = add i32 %x, %x
  br label %b165
b165:
  %r165 = add i32 %x, %x
  br label %b166
b166:
  %r166 = add i32 %x, %x
  br label %b167
b167:
  %r167 = add i32 %x, %x
  br label %b168
b168:
  %r168 = add i32 %x, %x
  br label %b169
b169:
  %r169 = add i32 %x, %x
  br label %b170
b170:
  %r170 = add i32 %x, %x
  br label %b171
b171:
  %r171 = add i32 %x, %x
  br label %b172
b172:
  %r172 = add i32 %x, %x
  br label %b173
b173:
  %r173 = add i32 %x, %x
  br label %b174
b174:
  %r174 = add i32 %x, %x
  br label %b175
b175:
  %r175 = add i32 %x, %x
  br label %b176
b176:
  %r176 = add i32 %x, %x
  br label %b177
b177:
  %r177 = add i32 %x, %x
  br label %b178
b178:
  %r178 = add i32 %x, %x
  br label %b179
b179:
  %r179 = add i32 %x, %x
  br label %b180
b180:
  %r180 = add i32 %x, %x
  br label %b181
b181:
  %r181 = add i32 %x, %x
  br label %b182
b182:
  %r182 = add i32 %x, %x
  br label %b183
b183:
  %r183 = add i32 %x, %x
  br label %b184
b184:
  %r184 = add i32 %x, %x
  br label %b185
b185:
  %r185 = add i32 %x, %x
  br label %b186
b186:
  %r186 = add i32 %x, %x
  br label %b187
b187:
  %r187 = add i32 %x, %x
  br label %b188
b188:
  %r188 = add i32 %x, %x
  br label %b189
b189:
  %r189 = add i32 %x, %x
  br label %b190
b190:
  %r190 = add i32 %x, %x
  br label %b191
b191:
  %r191 = add i32 %x, %x
  br label %b192
b192:
  %r192 = add i32 %x, %x
  br label %b193
b193:
  %r193 = add i32 %x, %x
  br label %b194
b194:
  %r194 = add i32 %x, %x
  br label %b195
b195:
  %r195 = add i32 %x, %x
  br label %b196
b196:
  %r196 = add i32 %x, %x
  br label %b197
b197:
  %r197 = add i32 %x, %x
  br label %b198
b198:
  %r198 = add i32 %x, %x
  br label %b199
b199:
  %r199 = add i32 %x, %x
  br label %b200
b200:
  %u0 = add i32 %r0, %r0
  %u1 = add i32 %r1, %r1
  %u2 = add i32 %r2, %r2
  %u3 = add i32 %r3, %r3
  %u4 = add i32 %r4, %r4
  %u5 = add i32 %r5, %r5
  %u6 = add i32 %r6, %r6
  %u7 = add i32 %r7, %r7
  %u8 = add i32 %r8, %r8
  %u9 = add i32 %r9, %r9
  %u10 = add i32 %r10, %r10
  %u11 = add i32 %r11, %r11
  %u12 = add i32 %r12, %r12
  %u13 = add i32 %r13, %r13
  %u14 = add i32 %r14, %r14
  %u15 = add i32 %r15, %r15
  %u16 = add i32 %r16, %r16
  %u17 = add i32 %r17, %r17
  %u18 = add i32 %r18, %r18
  %u19 = add i32 %r19, %r19
  %u20 = add i32 %r20, %r20
  %u21 = add i32 %r21, %r21
  %u22 = add i32 %r22, %r22
  %u23 = add i32 %r23, %r23
  %u24 = add i32 %r24, %r24
  %u25 = add i32 %r25, %r25
  %u26 = add i32 %r26, %r26
  %u27 = add i32 %r27, %r27
  %u28 = add i32 %r28, %r28
  %u29 = add i32 %r29, %r29
  %u30 = add i32 %r30, %r30
  %u31 = add i32 %r31, %r31
  %u32 = add i32 %r32, %r32
  %u33 = add i32 %r33, %r33
  %u34 = add i32 %r34, %r34
  %u35 = add i32 %r35, %r35
  %u36 = add i32 %r36, %r36
  %u37 = add i32 %r37, %r37
  %u38 = add i32 %r38, %r38
  %u39 = add i32 %r39, %r39
  %u40 = add i32 %r40, %r40
  %u41 = add i32 %r41, %r41
  %u42 = add i32 %r42, %r42
  %u43 = add i32 %r43, %r43
  %u44 = add i32 %r44, %r44
  %u45 = add i32 %r45, %r45
  %u46 = add i32 %r46, %r46
  %u47 = add i32 %r47, %r47
  %u48 = add i32 %r48, %r48
  %u49 = add i32 %r49, %r49
  %u50 = add i32 %r50, %r50
  %u51 = add i32 %r51, %r51
  %u52 = add i32 %r52, %r52
  %u53 = add i32 %r53, %r53
  %u54 = add i32 %r54, %r54
  %u55 = add i32 %r55, %r55
  %u56 = add i32 %r56, %r56
  %u57 = add i32 %r57, %r57
  %u58 = add i32 %r58, %r58
  %u59 = add i32 %r59, %r59
  %u60 = add i32 %r60, %r60
  %u61 = add i32 %r61, %r61
  %u62 = add i32 %r62, %r62
  %u63 = add i32 %r63, %r63
  %u64 = add i32 %r64, %r64
  %u65 = add i32 %r65, %r65
  %u66 = add i32 %r66, %r66
  %u67 = add i32 %r67, %r67
  %u68 = add i32 %r68, %r68
  %u69 = add i32 %r69, %r69
  %u70 = add i32 %r70, %r70
  %u71 = add i32 %r71, %r71
  %u72 = add i32 %r72, %r72
  %u73 = add i32 %r73, %r73
  %u74 = add i32 %r74, %r74
  %u75 = add i32 %r75, %r75
  %u76 = add i32 %r76, %r76
  %u77 = add i32 %r77, %r77
  %u78 = add i32 %r78, %r78
  %u79 = add i32 %r79, %r79
  %u80 = add i32 %r80, %r80
  %u81 = add i32 %r81, %r81
  %u82 = add i32 %r82, %r82
  %u83 = add i32 %r83, %r83
  %u84 = add i32 %r84, %r84
  %u85 = add i32 %r85, %r85
  %u86 = add i32 %r86, %r86
  %u87 = add i32 %r87, %r87
  %u88 = add i32 %r88, %r88
  %u89 = add i32 %r89, %r89
  %u90 = add i32 %r90, %r90
  %u91 = add i32 %r91, %r91
  %u92 = add i32 %r92, %r92
  %u93 = add i32 %r93, %r93
  %u94 = add i32 %r94, %r94
  %u95 = add i32 %r95, %r95
  %u96 = add i32 %r96, %r96
  %u97 = add i32 %r97, %r97
  %u98 = add i32 %r98, %r98
  %u99 = add i32 %r99, %r99
  %u100 = add i32 %r100, %r100
  %u101 = add i32 %r101, %r101
  %u102 = add i32 %r102, %r102
  %u103 = add i32 %r103, %r103
  %u104 = add i32 %r104, %r104
  %u105 = add i32 %r105, %r105
  %u106 = add i32 %r106, %r106
  %u107 = add i32 %r107, %r107
  %u108 = add i32 %r108, %r108
  %u109 = add i32 %r109, %r109
  %u110 = add i32 %r110, %r110
  %u111 = add i32 %r111, %r111
  %u112 = add i32 %r112, %r112
  %u113 = add i32 %r113, %r113
  %u114 = add i32 %r114, %r114
  %u115 = add i32 %r115, %r115
  %u116 = add i32 %r116, %r116
  %u117 = add i32 %r117, %r117
  %u118 = add i32 %r118, %r118
  %u119 = add i32 %r119, %r119
  %u120 = add i32 %r120, %r120
  %u121 = add i32 %r121, %r121
  %u122 = add i32 %r122, %r122
  %u123 = add i32 %r123, %r123
  %u124 = add i32 %r124, %r124
  %u125 = add i32 %r125, %r125
  %u126 = add i32 %r126, %r126
  %u127 = add i32 %r127, %r127
  %u128 = add i32 %r128, %r128
  %u129 = add i32 %r129, %r129
  %u130 = add i32 %r130, %r130
  %u131 = add i32 %r131, %r131
  %u132 = add i32 %r132, %r132
  %u133 = add i32 %r133, %r133
  %u134 = add i32 %r134, %r134
  %u135 = add i32 %r135, %r135
  %u136 = add i32 %r136, %r136
  %u137 = add i32 %r137, %r137
  %u138 = add i32 %r138, %r138
  %u139 = add i32 %r139, %r139
  %u140 = add i32 %r140, %r140
  %u141 = add i32 %r141, %r141
  %u142 = add i32 %r142, %r142
  %u143 = add i32 %r143, %r143
  %u144 = add i32 %r144, %r144
  %u145 = add i32 %r145, %r145
  %u146 = add i32 %r146, %r146
  %u147 = add i32 %r147, %r147
  %u148 = add i32 %r148, %r148
  %u149 = add i32 %r149, %r149
  %u150 = add i32 %r150, %r150
  %u151 = add i32 %r151, %r151
  %u152 = add i32 %r152, %r152
  %u153 = add i32 %r153, %r153
  %u154 = add i32 %r154, %r154
  %u155 = add i32 %r155, %r155
  %u156 = add i32 %r156, %r156
  %u157 = add i32 %r157, %r157
  %u158 = add i32 %r158, %r158
  %u159 = add i32 %r159, %r159
  %u160 = add i32 %r160, %r160
  %u161 = add i32 %r161, %r161
  %u162 = add i32 %r162, %r162
  %u163 = add i32 %r163, %r163
  %u164 = add i32 %r164, %r164
  %u165 = add i32 %r165, %r165
  %u166 = add i32 %r166, %r166
  %u167 = add i32 %r167, %r167
  %u168 = add i32 %r168, %r168
  %u169 = add i32 %r169, %r169
  %u170 = add i32 %r170, %r170
  %u171 = add i32 %r171, %r171
  %u172 = add i32 %r172, %r172
  %u173 = add i32 %r173, %r173
  %u174 = add i32 %r174, %r174
  %u175 = add i32 %r175, %r175
  %u176 = add i32 %r176, %r176
  %u177 = add i32 %r177, %r177
  %u178 = add i32 %r178, %r178
  %u179 = add i32 %r179, %r179
  %u180 = add i32 %r180, %r180
  %u181 = add i32 %r181, %r181
  %u182 = add i32 %r182, %r182
  %u183 = add i32 %r183, %r183
  %u184 = add i32 %r184, %r184
  %u185 = add i32 %r185, %r185
  %u186 = add i32 %r186, %r186
  %u187 = add i32 %r187, %r187
  %u188 = add i32 %r188, %r188
  %u189 = add i32 %r189, %r189
  %u190 = add i32 %r190, %r190
  %u191 = add i32 %r191, %r191
  %u192 = add i32 %r192, %r192
  %u193 = add i32 %r193, %r193
  %u194 = add i32 %r194, %r194
  %u195 = add i32 %r195, %r195
  %u196 = add i32 %r196, %r196
  %u197 = add i32 %r197, %r197
  %u198 = add i32 %r198, %r198
  %u199 = add i32 %r199, %r199
  ret void
}
; == paths: 200 definitions, past block 62
define void @f(i32 %x, i1 %c) {
b0:
  %r0 = add i32 %x, %x
  br label %b1
b1:
  %r1 = add i32 %x, %x
  br label %b2
b2:
  %r2 = add i32 %x, %x
  br label %b3
b3:
  %r3 = add i32 %x, %x
  br label %b4
b4:
  %r4 = add i32 %x, %x
  br label %b5
b5:
  %r5 = add i32 %x, %x
  br label %b6
b6:
  %r6 = add i32 %x, %x
  br label %b7
b7:
  %r7 = add i32 %x, %x
  br label %b8
b8:
  %r8 = add i32 %x, %x
  br label %b9
b9:
  %r9 = add i32 %x, %x
  br label %b10
b10:
  %r10 = add i32 %x, %x
  br label %b11
b11:
  %r11 = add i32 %x, %x
  br label %b12
b12:
  %r12 = add i32 %x, %x
  br label %b13
b13:
  %r13 = add i32 %x, %x
  br label %b14
b14:
  %r14 = add i32 %x, %x
  br label %b15
b15:
  %r15 = add i32 %x, %x
  br label %b16
b16:
  %r16 = add i32 %x, %x
  br label %b17
b17:
  %r17 = add i32 %x, %x
  br label %b18
b18:
  %r18 = add i32 %x, %x
  br label %b19
b19:
  %r19 = add i32 %x, %x
  br label %b20
b20:
  %r20 = add i32 %x, %x
  br label %b21
b21:
  %r21 = add i32 %x, %x
  br label %b22
b22:
  %r22 = add i32 %x, %x
  br label %b23
b23:
  %r23 = add i32 %x, %x
  br label %b24
b24:
  %r24 = add i32 %x, %x
  br label %b25
b25:
  %r25 = add i32 %x, %x
  br label %b26
b26:
  %r26 = add i32 %x, %x
  br label %b27
b27:
  %r27 = add i32 %x, %x
  br label %b28
b28:
  %r28 = add i32 %x, %x
  br label %b29
b29:
  %r29 = add i32 %x, %x
  br label %b30
b30:
  %r30 = add i32 %x, %x
  br label %b31
b31:
  %r31 = add i32 %x, %x
  br label %b32
b32:
  %r32 = add i32 %x, %x
  br label %b33
b33:
  %r33 = add i32 %x, %x
  br label %b34
b34:
  %r34 = add i32 %x, %x
  br label %b35
b35:
  %r35 = add i32 %x, %x
  br label %b36
b36:
  %r36 = add i32 %x, %x
  br label %b37
b37:
  %r37 = add i32 %x, %x
  br label %b38
b38:
  %r38 = add i32 %x, %x
  br label %b39
b39:
  %r39 = add i32 %x, %x
  br label %b40
b40:
  %r40 = add i32 %x, %x
  br label %b41
b41:
  %r41 = add i32 %x, %x
  br label %b42
b42:
  %r42 = add i32 %x, %x
  br label %b43
b43:
  %r43 = add i32 %x, %x
  br label %b44
b44:
  %r44 = add i32 %x, %x
  br label %b45
b45:
  %r45 = add i32 %x, %x
  br label %b46
b46:
  %r46 = add i32 %x, %x
  br label %b47
b47:
  %r47 = add i32 %x, %x
  br label %b48
b48:
  %r48 = add i32 %x, %x
  br label %b49
b49:
  %r49 = add i32 %x, %x
  br label %b50
b50:
  %r50 = add i32 %x, %x
  br label %b51
b51:
  %r51 = add i32 %x, %x
  br label %b52
b52:
  %r52 = add i32 %x, %x
  br label %b53
b53:
  %r53 = add i32 %x, %x
  br label %b54
b54:
  %r54 = add i32 %x, %x
  br label %b55
b55:
  %r55 = add i32 %x, %x
  br label %b56
b56:
  %r56 = add i32 %x, %x
  br label %b57
b57:
  %r57 = add i32 %x, %x
  br label %b58
b58:
  %r58 = add i32 %x, %x
  br label %b59
b59:
  %r59 = add i32 %x, %x
  br label %b60
b60:
  %r60 = add i32 %x, %x
  br label %b61
b61:
  %r61 = add i32 %x, %x
  br i1 %c, label %b62, label %b63
b62:
  %r62 = add i32 %x, %x
  br label %b63
b63:
  %r63 = add i32 %x, %x
  br label %b64
b64:
  %r64 = add i32 %x, %x
  br label %b65
b65:
  %r65 = add i32 %x, %x
  br label %b66
b66:
  %r66 = add i32 %x, %x
  br label %b67
b67:
  %r67 = add i32 %x, %x
  br label %b68
b68:
  %r68 = add i32 %x, %x
  br label %b69
b69:
  %r69 = add i32 %x, %x
  br label %b70
b70:
  %r70 = add i32 %x, %x
  br label %b71
b71:
  %r71 = add i32 %x, %x
  br label %b72
b72:
  %r72 = add i32 %x, %x
  br label %b73
b73:
  %r73 = add i32 %x, %x
  br label %b74
b74:
  %r74 = add i32 %x, %x
  br label %b75
b75:
  %r75 = add i32 %x, %x
  br label %b76
b76:
  %r76 = add i32 %x, %x
  br label %b77
b77:
  %r77 = add i32 %x, %x
  br label %b78
b78:
  %r78 = add i32 %x, %x
  br label %b79
b79:
  %r79 = add i32 %x, %x
  br label %b80
b80:
  %r80 = add i32 %x, %x
  br label %b81
b81:
  %r81 = add i32 %x, %x
  br label %b82
b82:
  %r82 = add i32 %x, %x
  br label %b83
b83:
  %r83 = add i32 %x, %x
  br label %b84
b84:
  %r84 = add i32 %x, %x
  br label %b85
b85:
  %r85 = add i32 %x, %x
  br label %b86
b86:
  %r86 = add i32 %x, %x
  br label %b87
b87:
  %r87 = add i32 %x, %x
  br label %b88
b88:
  %r88 = add i32 %x, %x
  br label %b89
b89:
  %r89 = add i32 %x, %x
  br label %b90
b90:
  %r90 = add i32 %x, %x
  br label %b91
b91:
  %r91 = add i32 %x, %x
  br label %b92
b92:
  %r92 = add i32 %x, %x
  br label %b93
b93:
  %r93 = add i32 %x, %x
  br label %b94
b94:
  %r94 = add i32 %x, %x
  br label %b95
b95:
  %r95 = add i32 %x, %x
  br label %b96
b96:
  %r96 = add i32 %x, %x
  br label %b97
b97:
  %r97 = add i32 %x, %x
  br label %b98
b98:
  %r98 = add i32 %x, %x
  br label %b99
b99:
  %r99 = add i32 %x, %x
  br label %b100
b100:
  %r100 = add i32 %x, %x
  br label %b101
b101:
  %r101 = add i32 %x, %x
  br label %b102
b102:
  %r102 = add i32 %x, %x
  br label %b103
b103:
  %r103 = add i32 %x, %x
  br label %b104
b104:
  %r104 = add i32 %x, %x
  br label %b105
b105:
  %r105 = add i32 %x, %x
  br label %b106
b106:
  %r106 = add i32 %x, %x
  br label %b107
b107:
  %r107 = add i32 %x, %x
  br label %b108
b108:
  %r108 = add i32 %x, %x
  br label %b109
b109:
  %r109 = add i32 %x, %x
  br label %b110
b110:
  %r110 = add i32 %x, %x
  br label %b111
b111:
  %r111 = add i32 %x, %x
  br label %b112
b112:
  %r112 = add i32 %x, %x
  br label %b113
b113:
  %r113 = add i32 %x, %x
  br label %b114
b114:
  %r114 = add i32 %x, %x
  br label %b115
b115:
  %r115 = add i32 %x, %x
  br label %b116
b116:
  %r116 = add i32 %x, %x
  br label %b117
b117:
  %r117 = add i32 %x, %x
  br label %b118
b118:
  %r118 = add i32 %x, %x
  br label %b119
b119:
  %r119 = add i32 %x, %x
  br label %b120
b120:
  %r120 = add i32 %x, %x
  br label %b121
b121:
  %r121 = add i32 %x, %x
  br label %b122
b122:
  %r122 = add i32 %x, %x
  br label %b123
b123:
  %r123 = add i32 %x, %x
  br label %b124
b124:
  %r124 = add i32 %x, %x
  br label %b125
b125:
  %r125 = add i32 %x, %x
  br label %b126
b126:
  %r126 = add i32 %x, %x
  br label %b127
b127:
  %r127 = add i32 %x, %x
  br label %b128
b128:
  %r128 = add i32 %x, %x
  br label %b129
b129:
  %r129 = add i32 %x, %x
  br label %b130
b130:
  %r130 = add i32 %x, %x
  br label %b131
b131:
  %r131 = add i32 %x, %x
  br label %b132
b132:
  %r132 = add i32 %x, %x
  br label %b133
b133:
  %r133 = add i32 %x, %x
  br label %b134
b134:
  %r134 = add i32 %x, %x
  br label %b135
b135:
  %r135 = add i32 %x, %x
  br label %b136
b136:
  %r136 = add i32 %x, %x
  br label %b137
b137:
  %r137 = add i32 %x, %x
  br label %b138
b138:
  %r138 = add i32 %x, %x
  br label %b139
b139:
  %r139 = add i32 %x, %x
  br label %b140
b140:
  %r140 = add i32 %x, %x
  br label %b141
b141:
  %r141 = add i32 %x, %x
  br label %b142
b142:
  %r142 = add i32 %x, %x
  br label %b143
b143:
  %r143 = add i32 %x, %x
  br label %b144
b144:
  %r144 = add i32 %x, %x
  br label %b145
b145:
  %r145 = add i32 %x, %x
  br label %b146
b146:
  %r146 = add i32 %x, %x
  br label %b147
b147:
  %r147 = add i32 %x, %x
  br label %b148
b148:
  %r148 = add i32 %x, %x
  br label %b149
b149:
  %r149 = add i32 %x, %x
  br label %b150
b150:
  %r150 = add i32 %x, %x
  br label %b151
b151:
  %r151 = add i32 %x, %x
  br label %b152
b152:
  %r152 = add i32 %x, %x
  br label %b153
b153:
  %r153 = add i32 %x, %x
  br label %b154
b154:
  %r154 = add i32 %x, %x
  br label %b155
b155:
  %r155 = add i32 %x, %x
  br label %b156
b156:
  %r156 = add i32 %x, %x
  br label %b157
b157:
  %r157 = add i32 %x, %x
  br label %b158
b158:
  %r158 = add i32 %x, %x
  br label %b159
b159:
  %r159 = add i32 %x, %x
  br label %b160
b160:
  %r160 = add i32 %x, %x
  br label %b161
b161:
  %r161 = add i32 %x, %x
  br label %b162
b162:
  %r162 = add i32 %x, %x
  br label %b163
b163:
  %r163 = add i32 %x, %x
  br label %b164
b164:
  %r164 = add i32 %x, %x
  br label %b165
b165:
  %r165 = add i32 %x, %x
  br label %b166
b166:
  %r166 = add i32 %x, %x
  br label %b167
b167:
  %r167 = add i32 %x, %x
  br label %b168
b168:
  %r168 = add i32 %x, %x
  br label %b169
b169:
  %r169 = add i32 %x, %x
  br label %b170
b170:
  %r170 = add i32 %x, %x
  br label %b171
b171:
  %r171 = add i32 %x, %x
  br label %b172
b172:
  %r172 = add i32 %x, %x
  br label %b173
b173:
  %r173 = add i32 %x, %x
  br label %b174
b174:
  %r174 = add i32 %x, %x
  br label %b175
b175:
  %r175 = add i32 %x, %x
  br label %b176
b176:
  %r176 = add i32 %x, %x
  br label %b177
b177:
  %r177 = add i32 %x, %x
  br label %b178
b178:
  %r178 = add i32 %x, %x
  br label %b179
b179:
  %r179 = add i32 %x, %x
  br label %b180
b180:
  %r180 = add i32 %x, %x
  br label %b181
b181:
  %r181 = add i32 %x, %x
  br label %b182
b182:
  %r182 = add i32 %x, %x
  br label %b183
b183:
  %r183 = add i32 %x, %x
  br label %b184
b184:
  %r184 = add i32 %x, %x
  br label %b185
b185:
  %r185 = add i32 %x, %x
  br label %b186
b186:
  %r186 = add i32 %x, %x
  br label %b187
b187:
  %r187 = add i32 %x, %x
  br label %b188
b188:
  %r188 = add i32 %x, %x
  br label %b189
b189:
  %r189 = add i32 %x, %x
  br label %b190
b190:
  %r190 = add i32 %x, %x
  br label %b191
b191:
  %r191 = add i32 %x, %x
  br label %b192
b192:
  %r192 = add i32 %x, %x
  br label %b193
b193:
  %r193 = add i32 %x, %x
  br label %b194
b194:
  %r194 = add i32 %x, %x
  br label %b195
b195:
  %r195 = add i32 %x, %x
  br label %b196
b196:
  %r196 = add i32 %x, %x
  br label %b197
b197:
  %r197 = add i32 %x, %x
  br label %b198
b198:
  %r198 = add i32 %x, %x
  br label %b199
b199:
  %r199 = add i32 %x, %x
  br label %b200
b200:
  %u0 = add i32 %r0, %r0
  %u1 = add i32 %r1, %r1
  %u2 = add i32 %r2, %r2
  %u3 = add i32 %r3, %r3
  %u4 = add i32 %r4, %r4
  %u5 = add i32 %r5, %r5
  %u6 = add i32 %r6, %r6
  %u7 = add i32 %r7, %r7
  %u8 = add i32 %r8, %r8
  %u9 = add i32 %r9, %r9
  %u10 = add i32 %r10, %r10
  %u11 = add i32 %r11, %r11
  %u12 = add i32 %r12, %r12
  %u13 = add i32 %r13, %r13
  %u14 = add i32 %r14, %r14
  %u15 = add i32 %r15, %r15
  %u16 = add i32 %r16, %r16
  %u17 = add i32 %r17, %r17
  %u18 = add i32 %r18, %r18
  %u19 = add i32 %r19, %r19
  %u20 = add i32 %r20, %r20
  %u21 = add i32 %r21, %r21
  %u22 = add i32 %r22, %r22
  %u23 = add i32 %r23, %r23
  %u24 = add i32 %r24, %r24
  %u25 = add i32 %r25, %r25
  %u26 = add i32 %r26, %r26
  %u27 = add i32 %r27, %r27
  %u28 = add i32 %r28, %r28
  %u29 = add i32 %r29, %r29
  %u30 = add i32 %r30, %r30
  %u31 = add i32 %r31, %r31
  %u32 = add i32 %r32, %r32
  %u33 = add i32 %r33, %r33
  %u34 = add i32 %r34, %r34
  %u35 = add i32 %r35, %r35
  %u36 = add i32 %r36, %r36
  %u37 = add i32 %r37, %r37
  %u38 = add i32 %r38, %r38
  %u39 = add i32 %r39, %r39
  %u40 = add i32 %r40, %r40
  %u41 = add i32 %r41, %r41
  %u42 = add i32 %r42, %r42
  %u43 = add i32 %r43, %r43
  %u44 = add i32 %r44, %r44
  %u45 = add i32 %r45, %r45
  %u46 = add i32 %r46, %r46
  %u47 = add i32 %r47, %r47
  %u48 = add i32 %r48, %r48
  %u49 = add i32 %r49, %r49
  %u50 = add i32 %r50, %r50
  %u51 = add i32 %r51, %r51
  %u52 = add i32 %r52, %r52
  %u53 = add i32 %r53, %r53
  %u54 = add i32 %r54, %r54
  %u55 = add i32 %r55, %r55
  %u56 = add i32 %r56, %r56
  %u57 = add i32 %r57, %r57
  %u58 = add i32 %r58, %r58
  %u59 = add i32 %r59, %r59
  %u60 = add i32 %r60, %r60
  %u61 = add i32 %r61, %r61
  %u62 = add i32 %r62, %r62
  %u63 = add i32 %r63, %r63
  %u64 = add i32 %r64, %r64
  %u65 = add i32 %r65, %r65
  %u66 = add i32 %r66, %r66
  %u67 = add i32 %r67, %r67
  %u68 = add i32 %r68, %r68
  %u69 = add i32 %r69, %r69
  %u70 = add i32 %r70, %r70
  %u71 = add i32 %r71, %r71
  %u72 = add i32 %r72, %r72
  %u73 = add i32 %r73, %r73
  %u74 = add i32 %r74, %r74
  %u75 = add i32 %r75, %r75
  %u76 = add i32 %r76, %r76
  %u77 = add i32 %r77, %r77
  %u78 = add i32 %r78, %r78
  %u79 = add i32 %r79, %r79
  %u80 = add i32 %r80, %r80
  %u81 = add i32 %r81, %r81
  %u82 = add i32 %r82, %r82
  %u83 = add i32 %r83, %r83
  %u84 = add i32 %r84, %r84
  %u85 = add i32 %r85, %r85
  %u86 = add i32 %r86, %r86
  %u87 = add i32 %r87, %r87
  %u88 = add i32 %r88, %r88
  %u89 = add i32 %r89, %r89
  %u90 = add i32 %r90, %r90
  %u91 = add i32 %r91, %r91
  %u92 = add i32 %r92, %r92
  %u93 = add i32 %r93, %r93
  %u94 = add i32 %r94, %r94
  %u95 = add i32 %r95, %r95
  %u96 = add i32 %r96, %r96
  %u97 = add i32 %r97, %r97
  %u98 = add i32 %r98, %r98
  %u99 = add i32 %r99, %r99
  %u100 = add i32 %r100, %r100
  %u101 = add i32 %r101, %r101
  %u102 = add i32 %r102, %r102
  %u103 = add i32 %r103, %r103
  %u104 = add i32 %r104, %r104
  %u105 = add i32 %r105, %r105
  %u106 = add i32 %r106, %r106
  %u107 = add i32 %r107, %r107
  %u108 = add i32 %r108, %r108
  %u109 = add i32 %r109, %r109
  %u110 = add i32 %r110, %r110
  %u111 = add i32 %r111, %r111
  %u112 = add i32 %r112, %r112
  %u113 = add i32 %r113, %r113
  %u114 = add i32 %r114, %r114
  %u115 = add i32 %r115, %r115
  %u116 = add i32 %r116, %r116
  %u117 = add i32 %r117, %r117
  %u118 = add i32 %r118, %r118
  %u119 = add i32 %r119, %r119
  %u120 = add i32 %r120, %r120
  %u121 = add i32 %r121, %r121
  %u122 = add i32 %r122, %r122
  %u123 = add i32 %r123, %r123
  %u124 = add i32 %r124, %r124
  %u125 = add i32 %r125, %r125
  %u126 = add i32 %r126, %r126
  %u127 = add i32 %r127, %r127
  %u128 = add i32 %r128, %r128
  %u129 = add i32 %r129, %r129
  %u130 = add i32 %r130, %r130
  %u131 = add i32 %r131, %r131
  %u132 = add i32 %r132, %r132
  %u133 = add i32 %r133, %r133
  %u134 = add i32 %r134, %r134
  %u135 = add i32 %r135, %r135
  %u136 = add i32 %r136, %r136
  %u137 = add i32 %r137, %r137
  %u138 = add i32 %r138, %r138
  %u139 = add i32 %r139, %r139
  %u140 = add i32 %r140, %r140
  %u141 = add i32 %r141, %r141
  %u142 = add i32 %r142, %r142
  %u143 = add i32 %r143, %r143
  %u144 = add i32 %r144, %r144
  %u145 = add i32 %r145, %r145
  %u146 = add i32 %r146, %r146
  %u147 = add i32 %r147, %r147
  %u148 = add i32 %r148, %r148
  %u149 = add i32 %r149, %r149
  %u150 = add i32 %r150, %r150
  %u151 = add i32 %r151, %r151
  %u152 = add i32 %r152, %r152
  %u153 = add i32 %r153, %r153
  %u154 = add i32 %r154, %r154
  %u155 = add i32 %r155, %r155
  %u156 = add i32 %r156, %r156
  %u157 = add i32 %r157, %r157
  %u158 = add i32 %r158, %r158
  %u159 = add i32 %r159, %r159
  %u160 = add i32 %r160, %r160
  %u161 = add i32 %r161, %r161
  %u162 = add i32 %r162, %r162
  %u163 = add i32 %r163, %r163
  %u164 = add i32 %r164, %r164
  %u165 = add i32 %r165, %r165
  %u166 = add i32 %r166, %r166
  %u167 = add i32 %r167, %r167
  %u168 = add i32 %r168, %r168
  %u169 = add i32 %r169, %r169
  %u170 = add i32 %r170, %r170
  %u171 = add i32 %r171, %r171
  %u172 = add i32 %r172, %r172
  %u173 = add i32 %r173, %r173
  %u174 = add i32 %r174, %r174
  %u175 = add i32 %r175, %r175
  %u176 = add i32 %r176, %r176
  %u177 = add i32 %r177, %r177
  %u178 = add i32 %r178, %r178
  %u179 = add i32 %r179, %r179
  %u180 = add i32 %r180, %r180
  %u181 = add i32 %r181, %r181
  %u182 = add i32 %r182, %r182
  %u183 = add i32 %r183, %r183
  %u184 = add i32 %r184, %r184
  %u185 = add i32 %r185, %r185
  %u186 = add i32 %r186, %r186
  %u187 = add i32 %r187, %r187
  %u188 = add i32 %r188, %r188
  %u189 = add i32 %r189, %r189
  %u190 = add i32 %r190, %r190
  %u191 = add i32 %r191, %r191
  %u192 = add i32 %r192, %r192
  %u193 = add i32 %r193, %r193
  %u194 = add i32 %r194, %r194
  %u195 = add i32 %r195, %r195
  %u196 = add i32 %r196, %r196
  %u197 = add i32 %r197, %r197
  %u198 = add i32 %r198, %r198
  %u199 = add i32 %r199, %r199
  ret void
}
; == paths: 200 definitions, past block 63
define void @f(i32 %x, i1 %c) {
b0:
  %r0 = add i32 %x, %x
  br label %b1
b1:
  %r1 = add i32 %x, %x
  br label %b2
b2:
  %r2 = add i32 %x, %x
  br label %b3
b3:
  %r3 = add i32 %x, %x
  br label %b4
b4:
  %r4 = add i32 %x, %x
  br label %b5
b5:
  %r5 = add i32 %x, %x
  br label %b6
b6:
  %r6 = add i32 %x, %x
  br label %b7
b7:
  %r7 = add i32 %x, %x
  br label %b8
b8:
  %r8 = add i32 %x, %x
  br label %b9
b9:
  %r9 = add i32 %x, %x
  br label %b10
b10:
  %r10 = add i32 %x, %x
  br label %b11
b11:
  %r11 = add i32 %x, %x
  br label %b12
b12:
  %r12 = add i32 %x, %x
  br label %b13
b13:
  %r13 = add i32 %x, %x
  br label %b14
b14:
  %r14 = add i32 %x, %x
  br label %b15
b15:
  %r15 = add i32 %x, %x
  br label %b16
b16:
  %r16 = add i32 %x, %x
  br label %b17
b17:
  %r17 = add i32 %x, %x
  br label %b18
b18:
  %r18 = add i32 %x, %x
  br label %b19
b19:
  %r19 = add i32 %x, %x
  br label %b20
b20:
  %r20 = add i32 %x, %x
  br label %b21
b21:
  %r21 = add i32 %x, %x
  br label %b22
b22:
  %r22 = add i32 %x, %x
  br label %b23
b23:
  %r23 = add i32 %x, %x
  br label %b24
b24:
  %r24 = add i32 %x, %x
  br label %b25
b25:
  %r25 = add i32 %x, %x
  br label %b26
b26:
  %r26 = add i32 %x, %x
  br label %b27
b27:
  %r27 = add i32 %x, %x
  br label %b28
b28:
  %r28 = add i32 %x, %x
  br label %b29
b29:
  %r29 = add i32 %x, %x
  br label %b30
b30:
  %r30 = add i32 %x, %x
  br label %b31
b31:
  %r31 = add i32 %x, %x
  br label %b32
b32:
  %r32 = add i32 %x, %x
  br label %b33
b33:
  %r33 = add i32 %x, %x
  br label %b34
b34:
  %r34 = add i32 %x, %x
  br label %b35
b35:
  %r35 = add i32 %x, %x
  br label %b36
b36:
  %r36 = add i32 %x, %x
  br label %b37
b37:
  %r37 = add i32 %x, %x
  br label %b38
b38:
  %r38 = add i32 %x, %x
  br label %b39
b39:
  %r39 = add i32 %x, %x
  br label %b40
b40:
  %r40 = add i32 %x, %x
  br label %b41
b41:
  %r41 = add i32 %x, %x
  br label %b42
b42:
  %r42 = add i32 %x, %x
  br label %b43
b43:
  %r43 = add i32 %x, %x
  br label %b44
b44:
  %r44 = add i32 %x, %x
  br label %b45
b45:
  %r45 = add i32 %x, %x
  br label %b46
b46:
  %r46 = add i32 %x, %x
  br label %b47
b47:
  %r47 = add i32 %x, %x
  br label %b48
b48:
  %r48 = add i32 %x, %x
  br label %b49
b49:
  %r49 = add i32 %x, %x
  br label %b50
b50:
  %r50 = add i32 %x, %x
  br label %b51
b51:
  %r51 = add i32 %x, %x
  br label %b52
b52:
  %r52 = add i32 %x, %x
  br label %b53
b53:
  %r53 = add i32 %x, %x
  br label %b54
b54:
  %r54 = add i32 %x, %x
  br label %b55
b55:
  %r55 = add i32 %x, %x
  br label %b56
b56:
  %r56 = add i32 %x, %x
  br label %b57
b57:
  %r57 = add i32 %x, %x
  br label %b58
b58:
  %r58 = add i32 %x, %x
  br label %b59
b59:
  %r59 = add i32 %x, %x
  br label %b60
b60:
  %r60 = add i32 %x, %x
  br label %b61
b61:
  %r61 = add i32 %x, %x
  br label %b62
b62:
  %r62 = add i32 %x, %x
  br i1 %c, label %b63, label %b64
b63:
  %r63 = add i32 %x, %x
  br label %b64
b64:
  %r64 = add i32 %x, %x
  br label %b65
b65:
  %r65 = add i32 %x, %x
  br label %b66
b66:
  %r66 = add i32 %x, %x
  br label %b67
b67:
  %r67 = add i32 %x, %x
  br label %b68
b68:
  %r68 = add i32 %x, %x
  br label %b69
b69:
  %r69 = add i32 %x, %x
  br label %b70
b70:
  %r70 = add i32 %x, %x
  br label %b71
b71:
  %r71 = add i32 %x, %x
  br label %b72
b72:
  %r72 = add i32 %x, %x
  br label %b73
b73:
  %r73 = add i32 %x, %x
  br label %b74
b74:
  %r74 = add i32 %x, %x
  br label %b75
b75:
  %r75 = add i32 %x, %x
  br label %b76
b76:
  %r76 = add i32 %x, %x
  br label %b77
b77:
  %r77 = add i32 %x, %x
  br label %b78
b78:
  %r78 = add i32 %x, %x
  br label %b79
b79:
  %r79 = add i32 %x, %x
  br label %b80
b80:
  %r80 = add i32 %x, %x
  br label %b81
b81:
  %r81 = add i32 %x, %x
  br label %b82
b82:
  %r82 = add i32 %x, %x
  br label %b83
b83:
  %r83 = add i32 %x, %x
  br label %b84
b84:
  %r84 = add i32 %x, %x
  br label %b85
b85:
  %r85 = add i32 %x, %x
  br label %b86
b86:
  %r86 = add i32 %x, %x
  br label %b87
b87:
  %r87 = add i32 %x, %x
  br label %b88
b88:
  %r88 = add i32 %x, %x
  br label %b89
b89:
  %r89 = add i32 %x, %x
  br label %b90
b90:
  %r90 = add i32 %x, %x
  br label %b91
b91:
  %r91 = add i32 %x, %x
  br label %b92
b92:
  %r92 = add i32 %x, %x
  br label %b93
b93:
  %r93 = add i32 %x, %x
  br label %b94
b94:
  %r94 = add i32 %x, %x
  br label %b95
b95:
  %r95 = add i32 %x, %x
  br label %b96
b96:
  %r96 = add i32 %x, %x
  br label %b97
b97:
  %r97 = add i32 %x, %x
  br label %b98
b98:
  %r98 = add i32 %x, %x
  br label %b99
b99:
  %r99 = add i32 %x, %x
  br label %b100
b100:
  %r100 = add i32 %x, %x
  br label %b101
b101:
  %r101 = add i32 %x, %x
  br label %b102
b102:
  %r102 = add i32 %x, %x
  br label %b103
b103:
  %r103 = add i32 %x, %x
  br label %b104
b104:
  %r104 = add i32 %x, %x
  br label %b105
b105:
  %r105 = add i32 %x, %x
  br label %b106
b106:
  %r106 = add i32 %x, %x
  br label %b107
b107:
  %r107 = add i32 %x, %x
  br label %b108
b108:
  %r108 = add i32 %x, %x
  br label %b109
b109:
  %r109 = add i32 %x, %x
  br label %b110
b110:
  %r110 = add i32 %x, %x
  br label %b111
b111:
  %r111 = add i32 %x, %x
  br label %b112
b112:
  %r112 = add i32 %x, %x
  br label %b113
b113:
  %r113 = add i32 %x, %x
  br label %b114
b114:
  %r114 = add i32 %x, %x
  br label %b115
b115:
  %r115 = add i32 %x, %x
  br label %b116
b116:
  %r116 = add i32 %x, %x
  br label %b117
b117:
  %r117 = add i32 %x, %x
  br label %b118
b118:
  %r118 = add i32 %x, %x
  br label %b119
b119:
  %r119 = add i32 %x, %x
  br label %b120
b120:
  %r120 = add i32 %x, %x
  br label %b121
b121:
  %r121 = add i32 %x, %x
  br label %b122
b122:
  %r122 = add i32 %x, %x
  br label %b123
b123:
  %r123 = add i32 %x, %x
  br label %b124
b124:
  %r124 = add i32 %x, %x
  br label %b125
b125:
  %r125 = add i32 %x, %x
  br label %b126
b126:
  %r126 = add i32 %x, %x
  br label %b127
b127:
  %r127 = add i32 %x, %x
  br label %b128
b128:
  %r128 = add i32 %x, %x
  br label %b129
b129:
  %r129 = add i32 %x, %x
  br label %b130
b130:
  %r130 = add i32 %x, %x
  br label %b131
b131:
  %r131 = add i32 %x, %x
  br label %b132
b132:
  %r132 = add i32 %x, %x
  br label %b133
b133:
  %r133 = add i32 %x, %x
  br label %b134
b134:
  %r134 = add i32 %x, %x
  br label %b135
b135:
  %r135 = add i32 %x, %x
  br label %b136
b136:
  %r136 = add i32 %x, %x
  br label %b137
b137:
  %r137 = add i32 %x, %x
  br label %b138
b138:
  %r138 = add i32 %x, %x
  br label %b139
b139:
  %r139 = add i32 %x, %x
  br label %b140
b140:
  %r140 = add i32 %x, %x
  br label %b141
b141:
  %r141 = add i32 %x, %x
  br label %b142
b142:
  %r142 = add i32 %x, %x
  br label %b143
b143:
  %r143 = add i32 %x, %x
  br label %b144
b144:
  %r144 = add i32 %x, %x
  br label %b145
b145:
  %r145 = add i32 %x, %x
  br label %b146
b146:
  %r146 = add i32 %x, %x
  br label %b147
b147:
  %r147 = add i32 %x, %x
  br label %b148
b148:
  %r148 = add i32 %x, %x
  br label %b149
b149:
  %r149 = add i32 %x, %x
  br label %b150
b150:
  %r150 = add i32 %x, %x
  br label %b151
b151:
  %r151 = add i32 %x, %x
  br label %b152
b152:
  %r152 = add i32 %x, %x
  br label %b153
b153:
  %r153 = add i32 %x, %x
  br label %b154
b154:
  %r154 = add i32 %x, %x
  br label %b155
b155:
  %r155 = add i32 %x, %x
  br label %b156
b156:
  %r156 = add i32 %x, %x
  br label %b157
b157:
  %r157 = add i32 %x, %x
  br label %b158
b158:
  %r158 = add i32 %x, %x
  br label %b159
b159:
  %r159 = add i32 %x, %x
  br label %b160
b160:
  %r160 = add i32 %x, %x
  br label %b161
b161:
  %r161 = add i32 %x, %x
  br label %b162
b162:
  %r162 = add i32 %x, %x
  br label %b163
b163:
  %r163 = add i32 %x, %x
  br label %b164
b164:
  %r164 = add i32 %x, %x
  br label %b165
b165:
  %r165 = add i32 %x, %x
  br label %b166
b166:
  %r166 = add i32 %x, %x
  br label %b167
b167:
  %r167 = add i32 %x, %x
  br label %b168
b168:
  %r168 = add i32 %x, %x
  br label %b169
b169:
  %r169 = add i32 %x, %x
  br label %b170
b170:
  %r170 = add i32 %x, %x
  br label %b171
b171:
  %r171 = add i32 %x, %x
  br label %b172
b172:
  %r172 = add i32 %x, %x
  br label %b173
b173:
  %r173 = add i32 %x, %x
  br label %b174
b174:
  %r174 = add i32 %x, %x
  br label %b175
b175:
  %r175 = add i32 %x, %x
  br label %b176
b176:
  %r176 = add i32 %x, %x
  br label %b177
b177:
  %r177 = add i32 %x, %x
  br label %b178
b178:
  %r178 = add i32 %x, %x
  br label %b179
b179:
  %r179 = add i32 %x, %x
  br label %b180
b180:
  %r180 = add i32 %x, %x
  br label %b181
b181:
  %r181 = add i32 %x, %x
  br label %b182
b182:
  %r182 = add i32 %x, %x
  br label %b183
b183:
  %r183 = add i32 %x, %x
  br label %b184
b184:
  %r184 = add i32 %x, %x
  br label %b185
b185:
  %r185 = add i32 %x, %x
  br label %b186
b186:
  %r186 = add i32 %x, %x
  br label %b187
b187:
  %r187 = add i32 %x, %x
  br label %b188
b188:
  %r188 = add i32 %x, %x
  br label %b189
b189:
  %r189 = add i32 %x, %x
  br label %b190
b190:
  %r190 = add i32 %x, %x
  br label %b191
b191:
  %r191 = add i32 %x, %x
  br label %b192
b192:
  %r192 = add i32 %x, %x
  br label %b193
b193:
  %r193 = add i32 %x, %x
  br label %b194
b194:
  %r194 = add i32 %x, %x
  br label %b195
b195:
  %r195 = add i32 %x, %x
  br label %b196
b196:
  %r196 = add i32 %x, %x
  br label %b197
b197:
  %r197 = add i32 %x, %x
  br label %b198
b198:
  %r198 = add i32 %x, %x
  br label %b199
b199:
  %r199 = add i32 %x, %x
  br label %b200
b200:
  %u0 = add i32 %r0, %r0
  %u1 = add i32 %r1, %r1
  %u2 = add i32 %r2, %r2
  %u3 = add i32 %r3, %r3
  %u4 = add i32 %r4, %r4
  %u5 = add i32 %r5, %r5
  %u6 = add i32 %r6, %r6
  %u7 = add i32 %r7, %r7
  %u8 = add i32 %r8, %r8
  %u9 = add i32 %r9, %r9
  %u10 = add i32 %r10, %r10
  %u11 = add i32 %r11, %r11
  %u12 = add i32 %r12, %r12
  %u13 = add i32 %r13, %r13
  %u14 = add i32 %r14, %r14
  %u15 = add i32 %r15, %r15
  %u16 = add i32 %r16, %r16
  %u17 = add i32 %r17, %r17
  %u18 = add i32 %r18, %r18
  %u19 = add i32 %r19, %r19
  %u20 = add i32 %r20, %r20
  %u21 = add i32 %r21, %r21
  %u22 = add i32 %r22, %r22
  %u23 = add i32 %r23, %r23
  %u24 = add i32 %r24, %r24
  %u25 = add i32 %r25, %r25
  %u26 = add i32 %r26, %r26
  %u27 = add i32 %r27, %r27
  %u28 = add i32 %r28, %r28
  %u29 = add i32 %r29, %r29
  %u30 = add i32 %r30, %r30
  %u31 = add i32 %r31, %r31
  %u32 = add i32 %r32, %r32
  %u33 = add i32 %r33, %r33
  %u34 = add i32 %r34, %r34
  %u35 = add i32 %r35, %r35
  %u36 = add i32 %r36, %r36
  %u37 = add i32 %r37, %r37
  %u38 = add i32 %r38, %r38
  %u39 = add i32 %r39, %r39
  %u40 = add i32 %r40, %r40
  %u41 = add i32 %r41, %r41
  %u42 = add i32 %r42, %r42
  %u43 = add i32 %r43, %r43
  %u44 = add i32 %r44, %r44
  %u45 = add i32 %r45, %r45
  %u46 = add i32 %r46, %r46
  %u47 = add i32 %r47, %r47
  %u48 = add i32 %r48, %r48
  %u49 = add i32 %r49, %r49
  %u50 = add i32 %r50, %r50
  %u51 = add i32 %r51, %r51
  %u52 = add i32 %r52, %r52
  %u53 = add i32 %r53, %r53
  %u54 = add i32 %r54, %r54
  %u55 = add i32 %r55, %r55
  %u56 = add i32 %r56, %r56
  %u57 = add i32 %r57, %r57
  %u58 = add i32 %r58, %r58
  %u59 = add i32 %r59, %r59
  %u60 = add i32 %r60, %r60
  %u61 = add i32 %r61, %r61
  %u62 = add i32 %r62, %r62
  %u63 = add i32 %r63, %r63
  %u64 = add i32 %r64, %r64
  %u65 = add i32 %r65, %r65
  %u66 = add i32 %r66, %r66
  %u67 = add i32 %r67, %r67
  %u68 = add i32 %r68, %r68
  %u69 = add i32 %r69, %r69
  %u70 = add i32 %r70, %r70
  %u71 = add i32 %r71, %r71
  %u72 = add i32 %r72, %r72
  %u73 = add i32 %r73, %r73
  %u74 = add i32 %r74, %r74
  %u75 = add i32 %r75, %r75
  %u76 = add i32 %r76, %r76
  %u77 = add i32 %r77, %r77
  %u78 = add i32 %r78, %r78
  %u79 = add i32 %r79, %r79
  %u80 = add i32 %r80, %r80
  %u81 = add i32 %r81, %r81
  %u82 = add i32 %r82, %r82
  %u83 = add i32 %r83, %r83
  %u84 = add i32 %r84, %r84
  %u85 = add i32 %r85, %r85
  %u86 = add i32 %r86, %r86
  %u87 = add i32 %r87, %r87
  %u88 = add i32 %r88, %r88
  %u89 = add i32 %r89, %r89
  %u90 = add i32 %r90, %r90
  %u91 = add i32 %r91, %r91
  %u92 = add i32 %r92, %r92
  %u93 = add i32 %r93, %r93
  %u94 = add i32 %r94, %r94
  %u95 = add i32 %r95, %r95
  %u96 = add i32 %r96, %r96
  %u97 = add i32 %r97, %r97
  %u98 = add i32 %r98, %r98
  %u99 = add i32 %r99, %r99
  %u100 = add i32 %r100, %r100
  %u101 = add i32 %r101, %r101
  %u102 = add i32 %r102, %r102
  %u103 = add i32 %r103, %r103
  %u104 = add i32 %r104, %r104
  %u105 = add i32 %r105, %r105
  %u106 = add i32 %r106, %r106
  %u107 = add i32 %r107, %r107
  %u108 = add i32 %r108, %r108
  %u109 = add i32 %r109, %r109
  %u110 = add i32 %r110, %r110
  %u111 = add i32 %r111, %r111
  %u112 = add i32 %r112, %r112
  %u113 = add i32 %r113, %r113
  %u114 = add i32 %r114, %r114
  %u115 = add i32 %r115, %r115
  %u116 = add i32 %r116, %r116
  %u117 = add i32 %r117, %r117
  %u118 = add i32 %r118, %r118
  %u119 = add i32 %r119, %r119
  %u120 = add i32 %r120, %r120
  %u121 = add i32 %r121, %r121
  %u122 = add i32 %r122, %r122
  %u123 = add i32 %r123, %r123
  %u124 = add i32 %r124, %r124
  %u125 = add i32 %r125, %r125
  %u126 = add i32 %r126, %r126
  %u127 = add i32 %r127, %r127
  %u128 = add i32 %r128, %r128
  %u129 = add i32 %r129, %r129
  %u130 = add i32 %r130, %r130
  %u131 = add i32 %r131, %r131
  %u132 = add i32 %r132, %r132
  %u133 = add i32 %r133, %r133
  %u134 = add i32 %r134, %r134
  %u135 = add i32 %r135, %r135
  %u136 = add i32 %r136, %r136
  %u137 = add i32 %r137, %r137
  %u138 = add i32 %r138, %r138
  %u139 = add i32 %r139, %r139
  %u140 = add i32 %r140, %r140
  %u141 = add i32 %r141, %r141
  %u142 = add i32 %r142, %r142
  %u143 = add i32 %r143, %r143
  %u144 = add i32 %r144, %r144
  %u145 = add i32 %r145, %r145
  %u146 = add i32 %r146, %r146
  %u147 = add i32 %r147, %r147
  %u148 = add i32 %r148, %r148
  %u149 = add i32 %r149, %r149
  %u150 = add i32 %r150, %r150
  %u151 = add i32 %r151, %r151
  %u152 = add i32 %r152, %r152
  %u153 = add i32 %r153, %r153
  %u154 = add i32 %r154, %r154
  %u155 = add i32 %r155, %r155
  %u156 = add i32 %r156, %r156
  %u157 = add i32 %r157, %r157
  %u158 = add i32 %r158, %r158
  %u159 = add i32 %r159, %r159
  %u160 = add i32 %r160, %r160
  %u161 = add i32 %r161, %r161
  %u162 = add i32 %r162, %r162
  %u163 = add i32 %r163, %r163
  %u164 = add i32 %r164, %r164
  %u165 = add i32 %r165, %r165
  %u166 = add i32 %r166, %r166
  %u167 = add i32 %r167, %r167
  %u168 = add i32 %r168, %r168
  %u169 = add i32 %r169, %r169
  %u170 = add i32 %r170, %r170
  %u171 = add i32 %r171, %r171
  %u172 = add i32 %r172, %r172
  %u173 = add i32 %r173, %r173
  %u174 = add i32 %r174, %r174
  %u175 = add i32 %r175, %r175
  %u176 = add i32 %r176, %r176
  %u177 = add i32 %r177, %r177
  %u178 = add i32 %r178, %r178
  %u179 = add i32 %r179, %r179
  %u180 = add i32 %r180, %r180
  %u181 = add i32 %r181, %r181
  %u182 = add i32 %r182, %r182
  %u183 = add i32 %r183, %r183
  %u184 = add i32 %r184, %r184
  %u185 = add i32 %r185, %r185
  %u186 = add i32 %r186, %r186
  %u187 = add i32 %r187, %r187
  %u188 = add i32 %r188, %r188
  %u189 = add i32 %r189, %r189
  %u190 = add i32 %r190, %r190
  %u191 = add i32 %r191, %r191
  %u192 = add i32 %r192, %r192
  %u193 = add i32 %r193, %r193
  %u194 = add i32 %r194, %r194
  %u195 = add i32 %r195, %r195
  %u196 = add i32 %r196, %r196
  %u197 = add i32 %r197, %r197
  %u198 = add i32 %r198, %r198
  %u199 = add i32 %r199, %r199
  ret void
}
; == paths: 200 definitions, past block 64
define void @f(i32 %x, i1 %c) {
b0:
  %r0 = add i32 %x, %x
  br label %b1
b1:
  %r1 = add i32 %x, %x
  br label %b2
b2:
  %r2 = add i32 %x, %x
  br label %b3
b3:
  %r3 = add i32 %x, %x
  br label %b4
b4:
  %r4 = add i32 %x, %x
  br label %b5
b5:
  %r5 = add i32 %x, %x
  br label %b6
b6:
  %r6 = add i32 %x, %x
  br label %b7
b7:
  %r7 = add i32 %x, %x
  br label %b8
b8:
  %r8 = add i32 %x, %x
  br label %b9
b9:
  %r9 = add i32 %x, %x
  br label %b10
b10:
  %r10 = add i32 %x, %x
  br label %b11
b11:
  %r11 = add i32 %x, %x
  br label %b12
b12:
  %r12 = add i32 %x, %x
  br label %b13
b13:
  %r13 = add i32 %x, %x
  br label %b14
b14:
  %r14 = add i32 %x, %x
  br label %b15
b15:
  %r15 = add i32 %x, %x
  br label %b16
b16:
  %r16 = add i32 %x, %x
  br label %b17
b17:
  %r17 = add i32 %x, %x
  br label %b18
b18:
  %r18 = add i32 %x, %x
  br label %b19
b19:
  %r19 = add i32 %x, %x
  br label %b20
b20:
  %r20 = add i32 %x, %x
  br label %b21
b21:
  %r21 = add i32 %x, %x
  br label %b22
b22:
  %r22 = add i32 %x, %x
  br label %b23
b23:
  %r23 = add i32 %x, %x
  br label %b24
b24:
  %r24 = add i32 %x, %x
  br label %b25
b25:
  %r25 = add i32 %x, %x
  br label %b26
b26:
  %r26 = add i32 %x, %x
  br label %b27
b27:
  %r27 = add i32 %x, %x
  br label %b28
b28:
  %r28 = add i32 %x, %x
  br label %b29
b29:
  %r29 = add i32 %x, %x
  br label %b30
b30:
  %r30 = add i32 %x, %x
  br label %b31
b31:
  %r31 = add i32 %x, %x
  br label %b32
b32:
  %r32 = add i32 %x, %x
  br label %b33
b33:
  %r33 = add i32 %x, %x
  br label %b34
b34:
  %r34 = add i32 %x, %x
  br label %b35
b35:
  %r35 = add i32 %x, %x
  br label %b36
b36:
  %r36 = add i32 %x, %x
  br label %b37
b37:
  %r37 = add i32 %x, %x
  br label %b38
b38:
  %r38 = add i32 %x, %x
  br label %b39
b39:
  %r39 = add i32 %x, %x
  br label %b40
b40:
  %r40 = add i32 %x, %x
  br label %b41
b41:
  %r41 = add i32 %x, %x
  br label %b42
b42:
  %r42 = add i32 %x, %x
  br label %b43
b43:
  %r43 = add i32 %x, %x
  br label %b44
b44:
  %r44 = add i32 %x, %x
  br label %b45
b45:
  %r45 = add i32 %x, %x
  br label %b46
b46:
  %r46 = add i32 %x, %x
  br label %b47
b47:
  %r47 = add i32 %x, %x
  br label %b48
b48:
  %r48 = add i32 %x, %x
  br label %b49
b49:
  %r49 = add i32 %x, %x
  br label %b50
b50:
  %r50 = add i32 %x, %x
  br label %b51
b51:
  %r51 = add i32 %x, %x
  br label %b52
b52:
  %r52 = add i32 %x, %x
  br label %b53
b53:
  %r53 = add i32 %x, %x
  br label %b54
b54:
  %r54 = add i32 %x, %x
  br label %b55
b55:
  %r55 = add i32 %x, %x
  br label %b56
b56:
  %r56 = add i32 %x, %x
  br label %b57
b57:
  %r57 = add i32 %x, %x
  br label %b58
b58:
  %r58 = add i32 %x, %x
  br label %b59
b59:
  %r59 = add i32 %x, %x
  br label %b60
b60:
  %r60 = add i32 %x, %x
  br label %b61
b61:
  %r61 = add i32 %x, %x
  br label %b62
b62:
  %r62 = add i32 %x, %x
  br label %b63
b63:
  %r63 = add i32 %x, %x
  br i1 %c, label %b64, label %b65
b64:
  %r64 = add i32 %x, %x
  br label %b65
b65:
  %r65 = add i32 %x, %x
  br label %b66
b66:
  %r66 = add i32 %x, %x
  br label %b67
b67:
  %r67 = add i32 %x, %x
  br label %b68
b68:
  %r68 = add i32 %x, %x
  br label %b69
b69:
  %r69 = add i32 %x, %x
  br label %b70
b70:
  %r70 = add i32 %x, %x
  br label %b71
b71:
  %r71 = add i32 %x, %x
  br label %b72
b72:
  %r72 = add i32 %x, %x
  br label %b73
b73:
  %r73 = add i32 %x, %x
  br label %b74
b74:
  %r74 = add i32 %x, %x
  br label %b75
b75:
  %r75 = add i32 %x, %x
  br label %b76
b76:
  %r76 = add i32 %x, %x
  br label %b77
b77:
  %r77 = add i32 %x, %x
  br label %b78
b78:
  %r78 = add i32 %x, %x
  br label %b79
b79:
  %r79 = add i32 %x, %x
  br label %b80
b80:
  %r80 = add i32 %x, %x
  br label %b81
b81:
  %r81 = add i32 %x, %x
  br label %b82
b82:
  %r82 = add i32 %x, %x
  br label %b83
b83:
  %r83 = add i32 %x, %x
  br label %b84
b84:
  %r84 = add i32 %x, %x
  br label %b85
b85:
  %r85 = add i32 %x, %x
  br label %b86
b86:
  %r86 = add i32 %x, %x
  br label %b87
b87:
  %r87 = add i32 %x, %x
  br label %b88
b88:
  %r88 = add i32 %x, %x
  br label %b89
b89:
  %r89 = add i32 %x, %x
  br label %b90
b90:
  %r90 = add i32 %x, %x
  br label %b91
b91:
  %r91 = add i32 %x, %x
  br label %b92
b92:
  %r92 = add i32 %x, %x
  br label %b93
b93:
  %r93 = add i32 %x, %x
  br label %b94
b94:
  %r94 = add i32 %x, %x
  br label %b95
b95:
  %r95 = add i32 %x, %x
  br label %b96
b96:
  %r96 = add i32 %x, %x
  br label %b97
b97:
  %r97 = add i32 %x, %x
  br label %b98
b98:
  %r98 = add i32 %x, %x
  br label %b99
b99:
  %r99 = add i32 %x, %x
  br label %b100
b100:
  %r100 = add i32 %x, %x
  br label %b101
b101:
  %r101 = add i32 %x, %x
  br label %b102
b102:
  %r102 = add i32 %x, %x
  br label %b103
b103:
  %r103 = add i32 %x, %x
  br label %b104
b104:
  %r104 = add i32 %x, %x
  br label %b105
b105:
  %r105 = add i32 %x, %x
  br label %b106
b106:
  %r106 = add i32 %x, %x
  br label %b107
b107:
  %r107 = add i32 %x, %x
  br label %b108
b108:
  %r108 = add i32 %x, %x
  br label %b109
b109:
  %r109 = add i32 %x, %x
  br label %b110
b110:
  %r110 = add i32 %x, %x
  br label %b111
b111:
  %r111 = add i32 %x, %x
  br label %b112
b112:
  %r112 = add i32 %x, %x
  br label %b113
b113:
  %r113 = add i32 %x, %x
  br label %b114
b114:
  %r114 = add i32 %x, %x
  br label %b115
b115:
  %r115 = add i32 %x, %x
  br label %b116
b116:
  %r116 = add i32 %x, %x
  br label %b117
b117:
  %r117 = add i32 %x, %x
  br label %b118
b118:
  %r118 = add i32 %x, %x
  br label %b119
b119:
  %r119 = add i32 %x, %x
  br label %b120
b120:
  %r120 = add i32 %x, %x
  br label %b121
b121:
  %r121 = add i32 %x, %x
  br label %b122
b122:
  %r122 = add i32 %x, %x
  br label %b123
b123:
  %r123 = add i32 %x, %x
  br label %b124
b124:
  %r124 = add i32 %x, %x
  br label %b125
b125:
  %r125 = add i32 %x, %x
  br label %b126
b126:
  %r126 = add i32 %x, %x
  br label %b127
b127:
  %r127 = add i32 %x, %x
  br label %b128
b128:
  %r128 = add i32 %x, %x
  br label %b129
b129:
  %r129 = add i32 %x, %x
  br label %b130
b130:
  %r130 = add i32 %x, %x
  br label %b131
b131:
  %r131 = add i32 %x, %x
  br label %b132
b132:
  %r132 = add i32 %x, %x
  br label %b133
b133:
  %r133 = add i32 %x, %x
  br label %b134
b134:
  %r134 = add i32 %x, %x
  br label %b135
b135:
  %r135 = add i32 %x, %x
  br label %b136
b136:
  %r136 = add i32 %x, %x
  br label %b137
b137:
  %r137 = add i32 %x, %x
  br label %b138
b138:
  %r138 = add i32 %x, %x
  br label %b139
b139:
  %r139 = add i32 %x, %x
  br label %b140
b140:
  %r140 = add i32 %x, %x
  br label %b141
b141:
  %r141 = add i32 %x, %x
  br label %b142
b142:
  %r142 = add i32 %x, %x
  br label %b143
b143:
  %r143 = add i32 %x, %x
  br label %b144
b144:
  %r144 = add i32 %x, %x
  br label %b145
b145:
  %r145 = add i32 %x, %x
  br label %b146
b146:
  %r146 = add i32 %x, %x
  br label %b147
b147:
  %r147 = add i32 %x, %x
  br label %b148
b148:
  %r148 = add i32 %x, %x
  br label %b149
b149:
  %r149 = add i32 %x, %x
  br label %b150
b150:
  %r150 = add i32 %x, %x
  br label %b151
b151:
  %r151 = add i32 %x, %x
  br label %b152
b152:
  %r152 = add i32 %x, %x
  br label %b153
b153:
  %r153 = add i32 %x, %x
  br label %b154
b154:
  %r154 = add i32 %x, %x
  br label %b155
b155:
  %r155 = add i32 %x, %x
  br label %b156
b156:
  %r156 = add i32 %x, %x
  br label %b157
b157:
  %r157 = add i32 %x, %x
  br label %b158
b158:
  %r158 = add i32 %x, %x
  br label %b159
b159:
  %r159 = add i32 %x, %x
  br label %b160
b160:
  %r160 = add i32 %x, %x
  br label %b161
b161:
  %r161 = add i32 %x, %x
  br label %b162
b162:
  %r162 = add i32 %x, %x
  br label %b163
b163:
  %r163 = add i32 %x, %x
  br label %b164
b164:
  %r164 = add i32 %x, %x
  br label %b165
b165:
  %r165 = add i32 %x, %x
  br label %b166
b166:
  %r166 = add i32 %x, %x
  br label %b167
b167:
  %r167 = add i32 %x, %x
  br label %b168
b168:
  %r168 = add i32 %x, %x
  br label %b169
b169:
  %r169 = add i32 %x, %x
  br label %b170
b170:
  %r170 = add i32 %x, %x
  br label %b171
b171:
  %r171 = add i32 %x, %x
  br label %b172
b172:
  %r172 = add i32 %x, %x
  br label %b173
b173:
  %r173 = add i32 %x, %x
  br label %b174
b174:
  %r174 = add i32 %x, %x
  br label %b175
b175:
  %r175 = add i32 %x, %x
  br label %b176
b176:
  %r176 = add i32 %x, %x
  br label %b177
b177:
  %r177 = add i32 %x, %x
  br label %b178
b178:
  %r178 = add i32 %x, %x
  br label %b179
b179:
  %r179 = add i32 %x, %x
  br label %b180
b180:
  %r180 = add i32 %x, %x
  br label %b181
b181:
  %r181 = add i32 %x, %x
  br label %b182
b182:
  %r182 = add i32 %x, %x
  br label %b183
b183:
  %r183 = add i32 %x, %x
  br label %b184
b184:
  %r184 = add i32 %x, %x
  br label %b185
b185:
  %r185 = add i32 %x, %x
  br label %b186
b186:
  %r186 = add i32 %x, %x
  br label %b187
b187:
  %r187 = add i32 %x, %x
  br label %b188
b188:
  %r188 = add i32 %x, %x
  br label %b189
b189:
  %r189 = add i32 %x, %x
  br label %b190
b190:
  %r190 = add i32 %x, %x
  br label %b191
b191:
  %r191 = add i32 %x, %x
  br label %b192
b192:
  %r192 = add i32 %x, %x
  br label %b193
b193:
  %r193 = add i32 %x, %x
  br label %b194
b194:
  %r194 = add i32 %x, %x
  br label %b195
b195:
  %r195 = add i32 %x, %x
  br label %b196
b196:
  %r196 = add i32 %x, %x
  br label %b197
b197:
  %r197 = add i32 %x, %x
  br label %b198
b198:
  %r198 = add i32 %x, %x
  br label %b199
b199:
  %r199 = add i32 %x, %x
  br label %b200
b200:
  %u0 = add i32 %r0, %r0
  %u1 = add i32 %r1, %r1
  %u2 = add i32 %r2, %r2
  %u3 = add i32 %r3, %r3
  %u4 = add i32 %r4, %r4
  %u5 = add i32 %r5, %r5
  %u6 = add i32 %r6, %r6
  %u7 = add i32 %r7, %r7
  %u8 = add i32 %r8, %r8
  %u9 = add i32 %r9, %r9
  %u10 = add i32 %r10, %r10
  %u11 = add i32 %r11, %r11
  %u12 = add i32 %r12, %r12
  %u13 = add i32 %r13, %r13
  %u14 = add i32 %r14, %r14
  %u15 = add i32 %r15, %r15
  %u16 = add i32 %r16, %r16
  %u17 = add i32 %r17, %r17
  %u18 = add i32 %r18, %r18
  %u19 = add i32 %r19, %r19
  %u20 = add i32 %r20, %r20
  %u21 = add i32 %r21, %r21
  %u22 = add i32 %r22, %r22
  %u23 = add i32 %r23, %r23
  %u24 = add i32 %r24, %r24
  %u25 = add i32 %r25, %r25
  %u26 = add i32 %r26, %r26
  %u27 = add i32 %r27, %r27
  %u28 = add i32 %r28, %r28
  %u29 = add i32 %r29, %r29
  %u30 = add i32 %r30, %r30
  %u31 = add i32 %r31, %r31
  %u32 = add i32 %r32, %r32
  %u33 = add i32 %r33, %r33
  %u34 = add i32 %r34, %r34
  %u35 = add i32 %r35, %r35
  %u36 = add i32 %r36, %r36
  %u37 = add i32 %r37, %r37
  %u38 = add i32 %r38, %r38
  %u39 = add i32 %r39, %r39
  %u40 = add i32 %r40, %r40
  %u41 = add i32 %r41, %r41
  %u42 = add i32 %r42, %r42
  %u43 = add i32 %r43, %r43
  %u44 = add i32 %r44, %r44
  %u45 = add i32 %r45, %r45
  %u46 = add i32 %r46, %r46
  %u47 = add i32 %r47, %r47
  %u48 = add i32 %r48, %r48
  %u49 = add i32 %r49, %r49
  %u50 = add i32 %r50, %r50
  %u51 = add i32 %r51, %r51
  %u52 = add i32 %r52, %r52
  %u53 = add i32 %r53, %r53
  %u54 = add i32 %r54, %r54
  %u55 = add i32 %r55, %r55
  %u56 = add i32 %r56, %r56
  %u57 = add i32 %r57, %r57
  %u58 = add i32 %r58, %r58
  %u59 = add i32 %r59, %r59
  %u60 = add i32 %r60, %r60
  %u61 = add i32 %r61, %r61
  %u62 = add i32 %r62, %r62
  %u63 = add i32 %r63, %r63
  %u64 = add i32 %r64, %r64
  %u65 = add i32 %r65, %r65
  %u66 = add i32 %r66, %r66
  %u67 = add i32 %r67, %r67
  %u68 = add i32 %r68, %r68
  %u69 = add i32 %r69, %r69
  %u70 = add i32 %r70, %r70
  %u71 = add i32 %r71, %r71
  %u72 = add i32 %r72, %r72
  %u73 = add i32 %r73, %r73
  %u74 = add i32 %r74, %r74
  %u75 = add i32 %r75, %r75
  %u76 = add i32 %r76, %r76
  %u77 = add i32 %r77, %r77
  %u78 = add i32 %r78, %r78
  %u79 = add i32 %r79, %r79
  %u80 = add i32 %r80, %r80
  %u81 = add i32 %r81, %r81
  %u82 = add i32 %r82, %r82
  %u83 = add i32 %r83, %r83
  %u84 = add i32 %r84, %r84
  %u85 = add i32 %r85, %r85
  %u86 = add i32 %r86, %r86
  %u87 = add i32 %r87, %r87
  %u88 = add i32 %r88, %r88
  %u89 = add i32 %r89, %r89
  %u90 = add i32 %r90, %r90
  %u91 = add i32 %r91, %r91
  %u92 = add i32 %r92, %r92
  %u93 = add i32 %r93, %r93
  %u94 = add i32 %r94, %r94
  %u95 = add i32 %r95, %r95
  %u96 = add i32 %r96, %r96
  %u97 = add i32 %r97, %r97
  %u98 = add i32 %r98, %r98
  %u99 = add i32 %r99, %r99
  %u100 = add i32 %r100, %r100
  %u101 = add i32 %r101, %r101
  %u102 = add i32 %r102, %r102
  %u103 = add i32 %r103, %r103
  %u104 = add i32 %r104, %r104
  %u105 = add i32 %r105, %r105
  %u106 = add i32 %r106, %r106
  %u107 = add i32 %r107, %r107
  %u108 = add i32 %r108, %r108
  %u109 = add i32 %r109, %r109
  %u110 = add i32 %r110, %r110
  %u111 = add i32 %r111, %r111
  %u112 = add i32 %r112, %r112
  %u113 = add i32 %r113, %r113
  %u114 = add i32 %r114, %r114
  %u115 = add i32 %r115, %r115
  %u116 = add i32 %r116, %r116
  %u117 = add i32 %r117, %r117
  %u118 = add i32 %r118, %r118
  %u119 = add i32 %r119, %r119
  %u120 = add i32 %r120, %r120
  %u121 = add i32 %r121, %r121
  %u122 = add i32 %r122, %r122
  %u123 = add i32 %r123, %r123
  %u124 = add i32 %r124, %r124
  %u125 = add i32 %r125, %r125
  %u126 = add i32 %r126, %r126
  %u127 = add i32 %r127, %r127
  %u128 = add i32 %r128, %r128
  %u129 = add i32 %r129, %r129
  %u130 = add i32 %r130, %r130
  %u131 = add i32 %r131, %r131
  %u132 = add i32 %r132, %r132
  %u133 = add i32 %r133, %r133
  %u134 = add i32 %r134, %r134
  %u135 = add i32 %r135, %r135
  %u136 = add i32 %r136, %r136
  %u137 = add i32 %r137, %r137
  %u138 = add i32 %r138, %r138
  %u139 = add i32 %r139, %r139
  %u140 = add i32 %r140, %r140
  %u141 = add i32 %r141, %r141
  %u142 = add i32 %r142, %r142
  %u143 = add i32 %r143, %r143
  %u144 = add i32 %r144, %r144
  %u145 = add i32 %r145, %r145
  %u146 = add i32 %r146, %r146
  %u147 = add i32 %r147, %r147
  %u148 = add i32 %r148, %r148
  %u149 = add i32 %r149, %r149
  %u150 = add i32 %r150, %r150
  %u151 = add i32 %r151, %r151
  %u152 = add i32 %r152, %r152
  %u153 = add i32 %r153, %r153
  %u154 = add i32 %r154, %r154
  %u155 = add i32 %r155, %r155
  %u156 = add i32 %r156, %r156
  %u157 = add i32 %r157, %r157
  %u158 = add i32 %r158, %r158
  %u159 = add i32 %r159, %r159
  %u160 = add i32 %r160, %r160
  %u161 = add i32 %r161, %r161
  %u162 = add i32 %r162, %r162
  %u163 = add i32 %r163, %r163
  %u164 = add i32 %r164, %r164
  %u165 = add i32 %r165, %r165
  %u166 = add i32 %r166, %r166
  %u167 = add i32 %r167, %r167
  %u168 = add i32 %r168, %r168
  %u169 = add i32 %r169, %r169
  %u170 = add i32 %r170, %r170
  %u171 = add i32 %r171, %r171
  %u172 = add i32 %r172, %r172
  %u173 = add i32 %r173, %r173
  %u174 = add i32 %r174, %r174
  %u175 = add i32 %r175, %r175
  %u176 = add i32 %r176, %r176
  %u177 = add i32 %r177, %r177
  %u178 = add i32 %r178, %r178
  %u179 = add i32 %r179, %r179
  %u180 = add i32 %r180, %r180
  %u181 = add i32 %r181, %r181
  %u182 = add i32 %r182, %r182
  %u183 = add i32 %r183, %r183
  %u184 = add i32 %r184, %r184
  %u185 = add i32 %r185, %r185
  %u186 = add i32 %r186, %r186
  %u187 = add i32 %r187, %r187
  %u188 = add i32 %r188, %r188
  %u189 = add i32 %r189, %r189
  %u190 = add i32 %r190, %r190
  %u191 = add i32 %r191, %r191
  %u192 = add i32 %r192, %r192
  %u193 = add i32 %r193, %r193
  %u194 = add i32 %r194, %r194
  %u195 = add i32 %r195, %r195
  %u196 = add i32 %r196, %r196
  %u197 = add i32 %r197, %r197
  %u198 = add i32 %r198, %r198
  %u199 = add i32 %r199, %r199
  ret void
}
; == paths: 200 definitions, past block 65
define void @f(i32 %x, i1 %c) {
b0:
  %r0 = add i32 %x, %x
  br label %b1
b1:
  %r1 = add i32 %x, %x
  br label %b2
b2:
  %r2 = add i32 %x, %x
  br label %b3
b3:
  %r3 = add i32 %x, %x
  br label %b4
b4:
  %r4 = add i32 %x, %x
  br label %b5
b5:
  %r5 = add i32 %x, %x
  br label %b6
b6:
  %r6 = add i32 %x, %x
  br label %b7
b7:
  %r7 = add i32 %x, %x
  br label %b8
b8:
  %r8 = add i32 %x, %x
  br label %b9
b9:
  %r9 = add i32 %x, %x
  br label %b10
b10:
  %r10 = add i32 %x, %x
  br label %b11
b11:
  %r11 = add i32 %x, %x
  br label %b12
b12:
  %r12 = add i32 %x, %x
  br label %b13
b13:
  %r13 = add i32 %x, %x
  br label %b14
b14:
  %r14 = add i32 %x, %x
  br label %b15
b15:
  %r15 = add i32 %x, %x
  br label %b16
b16:
  %r16 = add i32 %x, %x
  br label %b17
b17:
  %r17 = add i32 %x, %x
  br label %b18
b18:
  %r18 = add i32 %x, %x
  br label %b19
b19:
  %r19 = add i32 %x, %x
  br label %b20
b20:
  %r20 = add i32 %x, %x
  br label %b21
b21:
  %r21 = add i32 %x, %x
  br label %b22
b22:
  %r22 = add i32 %x, %x
  br label %b23
b23:
  %r23 = add i32 %x, %x
  br label %b24
b24:
  %r24 = add i32 %x, %x
  br label %b25
b25:
  %r25 = add i32 %x, %x
  br label %b26
b26:
  %r26 = add i32 %x, %x
  br label %b27
b27:
  %r27 = add i32 %x, %x
  br label %b28
b28:
  %r28 = add i32 %x, %x
  br label %b29
b29:
  %r29 = add i32 %x, %x
  br label %b30
b30:
  %r30 = add i32 %x, %x
  br label %b31
b31:
  %r31 = add i32 %x, %x
  br label %b32
b32:
  %r32 = add i32 %x, %x
  br label %b33
b33:
  %r33 = add i32 %x, %x
  br label %b34
b34:
  %r34 = add i32 %x, %x
  br label %b35
b35:
  %r35 = add i32 %x, %x
  br label %b36
b36:
  %r36 = add i32 %x, %x
  br label %b37
b37:
  %r37 = add i32 %x, %x
  br label %b38
b38:
  %r38 = add i32 %x, %x
  br label %b39
b39:
  %r39 = add i32 %x, %x
  br label %b40
b40:
  %r40 = add i32 %x, %x
  br label %b41
b41:
  %r41 = add i32 %x, %x
  br label %b42
b42:
  %r42 = add i32 %x, %x
  br label %b43
b43:
  %r43 = add i32 %x, %x
  br label %b44
b44:
  %r44 = add i32 %x, %x
  br label %b45
b45:
  %r45 = add i32 %x, %x
  br label %b46
b46:
  %r46 = add i32 %x, %x
  br label %b47
b47:
  %r47 = add i32 %x, %x
  br label %b48
b48:
  %r48 = add i32 %x, %x
  br label %b49
b49:
  %r49 = add i32 %x, %x
  br label %b50
b50:
  %r50 = add i32 %x, %x
  br label %b51
b51:
  %r51 = add i32 %x, %x
  br label %b52
b52:
  %r52 = add i32 %x, %x
  br label %b53
b53:
  %r53 = add i32 %x, %x
  br label %b54
b54:
  %r54 = add i32 %x, %x
  br label %b55
b55:
  %r55 = add i32 %x, %x
  br label %b56
b56:
  %r56 = add i32 %x, %x
  br label %b57
b57:
  %r57 = add i32 %x, %x
  br label %b58
b58:
  %r58 = add i32 %x, %x
  br label %b59
b59:
  %r59 = add i32 %x, %x
  br label %b60
b60:
  %r60 = add i32 %x, %x
  br label %b61
b61:
  %r61 = add i32 %x, %x
  br label %b62
b62:
  %r62 = add i32 %x, %x
  br label %b63
b63:
  %r63 = add i32 %x, %x
  br label %b64
b64:
  %r64 = add i32 %x, %x
  br i1 %c, label %b65, label %b66
b65:
  %r65 = add i32 %x, %x
  br label %b66
b66:
  %r66 = add i32 %x, %x
  br label %b67
b67:
  %r67 = add i32 %x, %x
  br label %b68
b68:
  %r68 = add i32 %x, %x
  br label %b69
b69:
  %r69 = add i32 %x, %x
  br label %b70
b70:
  %r70 = add i32 %x, %x
  br label %b71
b71:
  %r71 = add i32 %x, %x
  br label %b72
b72:
  %r72 = add i32 %x, %x
  br label %b73
b73:
  %r73 = add i32 %x, %x
  br label %b74
b74:
  %r74 = add i32 %x, %x
  br label %b75
b75:
  %r75 = add i32 %x, %x
  br label %b76
b76:
  %r76 = add i32 %x, %x
  br label %b77
b77:
  %r77 = add i32 %x, %x
  br label %b78
b78:
  %r78 = add i32 %x, %x
  br label %b79
b79:
  %r79 = add i32 %x, %x
  br label %b80
b80:
  %r80 = add i32 %x, %x
  br label %b81
b81:
  %r81 = add i32 %x, %x
  br label %b82
b82:
  %r82 = add i32 %x, %x
  br label %b83
b83:
  %r83 = add i32 %x, %x
  br label %b84
b84:
  %r84 = add i32 %x, %x
  br label %b85
b85:
  %r85 = add i32 %x, %x
  br label %b86
b86:
  %r86 = add i32 %x, %x
  br label %b87
b87:
  %r87 = add i32 %x, %x
  br label %b88
b88:
  %r88 = add i32 %x, %x
  br label %b89
b89:
  %r89 = add i32 %x, %x
  br label %b90
b90:
  %r90 = add i32 %x, %x
  br label %b91
b91:
  %r91 = add i32 %x, %x
  br label %b92
b92:
  %r92 = add i32 %x, %x
  br label %b93
b93:
  %r93 = add i32 %x, %x
  br label %b94
b94:
  %r94 = add i32 %x, %x
  br label %b95
b95:
  %r95 = add i32 %x, %x
  br label %b96
b96:
  %r96 = add i32 %x, %x
  br label %b97
b97:
  %r97 = add i32 %x, %x
  br label %b98
b98:
  %r98 = add i32 %x, %x
  br label %b99
b99:
  %r99 = add i32 %x, %x
  br label %b100
b100:
  %r100 = add i32 %x, %x
  br label %b101
b101:
  %r101 = add i32 %x, %x
  br label %b102
b102:
  %r102 = add i32 %x, %x
  br label %b103
b103:
  %r103 = add i32 %x, %x
  br label %b104
b104:
  %r104 = add i32 %x, %x
  br label %b105
b105:
  %r105 = add i32 %x, %x
  br label %b106
b106:
  %r106 = add i32 %x, %x
  br label %b107
b107:
  %r107 = add i32 %x, %x
  br label %b108
b108:
  %r108 = add i32 %x, %x
  br label %b109
b109:
  %r109 = add i32 %x, %x
  br label %b110
b110:
  %r110 = add i32 %x, %x
  br label %b111
b111:
  %r111 = add i32 %x, %x
  br label %b112
b112:
  %r112 = add i32 %x, %x
  br label %b113
b113:
  %r113 = add i32 %x, %x
  br label %b114
b114:
  %r114 = add i32 %x, %x
  br label %b115
b115:
  %r115 = add i32 %x, %x
  br label %b116
b116:
  %r116 = add i32 %x, %x
  br label %b117
b117:
  %r117 = add i32 %x, %x
  br label %b118
b118:
  %r118 = add i32 %x, %x
  br label %b119
b119:
  %r119 = add i32 %x, %x
  br label %b120
b120:
  %r120 = add i32 %x, %x
  br label %b121
b121:
  %r121 = add i32 %x, %x
  br label %b122
b122:
  %r122 = add i32 %x, %x
  br label %b123
b123:
  %r123 = add i32 %x, %x
  br label %b124
b124:
  %r124 = add i32 %x, %x
  br label %b125
b125:
  %r125 = add i32 %x, %x
  br label %b126
b126:
  %r126 = add i32 %x, %x
  br label %b127
b127:
  %r127 = add i32 %x, %x
  br label %b128
b128:
  %r128 = add i32 %x, %x
  br label %b129
b129:
  %r129 = add i32 %x, %x
  br label %b130
b130:
  %r130 = add i32 %x, %x
  br label %b131
b131:
  %r131 = add i32 %x, %x
  br label %b132
b132:
  %r132 = add i32 %x, %x
  br label %b133
b133:
  %r133 = add i32 %x, %x
  br label %b134
b134:
  %r134 = add i32 %x, %x
  br label %b135
b135:
  %r135 = add i32 %x, %x
  br label %b136
b136:
  %r136 = add i32 %x, %x
  br label %b137
b137:
  %r137 = add i32 %x, %x
  br label %b138
b138:
  %r138 = add i32 %x, %x
  br label %b139
b139:
  %r139 = add i32 %x, %x
  br label %b140
b140:
  %r140 = add i32 %x, %x
  br label %b141
b141:
  %r141 = add i32 %x, %x
  br label %b142
b142:
  %r142 = add i32 %x, %x
  br label %b143
b143:
  %r143 = add i32 %x, %x
  br label %b144
b144:
  %r144 = add i32 %x, %x
  br label %b145
b145:
  %r145 = add i32 %x, %x
  br label %b146
b146:
  %r146 = add i32 %x, %x
  br label %b147
b147:
  %r147 = add i32 %x, %x
  br label %b148
b148:
  %r148 = add i32 %x, %x
  br label %b149
b149:
  %r149 = add i32 %x, %x
  br label %b150
b150:
  %r150 = add i32 %x, %x
  br label %b151
b151:
  %r151 = add i32 %x, %x
  br label %b152
b152:
  %r152 = add i32 %x, %x
  br label %b153
b153:
  %r153 = add i32 %x, %x
  br label %b154
b154:
  %r154 = add i32 %x, %x
  br label %b155
b155:
  %r155 = add i32 %x, %x
  br label %b156
b156:
  %r156 = add i32 %x, %x
  br label %b157
b157:
  %r157 = add i32 %x, %x
  br label %b158
b158:
  %r158 = add i32 %x, %x
  br label %b159
b159:
  %r159 = add i32 %x, %x
  br label %b160
b160:
  %r160 = add i32 %x, %x
  br label %b161
b161:
  %r161 = add i32 %x, %x
  br label %b162
b162:
  %r162 = add i32 %x, %x
  br label %b163
b163:
  %r163 = add i32 %x, %x
  br label %b164
b164:
  %r164 = add i32 %x, %x
  br label %b165
b165:
  %r165 = add i32 %x, %x
  br label %b166
b166:
  %r166 = add i32 %x, %x
  br label %b167
b167:
  %r167 = add i32 %x, %x
  br label %b168
b168:
  %r168 = add i32 %x, %x
  br label %b169
b169:
  %r169 = add i32 %x, %x
  br label %b170
b170:
  %r170 = add i32 %x, %x
  br label %b171
b171:
  %r171 = add i32 %x, %x
  br label %b172
b172:
  %r172 = add i32 %x, %x
  br label %b173
b173:
  %r173 = add i32 %x, %x
  br label %b174
b174:
  %r174 = add i32 %x, %x
  br label %b175
b175:
  %r175 = add i32 %x, %x
  br label %b176
b176:
  %r176 = add i32 %x, %x
  br label %b177
b177:
  %r177 = add i32 %x, %x
  br label %b178
b178:
  %r178 = add i32 %x, %x
  br label %b179
b179:
  %r179 = add i32 %x, %x
  br label %b180
b180:
  %r180 = add i32 %x, %x
  br label %b181
b181:
  %r181 = add i32 %x, %x
  br label %b182
b182:
  %r182 = add i32 %x, %x
  br label %b183
b183:
  %r183 = add i32 %x, %x
  br label %b184
b184:
  %r184 = add i32 %x, %x
  br label %b185
b185:
  %r185 = add i32 %x, %x
  br label %b186
b186:
  %r186 = add i32 %x, %x
  br label %b187
b187:
  %r187 = add i32 %x, %x
  br label %b188
b188:
  %r188 = add i32 %x, %x
  br label %b189
b189:
  %r189 = add i32 %x, %x
  br label %b190
b190:
  %r190 = add i32 %x, %x
  br label %b191
b191:
  %r191 = add i32 %x, %x
  br label %b192
b192:
  %r192 = add i32 %x, %x
  br label %b193
b193:
  %r193 = add i32 %x, %x
  br label %b194
b194:
  %r194 = add i32 %x, %x
  br label %b195
b195:
  %r195 = add i32 %x, %x
  br label %b196
b196:
  %r196 = add i32 %x, %x
  br label %b197
b197:
  %r197 = add i32 %x, %x
  br label %b198
b198:
  %r198 = add i32 %x, %x
  br label %b199
b199:
  %r199 = add i32 %x, %x
  br label %b200
b200:
  %u0 = add i32 %r0, %r0
  %u1 = add i32 %r1, %r1
  %u2 = add i32 %r2, %r2
  %u3 = add i32 %r3, %r3
  %u4 = add i32 %r4, %r4
  %u5 = add i32 %r5, %r5
  %u6 = add i32 %r6, %r6
  %u7 = add i32 %r7, %r7
  %u8 = add i32 %r8, %r8
  %u9 = add i32 %r9, %r9
  %u10 = add i32 %r10, %r10
  %u11 = add i32 %r11, %r11
  %u12 = add i32 %r12, %r12
  %u13 = add i32 %r13, %r13
  %u14 = add i32 %r14, %r14
  %u15 = add i32 %r15, %r15
  %u16 = add i32 %r16, %r16
  %u17 = add i32 %r17, %r17
  %u18 = add i32 %r18, %r18
  %u19 = add i32 %r19, %r19
  %u20 = add i32 %r20, %r20
  %u21 = add i32 %r21, %r21
  %u22 = add i32 %r22, %r22
  %u23 = add i32 %r23, %r23
  %u24 = add i32 %r24, %r24
  %u25 = add i32 %r25, %r25
  %u26 = add i32 %r26, %r26
  %u27 = add i32 %r27, %r27
  %u28 = add i32 %r28, %r28
  %u29 = add i32 %r29, %r29
  %u30 = add i32 %r30, %r30
  %u31 = add i32 %r31, %r31
  %u32 = add i32 %r32, %r32
  %u33 = add i32 %r33, %r33
  %u34 = add i32 %r34, %r34
  %u35 = add i32 %r35, %r35
  %u36 = add i32 %r36, %r36
  %u37 = add i32 %r37, %r37
  %u38 = add i32 %r38, %r38
  %u39 = add i32 %r39, %r39
  %u40 = add i32 %r40, %r40
  %u41 = add i32 %r41, %r41
  %u42 = add i32 %r42, %r42
  %u43 = add i32 %r43, %r43
  %u44 = add i32 %r44, %r44
  %u45 = add i32 %r45, %r45
  %u46 = add i32 %r46, %r46
  %u47 = add i32 %r47, %r47
  %u48 = add i32 %r48, %r48
  %u49 = add i32 %r49, %r49
  %u50 = add i32 %r50, %r50
  %u51 = add i32 %r51, %r51
  %u52 = add i32 %r52, %r52
  %u53 = add i32 %r53, %r53
  %u54 = add i32 %r54, %r54
  %u55 = add i32 %r55, %r55
  %u56 = add i32 %r56, %r56
  %u57 = add i32 %r57, %r57
  %u58 = add i32 %r58, %r58
  %u59 = add i32 %r59, %r59
  %u60 = add i32 %r60, %r60
  %u61 = add i32 %r61, %r61
  %u62 = add i32 %r62, %r62
  %u63 = add i32 %r63, %r63
  %u64 = add i32 %r64, %r64
  %u65 = add i32 %r65, %r65
  %u66 = add i32 %r66, %r66
  %u67 = add i32 %r67, %r67
  %u68 = add i32 %r68, %r68
  %u69 = add i32 %r69, %r69
  %u70 = add i32 %r70, %r70
  %u71 = add i32 %r71, %r71
  %u72 = add i32 %r72, %r72
  %u73 = add i32 %r73, %r73
  %u74 = add i32 %r74, %r74
  %u75 = add i32 %r75, %r75
  %u76 = add i32 %r76, %r76
  %u77 = add i32 %r77, %r77
  %u78 = add i32 %r78, %r78
  %u79 = add i32 %r79, %r79
  %u80 = add i32 %r80, %r80
  %u81 = add i32 %r81, %r81
  %u82 = add i32 %r82, %r82
  %u83 = add i32 %r83, %r83
  %u84 = add i32 %r84, %r84
  %u85 = add i32 %r85, %r85
  %u86 = add i32 %r86, %r86
  %u87 = add i32 %r87, %r87
  %u88 = add i32 %r88, %r88
  %u89 = add i32 %r89, %r89
  %u90 = add i32 %r90, %r90
  %u91 = add i32 %r91, %r91
  %u92 = add i32 %r92, %r92
  %u93 = add i32 %r93, %r93
  %u94 = add i32 %r94, %r94
  %u95 = add i32 %r95, %r95
  %u96 = add i32 %r96, %r96
  %u97 = add i32 %r97, %r97
  %u98 = add i32 %r98, %r98
  %u99 = add i32 %r99, %r99
  %u100 = add i32 %r100, %r100
  %u101 = add i32 %r101, %r101
  %u102 = add i32 %r102, %r102
  %u103 = add i32 %r103, %r103
  %u104 = add i32 %r104, %r104
  %u105 = add i32 %r105, %r105
  %u106 = add i32 %r106, %r106
  %u107 = add i32 %r107, %r107
  %u108 = add i32 %r108, %r108
  %u109 = add i32 %r109, %r109
  %u110 = add i32 %r110, %r110
  %u111 = add i32 %r111, %r111
  %u112 = add i32 %r112, %r112
  %u113 = add i32 %r113, %r113
  %u114 = add i32 %r114, %r114
  %u115 = add i32 %r115, %r115
  %u116 = add i32 %r116, %r116
  %u117 = add i32 %r117, %r117
  %u118 = add i32 %r118, %r118
  %u119 = add i32 %r119, %r119
  %u120 = add i32 %r120, %r120
  %u121 = add i32 %r121, %r121
  %u122 = add i32 %r122, %r122
  %u123 = add i32 %r123, %r123
  %u124 = add i32 %r124, %r124
  %u125 = add i32 %r125, %r125
  %u126 = add i32 %r126, %r126
  %u127 = add i32 %r127, %r127
  %u128 = add i32 %r128, %r128
  %u129 = add i32 %r129, %r129
  %u130 = add i32 %r130, %r130
  %u131 = add i32 %r131, %r131
  %u132 = add i32 %r132, %r132
  %u133 = add i32 %r133, %r133
  %u134 = add i32 %r134, %r134
  %u135 = add i32 %r135, %r135
  %u136 = add i32 %r136, %r136
  %u137 = add i32 %r137, %r137
  %u138 = add i32 %r138, %r138
  %u139 = add i32 %r139, %r139
  %u140 = add i32 %r140, %r140
  %u141 = add i32 %r141, %r141
  %u142 = add i32 %r142, %r142
  %u143 = add i32 %r143, %r143
  %u144 = add i32 %r144, %r144
  %u145 = add i32 %r145, %r145
  %u146 = add i32 %r146, %r146
  %u147 = add i32 %r147, %r147
  %u148 = add i32 %r148, %r148
  %u149 = add i32 %r149, %r149
  %u150 = add i32 %r150, %r150
  %u151 = add i32 %r151, %r151
  %u152 = add i32 %r152, %r152
  %u153 = add i32 %r153, %r153
  %u154 = add i32 %r154, %r154
  %u155 = add i32 %r155, %r155
  %u156 = add i32 %r156, %r156
  %u157 = add i32 %r157, %r157
  %u158 = add i32 %r158, %r158
  %u159 = add i32 %r159, %r159
  %u160 = add i32 %r160, %r160
  %u161 = add i32 %r161, %r161
  %u162 = add i32 %r162, %r162
  %u163 = add i32 %r163, %r163
  %u164 = add i32 %r164, %r164
  %u165 = add i32 %r165, %r165
  %u166 = add i32 %r166, %r166
  %u167 = add i32 %r167, %r167
  %u168 = add i32 %r168, %r168
  %u169 = add i32 %r169, %r169
  %u170 = add i32 %r170, %r170
  %u171 = add i32 %r171, %r171
  %u172 = add i32 %r172, %r172
  %u173 = add i32 %r173, %r173
  %u174 = add i32 %r174, %r174
  %u175 = add i32 %r175, %r175
  %u176 = add i32 %r176, %r176
  %u177 = add i32 %r177, %r177
  %u178 = add i32 %r178, %r178
  %u179 = add i32 %r179, %r179
  %u180 = add i32 %r180, %r180
  %u181 = add i32 %r181, %r181
  %u182 = add i32 %r182, %r182
  %u183 = add i32 %r183, %r183
  %u184 = add i32 %r184, %r184
  %u185 = add i32 %r185, %r185
  %u186 = add i32 %r186, %r186
  %u187 = add i32 %r187, %r187
  %u188 = add i32 %r188, %r188
  %u189 = add i32 %r189, %r189
  %u190 = add i32 %r190, %r190
  %u191 = add i32 %r191, %r191
  %u192 = add i32 %r192, %r192
  %u193 = add i32 %r193, %r193
  %u194 = add i32 %r194, %r194
  %u195 = add i32 %r195, %r195
  %u196 = add i32 %r196, %r196
  %u197 = add i32 %r197, %r197
  %u198 = add i32 %r198, %r198
  %u199 = add i32 %r199, %r199
  ret void
}
; == paths: 200 definitions, past block 127
define void @f(i32 %x, i1 %c) {
b0:
  %r0 = add i32 %x, %x
  br label %b1
b1:
  %r1 = add i32 %x, %x
  br label %b2
b2:
  %r2 = add i32 %x, %x
  br label %b3
b3:
  %r3 = add i32 %x, %x
  br label %b4
b4:
  %r4 = add i32 %x, %x
  br label %b5
b5:
  %r5 = add i32 %x, %x
  br label %b6
b6:
  %r6 = add i32 %x, %x
  br label %b7
b7:
  %r7 = add i32 %x, %x
  br label %b8
b8:
  %r8 = add i32 %x, %x
  br label %b9
b9:
  %r9 = add i32 %x, %x
  br label %b10
b10:
  %r10 = add i32 %x, %x
  br label %b11
b11:
  %r11 = add i32 %x, %x
  br label %b12
b12:
  %r12 = add i32 %x, %x
  br label %b13
b13:
  %r13 = add i32 %x, %x
  br label %b14
b14:
  %r14 = add i32 %x, %x
  br label %b15
b15:
  %r15 = add i32 %x, %x
  br label %b16
b16:
  %r16 = add i32 %x, %x
  br label %b17
b17:
  %r17 = add i32 %x, %x
  br label %b18
b18:
  %r18 = add i32 %x, %x
  br label %b19
b19:
  %r19 = add i32 %x, %x
  br label %b20
b20:
  %r20 = add i32 %x, %x
  br label %b21
b21:
  %r21 = add i32 %x, %x
  br label %b22
b22:
  %r22 = add i32 %x, %x
  br label %b23
b23:
  %r23 = add i32 %x, %x
  br label %b24
b24:
  %r24 = add i32 %x, %x
  br label %b25
b25:
  %r25 = add i32 %x, %x
  br label %b26
b26:
  %r26 = add i32 %x, %x
  br label %b27
b27:
  %r27 = add i32 %x, %x
  br label %b28
b28:
  %r28 = add i32 %x, %x
  br label %b29
b29:
  %r29 = add i32 %x, %x
  br label %b30
b30:
  %r30 = add i32 %x, %x
  br label %b31
b31:
  %r31 = add i32 %x, %x
  br label %b32
b32:
  %r32 = add i32 %x, %x
  br label %b33
b33:
  %r33 = add i32 %x, %x
  br label %b34
b34:
  %r34 = add i32 %x, %x
  br label %b35
b35:
  %r35 = add i32 %x, %x
  br label %b36
b36:
  %r36 = add i32 %x, %x
  br label %b37
b37:
  %r37 = add i32 %x, %x
  br label %b38
b38:
  %r38 = add i32 %x, %x
  br label %b39
b39:
  %r39 = add i32 %x, %x
  br label %b40
b40:
  %r40 = add i32 %x, %x
  br label %b41
b41:
  %r41 = add i32 %x, %x
  br label %b42
b42:
  %r42 = add i32 %x, %x
  br label %b43
b43:
  %r43 = add i32 %x, %x
  br label %b44
b44:
  %r44 = add i32 %x, %x
  br label %b45
b45:
  %r45 = add i32 %x, %x
  br label %b46
b46:
  %r46 = add i32 %x, %x
  br label %b47
b47:
  %r47 = add i32 %x, %x
  br label %b48
b48:
  %r48 = add i32 %x, %x
  br label %b49
b49:
  %r49 = add i32 %x, %x
  br label %b50
b50:
  %r50 = add i32 %x, %x
  br label %b51
b51:
  %r51 = add i32 %x, %x
  br label %b52
b52:
  %r52 = add i32 %x, %x
  br label %b53
b53:
  %r53 = add i32 %x, %x
  br label %b54
b54:
  %r54 = add i32 %x, %x
  br label %b55
b55:
  %r55 = add i32 %x, %x
  br label %b56
b56:
  %r56 = add i32 %x, %x
  br label %b57
b57:
  %r57 = add i32 %x, %x
  br label %b58
b58:
  %r58 = add i32 %x, %x
  br label %b59
b59:
  %r59 = add i32 %x, %x
  br label %b60
b60:
  %r60 = add i32 %x, %x
  br label %b61
b61:
  %r61 = add i32 %x, %x
  br label %b62
b62:
  %r62 = add i32 %x, %x
  br label %b63
b63:
  %r63 = add i32 %x, %x
  br label %b64
b64:
  %r64 = add i32 %x, %x
  br label %b65
b65:
  %r65 = add i32 %x, %x
  br label %b66
b66:
  %r66 = add i32 %x, %x
  br label %b67
b67:
  %r67 = add i32 %x, %x
  br label %b68
b68:
  %r68 = add i32 %x, %x
  br label %b69
b69:
  %r69 = add i32 %x, %x
  br label %b70
b70:
  %r70 = add i32 %x, %x
  br label %b71
b71:
  %r71 = add i32 %x, %x
  br label %b72
b72:
  %r72 = add i32 %x, %x
  br label %b73
b73:
  %r73 = add i32 %x, %x
  br label %b74
b74:
  %r74 = add i32 %x, %x
  br label %b75
b75:
  %r75 = add i32 %x, %x
  br label %b76
b76:
  %r76 = add i32 %x, %x
  br label %b77
b77:
  %r77 = add i32 %x, %x
  br label %b78
b78:
  %r78 = add i32 %x, %x
  br label %b79
b79:
  %r79 = add i32 %x, %x
  br label %b80
b80:
  %r80 = add i32 %x, %x
  br label %b81
b81:
  %r81 = add i32 %x, %x
  br label %b82
b82:
  %r82 = add i32 %x, %x
  br label %b83
b83:
  %r83 = add i32 %x, %x
  br label %b84
b84:
  %r84 = add i32 %x, %x
  br label %b85
b85:
  %r85 = add i32 %x, %x
  br label %b86
b86:
  %r86 = add i32 %x, %x
  br label %b87
b87:
  %r87 = add i32 %x, %x
  br label %b88
b88:
  %r88 = add i32 %x, %x
  br label %b89
b89:
  %r89 = add i32 %x, %x
  br label %b90
b90:
  %r90 = add i32 %x, %x
  br label %b91
b91:
  %r91 = add i32 %x, %x
  br label %b92
b92:
  %r92 = add i32 %x, %x
  br label %b93
b93:
  %r93 = add i32 %x, %x
  br label %b94
b94:
  %r94 = add i32 %x, %x
  br label %b95
b95:
  %r95 = add i32 %x, %x
  br label %b96
b96:
  %r96 = add i32 %x, %x
  br label %b97
b97:
  %r97 = add i32 %x, %x
  br label %b98
b98:
  %r98 = add i32 %x, %x
  br label %b99
b99:
  %r99 = add i32 %x, %x
  br label %b100
b100:
  %r100 = add i32 %x, %x
  br label %b101
b101:
  %r101 = add i32 %x, %x
  br label %b102
b102:
  %r102 = add i32 %x, %x
  br label %b103
b103:
  %r103 = add i32 %x, %x
  br label %b104
b104:
  %r104 = add i32 %x, %x
  br label %b105
b105:
  %r105 = add i32 %x, %x
  br label %b106
b106:
  %r106 = add i32 %x, %x
  br label %b107
b107:
  %r107 = add i32 %x, %x
  br label %b108
b108:
  %r108 = add i32 %x, %x
  br label %b109
b109:
  %r109 = add i32 %x, %x
  br label %b110
b110:
  %r110 = add i32 %x, %x
  br label %b111
b111:
  %r111 = add i32 %x, %x
  br label %b112
b112:
  %r112 = add i32 %x, %x
  br label %b113
b113:
  %r113 = add i32 %x, %x
  br label %b114
b114:
  %r114 = add i32 %x, %x
  br label %b115
b115:
  %r115 = add i32 %x, %x
  br label %b116
b116:
  %r116 = add i32 %x, %x
  br label %b117
b117:
  %r117 = add i32 %x, %x
  br label %b118
b118:
  %r118 = add i32 %x, %x
  br label %b119
b119:
  %r119 = add i32 %x, %x
  br label %b120
b120:
  %r120 = add i32 %x, %x
  br label %b121
b121:
  %r121 = add i32 %x, %x
  br label %b122
b122:
  %r122 = add i32 %x, %x
  br label %b123
b123:
  %r123 = add i32 %x, %x
  br label %b124
b124:
  %r124 = add i32 %x, %x
  br label %b125
b125:
  %r125 = add i32 %x, %x
  br label %b126
b126:
  %r126 = add i32 %x, %x
  br i1 %c, label %b127, label %b128
b127:
  %r127 = add i32 %x, %x
  br label %b128
b128:
  %r128 = add i32 %x, %x
  br label %b129
b129:
  %r129 = add i32 %x, %x
  br label %b130
b130:
  %r130 = add i32 %x, %x
  br label %b131
b131:
  %r131 = add i32 %x, %x
  br label %b132
b132:
  %r132 = add i32 %x, %x
  br label %b133
b133:
  %r133 = add i32 %x, %x
  br label %b134
b134:
  %r134 = add i32 %x, %x
  br label %b135
b135:
  %r135 = add i32 %x, %x
  br label %b136
b136:
  %r136 = add i32 %x, %x
  br label %b137
b137:
  %r137 = add i32 %x, %x
  br label %b138
b138:
  %r138 = add i32 %x, %x
  br label %b139
b139:
  %r139 = add i32 %x, %x
  br label %b140
b140:
  %r140 = add i32 %x, %x
  br label %b141
b141:
  %r141 = add i32 %x, %x
  br label %b142
b142:
  %r142 = add i32 %x, %x
  br label %b143
b143:
  %r143 = add i32 %x, %x
  br label %b144
b144:
  %r144 = add i32 %x, %x
  br label %b145
b145:
  %r145 = add i32 %x, %x
  br label %b146
b146:
  %r146 = add i32 %x, %x
  br label %b147
b147:
  %r147 = add i32 %x, %x
  br label %b148
b148:
  %r148 = add i32 %x, %x
  br label %b149
b149:
  %r149 = add i32 %x, %x
  br label %b150
b150:
  %r150 = add i32 %x, %x
  br label %b151
b151:
  %r151 = add i32 %x, %x
  br label %b152
b152:
  %r152 = add i32 %x, %x
  br label %b153
b153:
  %r153 = add i32 %x, %x
  br label %b154
b154:
  %r154 = add i32 %x, %x
  br label %b155
b155:
  %r155 = add i32 %x, %x
  br label %b156
b156:
  %r156 = add i32 %x, %x
  br label %b157
b157:
  %r157 = add i32 %x, %x
  br label %b158
b158:
  %r158 = add i32 %x, %x
  br label %b159
b159:
  %r159 = add i32 %x, %x
  br label %b160
b160:
  %r160 = add i32 %x, %x
  br label %b161
b161:
  %r161 = add i32 %x, %x
  br label %b162
b162:
  %r162 = add i32 %x, %x
  br label %b163
b163:
  %r163 = add i32 %x, %x
  br label %b164
b164:
  %r164 = add i32 %x, %x
  br label %b165
b165:
  %r165 = add i32 %x, %x
  br label %b166
b166:
  %r166 = add i32 %x, %x
  br label %b167
b167:
  %r167 = add i32 %x, %x
  br label %b168
b168:
  %r168 = add i32 %x, %x
  br label %b169
b169:
  %r169 = add i32 %x, %x
  br label %b170
b170:
  %r170 = add i32 %x, %x
  br label %b171
b171:
  %r171 = add i32 %x, %x
  br label %b172
b172:
  %r172 = add i32 %x, %x
  br label %b173
b173:
  %r173 = add i32 %x, %x
  br label %b174
b174:
  %r174 = add i32 %x, %x
  br label %b175
b175:
  %r175 = add i32 %x, %x
  br label %b176
b176:
  %r176 = add i32 %x, %x
  br label %b177
b177:
  %r177 = add i32 %x, %x
  br label %b178
b178:
  %r178 = add i32 %x, %x
  br label %b179
b179:
  %r179 = add i32 %x, %x
  br label %b180
b180:
  %r180 = add i32 %x, %x
  br label %b181
b181:
  %r181 = add i32 %x, %x
  br label %b182
b182:
  %r182 = add i32 %x, %x
  br label %b183
b183:
  %r183 = add i32 %x, %x
  br label %b184
b184:
  %r184 = add i32 %x, %x
  br label %b185
b185:
  %r185 = add i32 %x, %x
  br label %b186
b186:
  %r186 = add i32 %x, %x
  br label %b187
b187:
  %r187 = add i32 %x, %x
  br label %b188
b188:
  %r188 = add i32 %x, %x
  br label %b189
b189:
  %r189 = add i32 %x, %x
  br label %b190
b190:
  %r190 = add i32 %x, %x
  br label %b191
b191:
  %r191 = add i32 %x, %x
  br label %b192
b192:
  %r192 = add i32 %x, %x
  br label %b193
b193:
  %r193 = add i32 %x, %x
  br label %b194
b194:
  %r194 = add i32 %x, %x
  br label %b195
b195:
  %r195 = add i32 %x, %x
  br label %b196
b196:
  %r196 = add i32 %x, %x
  br label %b197
b197:
  %r197 = add i32 %x, %x
  br label %b198
b198:
  %r198 = add i32 %x, %x
  br label %b199
b199:
  %r199 = add i32 %x, %x
  br label %b200
b200:
  %u0 = add i32 %r0, %r0
  %u1 = add i32 %r1, %r1
  %u2 = add i32 %r2, %r2
  %u3 = add i32 %r3, %r3
  %u4 = add i32 %r4, %r4
  %u5 = add i32 %r5, %r5
  %u6 = add i32 %r6, %r6
  %u7 = add i32 %r7, %r7
  %u8 = add i32 %r8, %r8
  %u9 = add i32 %r9, %r9
  %u10 = add i32 %r10, %r10
  %u11 = add i32 %r11, %r11
  %u12 = add i32 %r12, %r12
  %u13 = add i32 %r13, %r13
  %u14 = add i32 %r14, %r14
  %u15 = add i32 %r15, %r15
  %u16 = add i32 %r16, %r16
  %u17 = add i32 %r17, %r17
  %u18 = add i32 %r18, %r18
  %u19 = add i32 %r19, %r19
  %u20 = add i32 %r20, %r20
  %u21 = add i32 %r21, %r21
  %u22 = add i32 %r22, %r22
  %u23 = add i32 %r23, %r23
  %u24 = add i32 %r24, %r24
  %u25 = add i32 %r25, %r25
  %u26 = add i32 %r26, %r26
  %u27 = add i32 %r27, %r27
  %u28 = add i32 %r28, %r28
  %u29 = add i32 %r29, %r29
  %u30 = add i32 %r30, %r30
  %u31 = add i32 %r31, %r31
  %u32 = add i32 %r32, %r32
  %u33 = add i32 %r33, %r33
  %u34 = add i32 %r34, %r34
  %u35 = add i32 %r35, %r35
  %u36 = add i32 %r36, %r36
  %u37 = add i32 %r37, %r37
  %u38 = add i32 %r38, %r38
  %u39 = add i32 %r39, %r39
  %u40 = add i32 %r40, %r40
  %u41 = add i32 %r41, %r41
  %u42 = add i32 %r42, %r42
  %u43 = add i32 %r43, %r43
  %u44 = add i32 %r44, %r44
  %u45 = add i32 %r45, %r45
  %u46 = add i32 %r46, %r46
  %u47 = add i32 %r47, %r47
  %u48 = add i32 %r48, %r48
  %u49 = add i32 %r49, %r49
  %u50 = add i32 %r50, %r50
  %u51 = add i32 %r51, %r51
  %u52 = add i32 %r52, %r52
  %u53 = add i32 %r53, %r53
  %u54 = add i32 %r54, %r54
  %u55 = add i32 %r55, %r55
  %u56 = add i32 %r56, %r56
  %u57 = add i32 %r57, %r57
  %u58 = add i32 %r58, %r58
  %u59 = add i32 %r59, %r59
  %u60 = add i32 %r60, %r60
  %u61 = add i32 %r61, %r61
  %u62 = add i32 %r62, %r62
  %u63 = add i32 %r63, %r63
  %u64 = add i32 %r64, %r64
  %u65 = add i32 %r65, %r65
  %u66 = add i32 %r66, %r66
  %u67 = add i32 %r67, %r67
  %u68 = add i32 %r68, %r68
  %u69 = add i32 %r69, %r69
  %u70 = add i32 %r70, %r70
  %u71 = add i32 %r71, %r71
  %u72 = add i32 %r72, %r72
  %u73 = add i32 %r73, %r73
  %u74 = add i32 %r74, %r74
  %u75 = add i32 %r75, %r75
  %u76 = add i32 %r76, %r76
  %u77 = add i32 %r77, %r77
  %u78 = add i32 %r78, %r78
  %u79 = add i32 %r79, %r79
  %u80 = add i32 %r80, %r80
  %u81 = add i32 %r81, %r81
  %u82 = add i32 %r82, %r82
  %u83 = add i32 %r83, %r83
  %u84 = add i32 %r84, %r84
  %u85 = add i32 %r85, %r85
  %u86 = add i32 %r86, %r86
  %u87 = add i32 %r87, %r87
  %u88 = add i32 %r88, %r88
  %u89 = add i32 %r89, %r89
  %u90 = add i32 %r90, %r90
  %u91 = add i32 %r91, %r91
  %u92 = add i32 %r92, %r92
  %u93 = add i32 %r93, %r93
  %u94 = add i32 %r94, %r94
  %u95 = add i32 %r95, %r95
  %u96 = add i32 %r96, %r96
  %u97 = add i32 %r97, %r97
  %u98 = add i32 %r98, %r98
  %u99 = add i32 %r99, %r99
  %u100 = add i32 %r100, %r100
  %u101 = add i32 %r101, %r101
  %u102 = add i32 %r102, %r102
  %u103 = add i32 %r103, %r103
  %u104 = add i32 %r104, %r104
  %u105 = add i32 %r105, %r105
  %u106 = add i32 %r106, %r106
  %u107 = add i32 %r107, %r107
  %u108 = add i32 %r108, %r108
  %u109 = add i32 %r109, %r109
  %u110 = add i32 %r110, %r110
  %u111 = add i32 %r111, %r111
  %u112 = add i32 %r112, %r112
  %u113 = add i32 %r113, %r113
  %u114 = add i32 %r114, %r114
  %u115 = add i32 %r115, %r115
  %u116 = add i32 %r116, %r116
  %u117 = add i32 %r117, %r117
  %u118 = add i32 %r118, %r118
  %u119 = add i32 %r119, %r119
  %u120 = add i32 %r120, %r120
  %u121 = add i32 %r121, %r121
  %u122 = add i32 %r122, %r122
  %u123 = add i32 %r123, %r123
  %u124 = add i32 %r124, %r124
  %u125 = add i32 %r125, %r125
  %u126 = add i32 %r126, %r126
  %u127 = add i32 %r127, %r127
  %u128 = add i32 %r128, %r128
  %u129 = add i32 %r129, %r129
  %u130 = add i32 %r130, %r130
  %u131 = add i32 %r131, %r131
  %u132 = add i32 %r132, %r132
  %u133 = add i32 %r133, %r133
  %u134 = add i32 %r134, %r134
  %u135 = add i32 %r135, %r135
  %u136 = add i32 %r136, %r136
  %u137 = add i32 %r137, %r137
  %u138 = add i32 %r138, %r138
  %u139 = add i32 %r139, %r139
  %u140 = add i32 %r140, %r140
  %u141 = add i32 %r141, %r141
  %u142 = add i32 %r142, %r142
  %u143 = add i32 %r143, %r143
  %u144 = add i32 %r144, %r144
  %u145 = add i32 %r145, %r145
  %u146 = add i32 %r146, %r146
  %u147 = add i32 %r147, %r147
  %u148 = add i32 %r148, %r148
  %u149 = add i32 %r149, %r149
  %u150 = add i32 %r150, %r150
  %u151 = add i32 %r151, %r151
  %u152 = add i32 %r152, %r152
  %u153 = add i32 %r153, %r153
  %u154 = add i32 %r154, %r154
  %u155 = add i32 %r155, %r155
  %u156 = add i32 %r156, %r156
  %u157 = add i32 %r157, %r157
  %u158 = add i32 %r158, %r158
  %u159 = add i32 %r159, %r159
  %u160 = add i32 %r160, %r160
  %u161 = add i32 %r161, %r161
  %u162 = add i32 %r162, %r162
  %u163 = add i32 %r163, %r163
  %u164 = add i32 %r164, %r164
  %u165 = add i32 %r165, %r165
  %u166 = add i32 %r166, %r166
  %u167 = add i32 %r167, %r167
  %u168 = add i32 %r168, %r168
  %u169 = add i32 %r169, %r169
  %u170 = add i32 %r170, %r170
  %u171 = add i32 %r171, %r171
  %u172 = add i32 %r172, %r172
  %u173 = add i32 %r173, %r173
  %u174 = add i32 %r174, %r174
  %u175 = add i32 %r175, %r175
  %u176 = add i32 %r176, %r176
  %u177 = add i32 %r177, %r177
  %u178 = add i32 %r178, %r178
  %u179 = add i32 %r179, %r179
  %u180 = add i32 %r180, %r180
  %u181 = add i32 %r181, %r181
  %u182 = add i32 %r182, %r182
  %u183 = add i32 %r183, %r183
  %u184 = add i32 %r184, %r184
  %u185 = add i32 %r185, %r185
  %u186 = add i32 %r186, %r186
  %u187 = add i32 %r187, %r187
  %u188 = add i32 %r188, %r188
  %u189 = add i32 %r189, %r189
  %u190 = add i32 %r190, %r190
  %u191 = add i32 %r191, %r191
  %u192 = add i32 %r192, %r192
  %u193 = add i32 %r193, %r193
  %u194 = add i32 %r194, %r194
  %u195 = add i32 %r195, %r195
  %u196 = add i32 %r196, %r196
  %u197 = add i32 %r197, %r197
  %u198 = add i32 %r198, %r198
  %u199 = add i32 %r199, %r199
  ret void
}
; == paths: 200 definitions, past block 128
define void @f(i32 %x, i1 %c) {
b0:
  %r0 = add i32 %x, %x
  br label %b1
b1:
  %r1 = add i32 %x, %x
  br label %b2
b2:
  %r2 = add i32 %x, %x
  br label %b3
b3:
  %r3 = add i32 %x, %x
  br label %b4
b4:
  %r4 = add i32 %x, %x
  br label %b5
b5:
  %r5 = add i32 %x, %x
  br label %b6
b6:
  %r6 = add i32 %x, %x
  br label %b7
b7:
  %r7 = add i32 %x, %x
  br label %b8
b8:
  %r8 = add i32 %x, %x
  br label %b9
b9:
  %r9 = add i32 %x, %x
  br label %b10
b10:
  %r10 = add i32 %x, %x
  br label %b11
b11:
  %r11 = add i32 %x, %x
  br label %b12
b12:
  %r12 = add i32 %x, %x
  br label %b13
b13:
  %r13 = add i32 %x, %x
  br label %b14
b14:
  %r14 = add i32 %x, %x
  br label %b15
b15:
  %r15 = add i32 %x, %x
  br label %b16
b16:
  %r16 = add i32 %x, %x
  br label %b17
b17:
  %r17 = add i32 %x, %x
  br label %b18
b18:
  %r18 = add i32 %x, %x
  br label %b19
b19:
  %r19 = add i32 %x, %x
  br label %b20
b20:
  %r20 = add i32 %x, %x
  br label %b21
b21:
  %r21 = add i32 %x, %x
  br label %b22
b22:
  %r22 = add i32 %x, %x
  br label %b23
b23:
  %r23 = add i32 %x, %x
  br label %b24
b24:
  %r24 = add i32 %x, %x
  br label %b25
b25:
  %r25 = add i32 %x, %x
  br label %b26
b26:
  %r26 = add i32 %x, %x
  br label %b27
b27:
  %r27 = add i32 %x, %x
  br label %b28
b28:
  %r28 = add i32 %x, %x
  br label %b29
b29:
  %r29 = add i32 %x, %x
  br label %b30
b30:
  %r30 = add i32 %x, %x
  br label %b31
b31:
  %r31 = add i32 %x, %x
  br label %b32
b32:
  %r32 = add i32 %x, %x
  br label %b33
b33:
  %r33 = add i32 %x, %x
  br label %b34
b34:
  %r34 = add i32 %x, %x
  br label %b35
b35:
  %r35 = add i32 %x, %x
  br label %b36
b36:
  %r36 = add i32 %x, %x
  br label %b37
b37:
  %r37 = add i32 %x, %x
  br label %b38
b38:
  %r38 = add i32 %x, %x
  br label %b39
b39:
  %r39 = add i32 %x, %x
  br label %b40
b40:
  %r40 = add i32 %x, %x
  br label %b41
b41:
  %r41 = add i32 %x, %x
  br label %b42
b42:
  %r42 = add i32 %x, %x
  br label %b43
b43:
  %r43 = add i32 %x, %x
  br label %b44
b44:
  %r44 = add i32 %x, %x
  br label %b45
b45:
  %r45 = add i32 %x, %x
  br label %b46
b46:
  %r46 = add i32 %x, %x
  br label %b47
b47:
  %r47 = add i32 %x, %x
  br label %b48
b48:
  %r48 = add i32 %x, %x
  br label %b49
b49:
  %r49 = add i32 %x, %x
  br label %b50
b50:
  %r50 = add i32 %x, %x
  br label %b51
b51:
  %r51 = add i32 %x, %x
  br label %b52
b52:
  %r52 = add i32 %x, %x
  br label %b53
b53:
  %r53 = add i32 %x, %x
  br label %b54
b54:
  %r54 = add i32 %x, %x
  br label %b55
b55:
  %r55 = add i32 %x, %x
  br label %b56
b56:
  %r56 = add i32 %x, %x
  br label %b57
b57:
  %r57 = add i32 %x, %x
  br label %b58
b58:
  %r58 = add i32 %x, %x
  br label %b59
b59:
  %r59 = add i32 %x, %x
  br label %b60
b60:
  %r60 = add i32 %x, %x
  br label %b61
b61:
  %r61 = add i32 %x, %x
  br label %b62
b62:
  %r62 = add i32 %x, %x
  br label %b63
b63:
  %r63 = add i32 %x, %x
  br label %b64
b64:
  %r64 = add i32 %x, %x
  br label %b65
b65:
  %r65 = add i32 %x, %x
  br label %b66
b66:
  %r66 = add i32 %x, %x
  br label %b67
b67:
  %r67 = add i32 %x, %x
  br label %b68
b68:
  %r68 = add i32 %x, %x
  br label %b69
b69:
  %r69 = add i32 %x, %x
  br label %b70
b70:
  %r70 = add i32 %x, %x
  br label %b71
b71:
  %r71 = add i32 %x, %x
  br label %b72
b72:
  %r72 = add i32 %x, %x
  br label %b73
b73:
  %r73 = add i32 %x, %x
  br label %b74
b74:
  %r74 = add i32 %x, %x
  br label %b75
b75:
  %r75 = add i32 %x, %x
  br label %b76
b76:
  %r76 = add i32 %x, %x
  br label %b77
b77:
  %r77 = add i32 %x, %x
  br label %b78
b78:
  %r78 = add i32 %x, %x
  br label %b79
b79:
  %r79 = add i32 %x, %x
  br label %b80
b80:
  %r80 = add i32 %x, %x
  br label %b81
b81:
  %r81 = add i32 %x, %x
  br label %b82
b82:
  %r82 = add i32 %x, %x
  br label %b83
b83:
  %r83 = add i32 %x, %x
  br label %b84
b84:
  %r84 = add i32 %x, %x
  br label %b85
b85:
  %r85 = add i32 %x, %x
  br label %b86
b86:
  %r86 = add i32 %x, %x
  br label %b87
b87:
  %r87 = add i32 %x, %x
  br label %b88
b88:
  %r88 = add i32 %x, %x
  br label %b89
b89:
  %r89 = add i32 %x, %x
  br label %b90
b90:
  %r90 = add i32 %x, %x
  br label %b91
b91:
  %r91 = add i32 %x, %x
  br label %b92
b92:
  %r92 = add i32 %x, %x
  br label %b93
b93:
  %r93 = add i32 %x, %x
  br label %b94
b94:
  %r94 = add i32 %x, %x
  br label %b95
b95:
  %r95 = add i32 %x, %x
  br label %b96
b96:
  %r96 = add i32 %x, %x
  br label %b97
b97:
  %r97 = add i32 %x, %x
  br label %b98
b98:
  %r98 = add i32 %x, %x
  br label %b99
b99:
  %r99 = add i32 %x, %x
  br label %b100
b100:
  %r100 = add i32 %x, %x
  br label %b101
b101:
  %r101 = add i32 %x, %x
  br label %b102
b102:
  %r102 = add i32 %x, %x
  br label %b103
b103:
  %r103 = add i32 %x, %x
  br label %b104
b104:
  %r104 = add i32 %x, %x
  br label %b105
b105:
  %r105 = add i32 %x, %x
  br label %b106
b106:
  %r106 = add i32 %x, %x
  br label %b107
b107:
  %r107 = add i32 %x, %x
  br label %b108
b108:
  %r108 = add i32 %x, %x
  br label %b109
b109:
  %r109 = add i32 %x, %x
  br label %b110
b110:
  %r110 = add i32 %x, %x
  br label %b111
b111:
  %r111 = add i32 %x, %x
  br label %b112
b112:
  %r112 = add i32 %x, %x
  br label %b113
b113:
  %r113 = add i32 %x, %x
  br label %b114
b114:
  %r114 = add i32 %x, %x
  br label %b115
b115:
  %r115 = add i32 %x, %x
  br label %b116
b116:
  %r116 = add i32 %x, %x
  br label %b117
b117:
  %r117 = add i32 %x, %x
  br label %b118
b118:
  %r118 = add i32 %x, %x
  br label %b119
b119:
  %r119 = add i32 %x, %x
  br label %b120
b120:
  %r120 = add i32 %x, %x
  br label %b121
b121:
  %r121 = add i32 %x, %x
  br label %b122
b122:
  %r122 = add i32 %x, %x
  br label %b123
b123:
  %r123 = add i32 %x, %x
  br label %b124
b124:
  %r124 = add i32 %x, %x
  br label %b125
b125:
  %r125 = add i32 %x, %x
  br label %b126
b126:
  %r126 = add i32 %x, %x
  br label %b127
b127:
  %r127 = add i32 %x, %x
  br i1 %c, label %b128, label %b129
b128:
  %r128 = add i32 %x, %x
  br label %b129
b129:
  %r129 = add i32 %x, %x
  br label %b130
b130:
  %r130 = add i32 %x, %x
  br label %b131
b131:
  %r131 = add i32 %x, %x
  br label %b132
b132:
  %r132 = add i32 %x, %x
  br label %b133
b133:
  %r133 = add i32 %x, %x
  br label %b134
b134:
  %r134 = add i32 %x, %x
  br label %b135
b135:
  %r135 = add i32 %x, %x
  br label %b136
b136:
  %r136 = add i32 %x, %x
  br label %b137
b137:
  %r137 = add i32 %x, %x
  br label %b138
b138:
  %r138 = add i32 %x, %x
  br label %b139
b139:
  %r139 = add i32 %x, %x
  br label %b140
b140:
  %r140 = add i32 %x, %x
  br label %b141
b141:
  %r141 = add i32 %x, %x
  br label %b142
b142:
  %r142 = add i32 %x, %x
  br label %b143
b143:
  %r143 = add i32 %x, %x
  br label %b144
b144:
  %r144 = add i32 %x, %x
  br label %b145
b145:
  %r145 = add i32 %x, %x
  br label %b146
b146:
  %r146 = add i32 %x, %x
  br label %b147
b147:
  %r147 = add i32 %x, %x
  br label %b148
b148:
  %r148 = add i32 %x, %x
  br label %b149
b149:
  %r149 = add i32 %x, %x
  br label %b150
b150:
  %r150 = add i32 %x, %x
  br label %b151
b151:
  %r151 = add i32 %x, %x
  br label %b152
b152:
  %r152 = add i32 %x, %x
  br label %b153
b153:
  %r153 = add i32 %x, %x
  br label %b154
b154:
  %r154 = add i32 %x, %x
  br label %b155
b155:
  %r155 = add i32 %x, %x
  br label %b156
b156:
  %r156 = add i32 %x, %x
  br label %b157
b157:
  %r157 = add i32 %x, %x
  br label %b158
b158:
  %r158 = add i32 %x, %x
  br label %b159
b159:
  %r159 = add i32 %x, %x
  br label %b160
b160:
  %r160 = add i32 %x, %x
  br label %b161
b161:
  %r161 = add i32 %x, %x
  br label %b162
b162:
  %r162 = add i32 %x, %x
  br label %b163
b163:
  %r163 = add i32 %x, %x
  br label %b164
b164:
  %r164 = add i32 %x, %x
  br label %b165
b165:
  %r165 = add i32 %x, %x
  br label %b166
b166:
  %r166 = add i32 %x, %x
  br label %b167
b167:
  %r167 = add i32 %x, %x
  br label %b168
b168:
  %r168 = add i32 %x, %x
  br label %b169
b169:
  %r169 = add i32 %x, %x
  br label %b170
b170:
  %r170 = add i32 %x, %x
  br label %b171
b171:
  %r171 = add i32 %x, %x
  br label %b172
b172:
  %r172 = add i32 %x, %x
  br label %b173
b173:
  %r173 = add i32 %x, %x
  br label %b174
b174:
  %r174 = add i32 %x, %x
  br label %b175
b175:
  %r175 = add i32 %x, %x
  br label %b176
b176:
  %r176 = add i32 %x, %x
  br label %b177
b177:
  %r177 = add i32 %x, %x
  br label %b178
b178:
  %r178 = add i32 %x, %x
  br label %b179
b179:
  %r179 = add i32 %x, %x
  br label %b180
b180:
  %r180 = add i32 %x, %x
  br label %b181
b181:
  %r181 = add i32 %x, %x
  br label %b182
b182:
  %r182 = add i32 %x, %x
  br label %b183
b183:
  %r183 = add i32 %x, %x
  br label %b184
b184:
  %r184 = add i32 %x, %x
  br label %b185
b185:
  %r185 = add i32 %x, %x
  br label %b186
b186:
  %r186 = add i32 %x, %x
  br label %b187
b187:
  %r187 = add i32 %x, %x
  br label %b188
b188:
  %r188 = add i32 %x, %x
  br label %b189
b189:
  %r189 = add i32 %x, %x
  br label %b190
b190:
  %r190 = add i32 %x, %x
  br label %b191
b191:
  %r191 = add i32 %x, %x
  br label %b192
b192:
  %r192 = add i32 %x, %x
  br label %b193
b193:
  %r193 = add i32 %x, %x
  br label %b194
b194:
  %r194 = add i32 %x, %x
  br label %b195
b195:
  %r195 = add i32 %x, %x
  br label %b196
b196:
  %r196 = add i32 %x, %x
  br label %b197
b197:
  %r197 = add i32 %x, %x
  br label %b198
b198:
  %r198 = add i32 %x, %x
  br label %b199
b199:
  %r199 = add i32 %x, %x
  br label %b200
b200:
  %u0 = add i32 %r0, %r0
  %u1 = add i32 %r1, %r1
  %u2 = add i32 %r2, %r2
  %u3 = add i32 %r3, %r3
  %u4 = add i32 %r4, %r4
  %u5 = add i32 %r5, %r5
  %u6 = add i32 %r6, %r6
  %u7 = add i32 %r7, %r7
  %u8 = add i32 %r8, %r8
  %u9 = add i32 %r9, %r9
  %u10 = add i32 %r10, %r10
  %u11 = add i32 %r11, %r11
  %u12 = add i32 %r12, %r12
  %u13 = add i32 %r13, %r13
  %u14 = add i32 %r14, %r14
  %u15 = add i32 %r15, %r15
  %u16 = add i32 %r16, %r16
  %u17 = add i32 %r17, %r17
  %u18 = add i32 %r18, %r18
  %u19 = add i32 %r19, %r19
  %u20 = add i32 %r20, %r20
  %u21 = add i32 %r21, %r21
  %u22 = add i32 %r22, %r22
  %u23 = add i32 %r23, %r23
  %u24 = add i32 %r24, %r24
  %u25 = add i32 %r25, %r25
  %u26 = add i32 %r26, %r26
  %u27 = add i32 %r27, %r27
  %u28 = add i32 %r28, %r28
  %u29 = add i32 %r29, %r29
  %u30 = add i32 %r30, %r30
  %u31 = add i32 %r31, %r31
  %u32 = add i32 %r32, %r32
  %u33 = add i32 %r33, %r33
  %u34 = add i32 %r34, %r34
  %u35 = add i32 %r35, %r35
  %u36 = add i32 %r36, %r36
  %u37 = add i32 %r37, %r37
  %u38 = add i32 %r38, %r38
  %u39 = add i32 %r39, %r39
  %u40 = add i32 %r40, %r40
  %u41 = add i32 %r41, %r41
  %u42 = add i32 %r42, %r42
  %u43 = add i32 %r43, %r43
  %u44 = add i32 %r44, %r44
  %u45 = add i32 %r45, %r45
  %u46 = add i32 %r46, %r46
  %u47 = add i32 %r47, %r47
  %u48 = add i32 %r48, %r48
  %u49 = add i32 %r49, %r49
  %u50 = add i32 %r50, %r50
  %u51 = add i32 %r51, %r51
  %u52 = add i32 %r52, %r52
  %u53 = add i32 %r53, %r53
  %u54 = add i32 %r54, %r54
  %u55 = add i32 %r55, %r55
  %u56 = add i32 %r56, %r56
  %u57 = add i32 %r57, %r57
  %u58 = add i32 %r58, %r58
  %u59 = add i32 %r59, %r59
  %u60 = add i32 %r60, %r60
  %u61 = add i32 %r61, %r61
  %u62 = add i32 %r62, %r62
  %u63 = add i32 %r63, %r63
  %u64 = add i32 %r64, %r64
  %u65 = add i32 %r65, %r65
  %u66 = add i32 %r66, %r66
  %u67 = add i32 %r67, %r67
  %u68 = add i32 %r68, %r68
  %u69 = add i32 %r69, %r69
  %u70 = add i32 %r70, %r70
  %u71 = add i32 %r71, %r71
  %u72 = add i32 %r72, %r72
  %u73 = add i32 %r73, %r73
  %u74 = add i32 %r74, %r74
  %u75 = add i32 %r75, %r75
  %u76 = add i32 %r76, %r76
  %u77 = add i32 %r77, %r77
  %u78 = add i32 %r78, %r78
  %u79 = add i32 %r79, %r79
  %u80 = add i32 %r80, %r80
  %u81 = add i32 %r81, %r81
  %u82 = add i32 %r82, %r82
  %u83 = add i32 %r83, %r83
  %u84 = add i32 %r84, %r84
  %u85 = add i32 %r85, %r85
  %u86 = add i32 %r86, %r86
  %u87 = add i32 %r87, %r87
  %u88 = add i32 %r88, %r88
  %u89 = add i32 %r89, %r89
  %u90 = add i32 %r90, %r90
  %u91 = add i32 %r91, %r91
  %u92 = add i32 %r92, %r92
  %u93 = add i32 %r93, %r93
  %u94 = add i32 %r94, %r94
  %u95 = add i32 %r95, %r95
  %u96 = add i32 %r96, %r96
  %u97 = add i32 %r97, %r97
  %u98 = add i32 %r98, %r98
  %u99 = add i32 %r99, %r99
  %u100 = add i32 %r100, %r100
  %u101 = add i32 %r101, %r101
  %u102 = add i32 %r102, %r102
  %u103 = add i32 %r103, %r103
  %u104 = add i32 %r104, %r104
  %u105 = add i32 %r105, %r105
  %u106 = add i32 %r106, %r106
  %u107 = add i32 %r107, %r107
  %u108 = add i32 %r108, %r108
  %u109 = add i32 %r109, %r109
  %u110 = add i32 %r110, %r110
  %u111 = add i32 %r111, %r111
  %u112 = add i32 %r112, %r112
  %u113 = add i32 %r113, %r113
  %u114 = add i32 %r114, %r114
  %u115 = add i32 %r115, %r115
  %u116 = add i32 %r116, %r116
  %u117 = add i32 %r117, %r117
  %u118 = add i32 %r118, %r118
  %u119 = add i32 %r119, %r119
  %u120 = add i32 %r120, %r120
  %u121 = add i32 %r121, %r121
  %u122 = add i32 %r122, %r122
  %u123 = add i32 %r123, %r123
  %u124 = add i32 %r124, %r124
  %u125 = add i32 %r125, %r125
  %u126 = add i32 %r126, %r126
  %u127 = add i32 %r127, %r127
  %u128 = add i32 %r128, %r128
  %u129 = add i32 %r129, %r129
  %u130 = add i32 %r130, %r130
  %u131 = add i32 %r131, %r131
  %u132 = add i32 %r132, %r132
  %u133 = add i32 %r133, %r133
  %u134 = add i32 %r134, %r134
  %u135 = add i32 %r135, %r135
  %u136 = add i32 %r136, %r136
  %u137 = add i32 %r137, %r137
  %u138 = add i32 %r138, %r138
  %u139 = add i32 %r139, %r139
  %u140 = add i32 %r140, %r140
  %u141 = add i32 %r141, %r141
  %u142 = add i32 %r142, %r142
  %u143 = add i32 %r143, %r143
  %u144 = add i32 %r144, %r144
  %u145 = add i32 %r145, %r145
  %u146 = add i32 %r146, %r146
  %u147 = add i32 %r147, %r147
  %u148 = add i32 %r148, %r148
  %u149 = add i32 %r149, %r149
  %u150 = add i32 %r150, %r150
  %u151 = add i32 %r151, %r151
  %u152 = add i32 %r152, %r152
  %u153 = add i32 %r153, %r153
  %u154 = add i32 %r154, %r154
  %u155 = add i32 %r155, %r155
  %u156 = add i32 %r156, %r156
  %u157 = add i32 %r157, %r157
  %u158 = add i32 %r158, %r158
  %u159 = add i32 %r159, %r159
  %u160 = add i32 %r160, %r160
  %u161 = add i32 %r161, %r161
  %u162 = add i32 %r162, %r162
  %u163 = add i32 %r163, %r163
  %u164 = add i32 %r164, %r164
  %u165 = add i32 %r165, %r165
  %u166 = add i32 %r166, %r166
  %u167 = add i32 %r167, %r167
  %u168 = add i32 %r168, %r168
  %u169 = add i32 %r169, %r169
  %u170 = add i32 %r170, %r170
  %u171 = add i32 %r171, %r171
  %u172 = add i32 %r172, %r172
  %u173 = add i32 %r173, %r173
  %u174 = add i32 %r174, %r174
  %u175 = add i32 %r175, %r175
  %u176 = add i32 %r176, %r176
  %u177 = add i32 %r177, %r177
  %u178 = add i32 %r178, %r178
  %u179 = add i32 %r179, %r179
  %u180 = add i32 %r180, %r180
  %u181 = add i32 %r181, %r181
  %u182 = add i32 %r182, %r182
  %u183 = add i32 %r183, %r183
  %u184 = add i32 %r184, %r184
  %u185 = add i32 %r185, %r185
  %u186 = add i32 %r186, %r186
  %u187 = add i32 %r187, %r187
  %u188 = add i32 %r188, %r188
  %u189 = add i32 %r189, %r189
  %u190 = add i32 %r190, %r190
  %u191 = add i32 %r191, %r191
  %u192 = add i32 %r192, %r192
  %u193 = add i32 %r193, %r193
  %u194 = add i32 %r194, %r194
  %u195 = add i32 %r195, %r195
  %u196 = add i32 %r196, %r196
  %u197 = add i32 %r197, %r197
  %u198 = add i32 %r198, %r198
  %u199 = add i32 %r199, %r199
  ret void
}
; == paths: 200 definitions, past block 199
define void @f(i32 %x, i1 %c) {
b0:
  %r0 = add i32 %x, %x
  br label %b1
b1:
  %r1 = add i32 %x, %x
  br label %b2
b2:
  %r2 = add i32 %x, %x
  br label %b3
b3:
  %r3 = add i32 %x, %x
  br label %b4
b4:
  %r4 = add i32 %x, %x
  br label %b5
b5:
  %r5 = add i32 %x, %x
  br label %b6
b6:
  %r6 = add i32 %x, %x
  br label %b7
b7:
  %r7 = add i32 %x, %x
  br label %b8
b8:
  %r8 = add i32 %x, %x
  br label %b9
b9:
  %r9 = add i32 %x, %x
  br label %b10
b10:
  %r10 = add i32 %x, %x
  br label %b11
b11:
  %r11 = add i32 %x, %x
  br label %b12
b12:
  %r12 = add i32 %x, %x
  br label %b13
b13:
  %r13 = add i32 %x, %x
  br label %b14
b14:
  %r14 = add i32 %x, %x
  br label %b15
b15:
  %r15 = add i32 %x, %x
  br label %b16
b16:
  %r16 = add i32 %x, %x
  br label %b17
b17:
  %r17 = add i32 %x, %x
  br label %b18
b18:
  %r18 = add i32 %x, %x
  br label %b19
b19:
  %r19 = add i32 %x, %x
  br label %b20
b20:
  %r20 = add i32 %x, %x
  br label %b21
b21:
  %r21 = add i32 %x, %x
  br label %b22
b22:
  %r22 = add i32 %x, %x
  br label %b23
b23:
  %r23 = add i32 %x, %x
  br label %b24
b24:
  %r24 = add i32 %x, %x
  br label %b25
b25:
  %r25 = add i32 %x, %x
  br label %b26
b26:
  %r26 = add i32 %x, %x
  br label %b27
b27:
  %r27 = add i32 %x, %x
  br label %b28
b28:
  %r28 = add i32 %x, %x
  br label %b29
b29:
  %r29 = add i32 %x, %x
  br label %b30
b30:
  %r30 = add i32 %x, %x
  br label %b31
b31:
  %r31 = add i32 %x, %x
  br label %b32
b32:
  %r32 = add i32 %x, %x
  br label %b33
b33:
  %r33 = add i32 %x, %x
  br label %b34
b34:
  %r34 = add i32 %x, %x
  br label %b35
b35:
  %r35 = add i32 %x, %x
  br label %b36
b36:
  %r36 = add i32 %x, %x
  br label %b37
b37:
  %r37 = add i32 %x, %x
  br label %b38
b38:
  %r38 = add i32 %x, %x
  br label %b39
b39:
  %r39 = add i32 %x, %x
  br label %b40
b40:
  %r40 = add i32 %x, %x
  br label %b41
b41:
  %r41 = add i32 %x, %x
  br label %b42
b42:
  %r42 = add i32 %x, %x
  br label %b43
b43:
  %r43 = add i32 %x, %x
  br label %b44
b44:
  %r44 = add i32 %x, %x
  br label %b45
b45:
  %r45 = add i32 %x, %x
  br label %b46
b46:
  %r46 = add i32 %x, %x
  br label %b47
b47:
  %r47 = add i32 %x, %x
  br label %b48
b48:
  %r48 = add i32 %x, %x
  br label %b49
b49:
  %r49 = add i32 %x, %x
  br label %b50
b50:
  %r50 = add i32 %x, %x
  br label %b51
b51:
  %r51 = add i32 %x, %x
  br label %b52
b52:
  %r52 = add i32 %x, %x
  br label %b53
b53:
  %r53 = add i32 %x, %x
  br label %b54
b54:
  %r54 = add i32 %x, %x
  br label %b55
b55:
  %r55 = add i32 %x, %x
  br label %b56
b56:
  %r56 = add i32 %x, %x
  br label %b57
b57:
  %r57 = add i32 %x, %x
  br label %b58
b58:
  %r58 = add i32 %x, %x
  br label %b59
b59:
  %r59 = add i32 %x, %x
  br label %b60
b60:
  %r60 = add i32 %x, %x
  br label %b61
b61:
  %r61 = add i32 %x, %x
  br label %b62
b62:
  %r62 = add i32 %x, %x
  br label %b63
b63:
  %r63 = add i32 %x, %x
  br label %b64
b64:
  %r64 = add i32 %x, %x
  br label %b65
b65:
  %r65 = add i32 %x, %x
  br label %b66
b66:
  %r66 = add i32 %x, %x
  br label %b67
b67:
  %r67 = add i32 %x, %x
  br label %b68
b68:
  %r68 = add i32 %x, %x
  br label %b69
b69:
  %r69 = add i32 %x, %x
  br label %b70
b70:
  %r70 = add i32 %x, %x
  br label %b71
b71:
  %r71 = add i32 %x, %x
  br label %b72
b72:
  %r72 = add i32 %x, %x
  br label %b73
b73:
  %r73 = add i32 %x, %x
  br label %b74
b74:
  %r74 = add i32 %x, %x
  br label %b75
b75:
  %r75 = add i32 %x, %x
  br label %b76
b76:
  %r76 = add i32 %x, %x
  br label %b77
b77:
  %r77 = add i32 %x, %x
  br label %b78
b78:
  %r78 = add i32 %x, %x
  br label %b79
b79:
  %r79 = add i32 %x, %x
  br label %b80
b80:
  %r80 = add i32 %x, %x
  br label %b81
b81:
  %r81 = add i32 %x, %x
  br label %b82
b82:
  %r82 = add i32 %x, %x
  br label %b83
b83:
  %r83 = add i32 %x, %x
  br label %b84
b84:
  %r84 = add i32 %x, %x
  br label %b85
b85:
  %r85 = add i32 %x, %x
  br label %b86
b86:
  %r86 = add i32 %x, %x
  br label %b87
b87:
  %r87 = add i32 %x, %x
  br label %b88
b88:
  %r88 = add i32 %x, %x
  br label %b89
b89:
  %r89 = add i32 %x, %x
  br label %b90
b90:
  %r90 = add i32 %x, %x
  br label %b91
b91:
  %r91 = add i32 %x, %x
  br label %b92
b92:
  %r92 = add i32 %x, %x
  br label %b93
b93:
  %r93 = add i32 %x, %x
  br label %b94
b94:
  %r94 = add i32 %x, %x
  br label %b95
b95:
  %r95 = add i32 %x, %x
  br label %b96
b96:
  %r96 = add i32 %x, %x
  br label %b97
b97:
  %r97 = add i32 %x, %x
  br label %b98
b98:
  %r98 = add i32 %x, %x
  br label %b99
b99:
  %r99 = add i32 %x, %x
  br label %b100
b100:
  %r100 = add i32 %x, %x
  br label %b101
b101:
  %r101 = add i32 %x, %x
  br label %b102
b102:
  %r102 = add i32 %x, %x
  br label %b103
b103:
  %r103 = add i32 %x, %x
  br label %b104
b104:
  %r104 = add i32 %x, %x
  br label %b105
b105:
  %r105 = add i32 %x, %x
  br label %b106
b106:
  %r106 = add i32 %x, %x
  br label %b107
b107:
  %r107 = add i32 %x, %x
  br label %b108
b108:
  %r108 = add i32 %x, %x
  br label %b109
b109:
  %r109 = add i32 %x, %x
  br label %b110
b110:
  %r110 = add i32 %x, %x
  br label %b111
b111:
  %r111 = add i32 %x, %x
  br label %b112
b112:
  %r112 = add i32 %x, %x
  br label %b113
b113:
  %r113 = add i32 %x, %x
  br label %b114
b114:
  %r114 = add i32 %x, %x
  br label %b115
b115:
  %r115 = add i32 %x, %x
  br label %b116
b116:
  %r116 = add i32 %x, %x
  br label %b117
b117:
  %r117 = add i32 %x, %x
  br label %b118
b118:
  %r118 = add i32 %x, %x
  br label %b119
b119:
  %r119 = add i32 %x, %x
  br label %b120
b120:
  %r120 = add i32 %x, %x
  br label %b121
b121:
  %r121 = add i32 %x, %x
  br label %b122
b122:
  %r122 = add i32 %x, %x
  br label %b123
b123:
  %r123 = add i32 %x, %x
  br label %b124
b124:
  %r124 = add i32 %x, %x
  br label %b125
b125:
  %r125 = add i32 %x, %x
  br label %b126
b126:
  %r126 = add i32 %x, %x
  br label %b127
b127:
  %r127 = add i32 %x, %x
  br label %b128
b128:
  %r128 = add i32 %x, %x
  br label %b129
b129:
  %r129 = add i32 %x, %x
  br label %b130
b130:
  %r130 = add i32 %x, %x
  br label %b131
b131:
  %r131 = add i32 %x, %x
  br label %b132
b132:
  %r132 = add i32 %x, %x
  br label %b133
b133:
  %r133 = add i32 %x, %x
  br label %b134
b134:
  %r134 = add i32 %x, %x
  br label %b135
b135:
  %r135 = add i32 %x, %x
  br label %b136
b136:
  %r136 = add i32 %x, %x
  br label %b137
b137:
  %r137 = add i32 %x, %x
  br label %b138
b138:
  %r138 = add i32 %x, %x
  br label %b139
b139:
  %r139 = add i32 %x, %x
  br label %b140
b140:
  %r140 = add i32 %x, %x
  br label %b141
b141:
  %r141 = add i32 %x, %x
  br label %b142
b142:
  %r142 = add i32 %x, %x
  br label %b143
b143:
  %r143 = add i32 %x, %x
  br label %b144
b144:
  %r144 = add i32 %x, %x
  br label %b145
b145:
  %r145 = add i32 %x, %x
  br label %b146
b146:
  %r146 = add i32 %x, %x
  br label %b147
b147:
  %r147 = add i32 %x, %x
  br label %b148
b148:
  %r148 = add i32 %x, %x
  br label %b149
b149:
  %r149 = add i32 %x, %x
  br label %b150
b150:
  %r150 = add i32 %x, %x
  br label %b151
b151:
  %r151 = add i32 %x, %x
  br label %b152
b152:
  %r152 = add i32 %x, %x
  br label %b153
b153:
  %r153 = add i32 %x, %x
  br label %b154
b154:
  %r154 = add i32 %x, %x
  br label %b155
b155:
  %r155 = add i32 %x, %x
  br label %b156
b156:
  %r156 = add i32 %x, %x
  br label %b157
b157:
  %r157 = add i32 %x, %x
  br label %b158
b158:
  %r158 = add i32 %x, %x
  br label %b159
b159:
  %r159 = add i32 %x, %x
  br label %b160
b160:
  %r160 = add i32 %x, %x
  br label %b161
b161:
  %r161 = add i32 %x, %x
  br label %b162
b162:
  %r162 = add i32 %x, %x
  br label %b163
b163:
  %r163 = add i32 %x, %x
  br label %b164
b164:
  %r164 = add i32 %x, %x
  br label %b165
b165:
  %r165 = add i32 %x, %x
  br label %b166
b166:
  %r166 = add i32 %x, %x
  br label %b167
b167:
  %r167 = add i32 %x, %x
  br label %b168
b168:
  %r168 = add i32 %x, %x
  br label %b169
b169:
  %r169 = add i32 %x, %x
  br label %b170
b170:
  %r170 = add i32 %x, %x
  br label %b171
b171:
  %r171 = add i32 %x, %x
  br label %b172
b172:
  %r172 = add i32 %x, %x
  br label %b173
b173:
  %r173 = add i32 %x, %x
  br label %b174
b174:
  %r174 = add i32 %x, %x
  br label %b175
b175:
  %r175 = add i32 %x, %x
  br label %b176
b176:
  %r176 = add i32 %x, %x
  br label %b177
b177:
  %r177 = add i32 %x, %x
  br label %b178
b178:
  %r178 = add i32 %x, %x
  br label %b179
b179:
  %r179 = add i32 %x, %x
  br label %b180
b180:
  %r180 = add i32 %x, %x
  br label %b181
b181:
  %r181 = add i32 %x, %x
  br label %b182
b182:
  %r182 = add i32 %x, %x
  br label %b183
b183:
  %r183 = add i32 %x, %x
  br label %b184
b184:
  %r184 = add i32 %x, %x
  br label %b185
b185:
  %r185 = add i32 %x, %x
  br label %b186
b186:
  %r186 = add i32 %x, %x
  br label %b187
b187:
  %r187 = add i32 %x, %x
  br label %b188
b188:
  %r188 = add i32 %x, %x
  br label %b189
b189:
  %r189 = add i32 %x, %x
  br label %b190
b190:
  %r190 = add i32 %x, %x
  br label %b191
b191:
  %r191 = add i32 %x, %x
  br label %b192
b192:
  %r192 = add i32 %x, %x
  br label %b193
b193:
  %r193 = add i32 %x, %x
  br label %b194
b194:
  %r194 = add i32 %x, %x
  br label %b195
b195:
  %r195 = add i32 %x, %x
  br label %b196
b196:
  %r196 = add i32 %x, %x
  br label %b197
b197:
  %r197 = add i32 %x, %x
  br label %b198
b198:
  %r198 = add i32 %x, %x
  br i1 %c, label %b199, label %b200
b199:
  %r199 = add i32 %x, %x
  br label %b200
b200:
  %u0 = add i32 %r0, %r0
  %u1 = add i32 %r1, %r1
  %u2 = add i32 %r2, %r2
  %u3 = add i32 %r3, %r3
  %u4 = add i32 %r4, %r4
  %u5 = add i32 %r5, %r5
  %u6 = add i32 %r6, %r6
  %u7 = add i32 %r7, %r7
  %u8 = add i32 %r8, %r8
  %u9 = add i32 %r9, %r9
  %u10 = add i32 %r10, %r10
  %u11 = add i32 %r11, %r11
  %u12 = add i32 %r12, %r12
  %u13 = add i32 %r13, %r13
  %u14 = add i32 %r14, %r14
  %u15 = add i32 %r15, %r15
  %u16 = add i32 %r16, %r16
  %u17 = add i32 %r17, %r17
  %u18 = add i32 %r18, %r18
  %u19 = add i32 %r19, %r19
  %u20 = add i32 %r20, %r20
  %u21 = add i32 %r21, %r21
  %u22 = add i32 %r22, %r22
  %u23 = add i32 %r23, %r23
  %u24 = add i32 %r24, %r24
  %u25 = add i32 %r25, %r25
  %u26 = add i32 %r26, %r26
  %u27 = add i32 %r27, %r27
  %u28 = add i32 %r28, %r28
  %u29 = add i32 %r29, %r29
  %u30 = add i32 %r30, %r30
  %u31 = add i32 %r31, %r31
  %u32 = add i32 %r32, %r32
  %u33 = add i32 %r33, %r33
  %u34 = add i32 %r34, %r34
  %u35 = add i32 %r35, %r35
  %u36 = add i32 %r36, %r36
  %u37 = add i32 %r37, %r37
  %u38 = add i32 %r38, %r38
  %u39 = add i32 %r39, %r39
  %u40 = add i32 %r40, %r40
  %u41 = add i32 %r41, %r41
  %u42 = add i32 %r42, %r42
  %u43 = add i32 %r43, %r43
  %u44 = add i32 %r44, %r44
  %u45 = add i32 %r45, %r45
  %u46 = add i32 %r46, %r46
  %u47 = add i32 %r47, %r47
  %u48 = add i32 %r48, %r48
  %u49 = add i32 %r49, %r49
  %u50 = add i32 %r50, %r50
  %u51 = add i32 %r51, %r51
  %u52 = add i32 %r52, %r52
  %u53 = add i32 %r53, %r53
  %u54 = add i32 %r54, %r54
  %u55 = add i32 %r55, %r55
  %u56 = add i32 %r56, %r56
  %u57 = add i32 %r57, %r57
  %u58 = add i32 %r58, %r58
  %u59 = add i32 %r59, %r59
  %u60 = add i32 %r60, %r60
  %u61 = add i32 %r61, %r61
  %u62 = add i32 %r62, %r62
  %u63 = add i32 %r63, %r63
  %u64 = add i32 %r64, %r64
  %u65 = add i32 %r65, %r65
  %u66 = add i32 %r66, %r66
  %u67 = add i32 %r67, %r67
  %u68 = add i32 %r68, %r68
  %u69 = add i32 %r69, %r69
  %u70 = add i32 %r70, %r70
  %u71 = add i32 %r71, %r71
  %u72 = add i32 %r72, %r72
  %u73 = add i32 %r73, %r73
  %u74 = add i32 %r74, %r74
  %u75 = add i32 %r75, %r75
  %u76 = add i32 %r76, %r76
  %u77 = add i32 %r77, %r77
  %u78 = add i32 %r78, %r78
  %u79 = add i32 %r79, %r79
  %u80 = add i32 %r80, %r80
  %u81 = add i32 %r81, %r81
  %u82 = add i32 %r82, %r82
  %u83 = add i32 %r83, %r83
  %u84 = add i32 %r84, %r84
  %u85 = add i32 %r85, %r85
  %u86 = add i32 %r86, %r86
  %u87 = add i32 %r87, %r87
  %u88 = add i32 %r88, %r88
  %u89 = add i32 %r89, %r89
  %u90 = add i32 %r90, %r90
  %u91 = add i32 %r91, %r91
  %u92 = add i32 %r92, %r92
  %u93 = add i32 %r93, %r93
  %u94 = add i32 %r94, %r94
  %u95 = add i32 %r95, %r95
  %u96 = add i32 %r96, %r96
  %u97 = add i32 %r97, %r97
  %u98 = add i32 %r98, %r98
  %u99 = add i32 %r99, %r99
  %u100 = add i32 %r100, %r100
  %u101 = add i32 %r101, %r101
  %u102 = add i32 %r102, %r102
  %u103 = add i32 %r103, %r103
  %u104 = add i32 %r104, %r104
  %u105 = add i32 %r105, %r105
  %u106 = add i32 %r106, %r106
  %u107 = add i32 %r107, %r107
  %u108 = add i32 %r108, %r108
  %u109 = add i32 %r109, %r109
  %u110 = add i32 %r110, %r110
  %u111 = add i32 %r111, %r111
  %u112 = add i32 %r112, %r112
  %u113 = add i32 %r113, %r113
  %u114 = add i32 %r114, %r114
  %u115 = add i32 %r115, %r115
  %u116 = add i32 %r116, %r116
  %u117 = add i32 %r117, %r117
  %u118 = add i32 %r118, %r118
  %u119 = add i32 %r119, %r119
  %u120 = add i32 %r120, %r120
  %u121 = add i32 %r121, %r121
  %u122 = add i32 %r122, %r122
  %u123 = add i32 %r123, %r123
  %u124 = add i32 %r124, %r124
  %u125 = add i32 %r125, %r125
  %u126 = add i32 %r126, %r126
  %u127 = add i32 %r127, %r127
  %u128 = add i32 %r128, %r128
  %u129 = add i32 %r129, %r129
  %u130 = add i32 %r130, %r130
  %u131 = add i32 %r131, %r131
  %u132 = add i32 %r132, %r132
  %u133 = add i32 %r133, %r133
  %u134 = add i32 %r134, %r134
  %u135 = add i32 %r135, %r135
  %u136 = add i32 %r136, %r136
  %u137 = add i32 %r137, %r137
  %u138 = add i32 %r138, %r138
  %u139 = add i32 %r139, %r139
  %u140 = add i32 %r140, %r140
  %u141 = add i32 %r141, %r141
  %u142 = add i32 %r142, %r142
  %u143 = add i32 %r143, %r143
  %u144 = add i32 %r144, %r144
  %u145 = add i32 %r145, %r145
  %u146 = add i32 %r146, %r146
  %u147 = add i32 %r147, %r147
  %u148 = add i32 %r148, %r148
  %u149 = add i32 %r149, %r149
  %u150 = add i32 %r150, %r150
  %u151 = add i32 %r151, %r151
  %u152 = add i32 %r152, %r152
  %u153 = add i32 %r153, %r153
  %u154 = add i32 %r154, %r154
  %u155 = add i32 %r155, %r155
  %u156 = add i32 %r156, %r156
  %u157 = add i32 %r157, %r157
  %u158 = add i32 %r158, %r158
  %u159 = add i32 %r159, %r159
  %u160 = add i32 %r160, %r160
  %u161 = add i32 %r161, %r161
  %u162 = add i32 %r162, %r162
  %u163 = add i32 %r163, %r163
  %u164 = add i32 %r164, %r164
  %u165 = add i32 %r165, %r165
  %u166 = add i32 %r166, %r166
  %u167 = add i32 %r167, %r167
  %u168 = add i32 %r168, %r168
  %u169 = add i32 %r169, %r169
  %u170 = add i32 %r170, %r170
  %u171 = add i32 %r171, %r171
  %u172 = add i32 %r172, %r172
  %u173 = add i32 %r173, %r173
  %u174 = add i32 %r174, %r174
  %u175 = add i32 %r175, %r175
  %u176 = add i32 %r176, %r176
  %u177 = add i32 %r177, %r177
  %u178 = add i32 %r178, %r178
  %u179 = add i32 %r179, %r179
  %u180 = add i32 %r180, %r180
  %u181 = add i32 %r181, %r181
  %u182 = add i32 %r182, %r182
  %u183 = add i32 %r183, %r183
  %u184 = add i32 %r184, %r184
  %u185 = add i32 %r185, %r185
  %u186 = add i32 %r186, %r186
  %u187 = add i32 %r187, %r187
  %u188 = add i32 %r188, %r188
  %u189 = add i32 %r189, %r189
  %u190 = add i32 %r190, %r190
  %u191 = add i32 %r191, %r191
  %u192 = add i32 %r192, %r192
  %u193 = add i32 %r193, %r193
  %u194 = add i32 %r194, %r194
  %u195 = add i32 %r195, %r195
  %u196 = add i32 %r196, %r196
  %u197 = add i32 %r197, %r197
  %u198 = add i32 %r198, %r198
  %u199 = add i32 %r199, %r199
  ret void
}
; == paths: the first item that is not definite
define i32 @a(i32 %x, i1 %c) {
b0:
  %r0 = add i32 %x, %x
  ret i32 %r0
}
define i32 @b(i32 %x, i1 %c) {
b0:
  %r0 = add i32 %r0, %x
  ret i32 %r0
}
define i32 @c(i32 %x, i1 %c) {
b0:
  %r0 = add i32 %r0, %x
  ret i32 %r0
}
