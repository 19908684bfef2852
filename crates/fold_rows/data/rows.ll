; == an overflow with nsw stays
define i32 @main() {
  %a = add nsw i32 2147483647, 1
  %b = add i32 2147483647, 1
  %c = add i32 %a, %b
  ret i32 %c
}
; == a division by zero stays, its branch taken with 1
define i32 @main(i32 %k) {
  %t = icmp eq i32 %k, 1
  br i1 %t, label %x, label %y
x:
  %d = udiv i32 8, 0
  ret i32 %d
y:
  ret i32 2
}
; == a division by zero in a block that isn't reached with 2
define i32 @main(i32 %k) {
  %t = icmp eq i32 %k, 1
  br i1 %t, label %x, label %y
x:
  %d = udiv i32 8, 0
  ret i32 %d
y:
  ret i32 2
}
; == a loop that keeps a constant with _
define i32 @main(i32 %n) {
entry:
  br label %loop
loop:
  %i = phi i32 [ 0, %entry ], [ %j, %loop ]
  %s = phi i32 [ 4, %entry ], [ %u, %loop ]
  %j = add i32 %i, 1
  %u = sub i32 8, %s
  %c = icmp ult i32 %j, %n
  br i1 %c, label %loop, label %done
done:
  %r = add i32 %j, %s
  ret i32 %r
}
; == a loop that narrowly keeps none with _
define i32 @main(i32 %n) {
entry:
  br label %loop
loop:
  %i = phi i32 [ 0, %entry ], [ %j, %loop ]
  %s = phi i32 [ 4, %entry ], [ %u, %loop ]
  %j = add i32 %i, 1
  %u = sub i32 9, %s
  %c = icmp ult i32 %j, %n
  br i1 %c, label %loop, label %done
done:
  %r = add i32 %j, %s
  ret i32 %r
}
; == a loop that is never taken with 0
define i32 @main(i32 %n) {
entry:
  br label %loop
loop:
  %i = phi i32 [ 0, %entry ], [ %j, %loop ]
  %j = add i32 %i, 1
  %c = icmp ult i32 %j, %n
  br i1 %c, label %loop, label %done
done:
  ret i32 %j
}
; == a branch whose edges go to one block with 1 _
define i32 @main(i32 %k, i32 %n) {
entry:
  %c = icmp eq i32 %k, 1
  br i1 %c, label %x, label %x
x:
  %p = phi i32 [ %n, %entry ], [ %n, %entry ]
  ret i32 %p
}
; == a branch whose edges go to one block, both taken with _ 5
define i32 @main(i32 %k, i32 %n) {
entry:
  %c = icmp eq i32 %k, 1
  br i1 %c, label %x, label %x
x:
  %p = phi i32 [ %n, %entry ], [ %n, %entry ]
  ret i32 %p
}
; == numbers are taken modulo their width with 255 1
define i32 @f(i8 %x, i1 %y) {
  %p = zext i8 %x to i32
  %q = zext i1 %y to i32
  %r = add i32 %p, %q
  ret i32 %r
}
; == one operand is known with _ 1
define i32 @f(i8 %x, i1 %y) {
  %p = zext i8 %x to i32
  %q = zext i1 %y to i32
  %r = add i32 %p, %q
  ret i32 %r
}
; == an argument of a call with _ 0
define void @f(ptr %p, i32 %n) {
  %m = add i32 %n, 1
  call void %p(ptr %p, i32 %m)
  ret void
}
; == a phi of two equal values with _
define i32 @f(i1 %c) {
entry:
  br i1 %c, label %x, label %y
x:
  br label %z
y:
  br label %z
z:
  %p = phi i32 [ 7, %x ], [ 7, %y ]
  ret i32 %p
}
; == a phi of two different values with _
define i32 @f(i1 %c) {
entry:
  br i1 %c, label %x, label %y
x:
  br label %z
y:
  br label %z
z:
  %p = phi i32 [ 7, %x ], [ 8, %y ]
  ret i32 %p
}
; == a phi of two different values, one edge not reached with 1
define i32 @f(i1 %c) {
entry:
  br i1 %c, label %x, label %y
x:
  br label %z
y:
  br label %z
z:
  %p = phi i32 [ 7, %x ], [ 8, %y ]
  ret i32 %p
}
; == a select on a known condition, the other arm varies with 1 _
define i32 @f(i1 %c, i32 %x) {
  %p = select i1 %c, i32 7, i32 %x
  ret i32 %p
}
; == a select on a known condition whose arm varies with 0 _
define i32 @f(i1 %c, i32 %x) {
  %p = select i1 %c, i32 7, i32 %x
  ret i32 %p
}
; == a select on a varying condition of equal arms with _
define i32 @f(i1 %c) {
  %p = select i1 %c, i32 7, i32 7
  ret i32 %p
}
; == a switch takes its case with 5
define i32 @f(i32 %x) {
  switch i32 %x, label %d [ i32 3, label %a i32 5, label %b ]
a:
  %p = add i32 1, 1
  ret i32 %p
b:
  %q = add i32 2, 2
  ret i32 %q
d:
  %r = add i32 3, 3
  ret i32 %r
}
; == a switch takes its default with 4
define i32 @f(i32 %x) {
  switch i32 %x, label %d [ i32 3, label %a i32 5, label %b ]
a:
  %p = add i32 1, 1
  ret i32 %p
b:
  %q = add i32 2, 2
  ret i32 %q
d:
  %r = add i32 3, 3
  ret i32 %r
}
; == a switch on what varies with _
define i32 @f(i32 %x) {
  switch i32 %x, label %d [ i32 3, label %a i32 5, label %b ]
a:
  %p = add i32 1, 1
  ret i32 %p
b:
  %q = add i32 2, 2
  ret i32 %q
d:
  %r = add i32 3, 3
  ret i32 %r
}
; == a switch without cases with 4
define i32 @f(i32 %x) {
  switch i32 %x, label %d [ ]
d:
  %r = add i32 3, 3
  ret i32 %r
}
; == a branch on undef reaches both
define i32 @f() {
  br i1 undef, label %x, label %y
x:
  ret i32 1
y:
  ret i32 2
}
; == undef varies
define i32 @f() {
  %p = add i32 undef, 1
  %q = and i32 poison, 0
  ret i32 %p
}
; == null is equal to null
define i1 @f() {
  %a = icmp eq ptr null, null
  %b = icmp ne ptr null, null
  %c = icmp ule ptr null, null
  %d = icmp ult ptr null, null
  %e = icmp sge ptr null, null
  %g = icmp sgt ptr null, null
  ret i1 %a
}
; == null that is known, and a pointer that isn't with null _
define i1 @f(ptr %p, ptr %q) {
  %a = icmp eq ptr %p, null
  %b = icmp eq ptr %q, null
  %c = select i1 true, ptr %p, ptr %q
  ret i1 %a
}
; == memory, addresses and calls vary with 1
@g = global i32 7
define i32 @f(i32 %x) {
  %p = alloca i32
  store i32 %x, ptr %p
  %v = load i32, ptr %p
  %w = load i32, ptr @g
  %q = getelementptr i32, ptr @g, i32 0
  %c = call i32 @f(i32 1)
  ret i32 %v
}
; == shifts and flags that hold with 3
define i32 @f(i32 %x) {
  %a = shl i32 %x, 2
  %b = lshr exact i32 %a, 2
  %c = lshr exact i32 %x, 1
  %d = shl i32 %x, 32
  %e = trunc i32 %x to i1
  %g = sext i1 %e to i8
  ret i32 %a
}
; == a loop that its constant never ends with _
define i32 @f(i32 %n) {
entry:
  br label %loop
loop:
  %s = phi i32 [ 4, %entry ], [ %u, %loop ]
  %u = sub i32 8, %s
  %c = icmp eq i32 %u, 4
  br i1 %c, label %loop, label %done
done:
  ret i32 %u
}
; == a switch of two edges to one block with 0
define i32 @f(i32 %k) {
entry:
  switch i32 %k, label %d [ i32 0, label %x i32 1, label %x ]
x:
  %p = phi i32 [ 7, %entry ], [ 7, %entry ]
  br label %z
d:
  br label %z
z:
  %q = phi i32 [ %p, %x ], [ 9, %d ]
  ret i32 %q
}
; == a switch of two edges to one block, all taken with _
define i32 @f(i32 %k) {
entry:
  switch i32 %k, label %d [ i32 0, label %x i32 1, label %x ]
x:
  %p = phi i32 [ 7, %entry ], [ 7, %entry ]
  br label %z
d:
  br label %z
z:
  %q = phi i32 [ %p, %x ], [ 9, %d ]
  ret i32 %q
}
; == a loop in a loop, both keep a constant with _
define i32 @f(i32 %n) {
entry:
  br label %outer
outer:
  %a = phi i32 [ 3, %entry ], [ %b, %latch ]
  br label %inner
inner:
  %b = phi i32 [ %a, %outer ], [ %c, %inner ]
  %i = phi i32 [ 0, %outer ], [ %j, %inner ]
  %c = add i32 %b, 0
  %j = add i32 %i, 1
  %t = icmp ult i32 %j, %n
  br i1 %t, label %inner, label %latch
latch:
  %g = icmp ult i32 %c, %n
  br i1 %g, label %outer, label %done
done:
  ret i32 %a
}
; == phis of a loop that change places with _
define i32 @f(i1 %c) {
entry:
  br label %loop
loop:
  %x = phi i32 [ 0, %entry ], [ %y, %loop ]
  %y = phi i32 [ 1, %entry ], [ %x, %loop ]
  br i1 %c, label %loop, label %done
done:
  ret i32 %x
}
; == numbers of one bit with 1
define i1 @f(i1 %x) {
  %a = add i1 %x, true
  %b = xor i1 %a, %x
  ret i1 %b
}
