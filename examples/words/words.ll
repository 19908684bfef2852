; Counts what it reads: 0 for lines, 1 for words, 2 for bytes. Prints the count in the given base, and returns it.
@digits = private constant [16 x i8] c"0123456789abcdef"

declare i32 @getchar()
declare i32 @putchar(i32)

define i32 @count(i32 %what, i32 %base) {
entry:
  br label %next
next:
  %total = phi i32 [ 0, %entry ], [ %more, %taken ]
  %before = phi i1 [ true, %entry ], [ %blank, %taken ]
  %c = call i32 @getchar()
  %end = icmp eq i32 %c, -1
  br i1 %end, label %done, label %read
read:
  %blank = call i1 @is_blank(i32 %c)
  switch i32 %what, label %byte [ i32 0, label %line
    i32 1, label %word ]
line:
  %feed = icmp eq i32 %c, 10
  br label %taken
word:
  %letter = xor i1 %blank, true
  %begins = and i1 %before, %letter
  br label %taken
byte:
  br label %taken
taken:
  %one = phi i1 [ %feed, %line ], [ %begins, %word ], [ true, %byte ]
  %by = zext i1 %one to i32
  %more = add nuw i32 %total, %by
  br label %next
done:
  call void @print(i32 %total, i32 %base)
  %newline = call i32 @putchar(i32 10)
  ret i32 %total
}

define internal i1 @is_blank(i32 %c) {
  %space = icmp eq i32 %c, 32
  %from = sub i32 %c, 9
  %control = icmp ult i32 %from, 5
  %blank = or i1 %space, %control
  ret i1 %blank
}

define internal void @print(i32 %n, i32 %base) {
entry:
  %digit = urem i32 %n, %base
  %rest = udiv i32 %n, %base
  %last = icmp eq i32 %rest, 0
  br i1 %last, label %here, label %first
first:
  call void @print(i32 %rest, i32 %base)
  br label %here
here:
  %wide = zext i32 %digit to i64
  %at = getelementptr [16 x i8], ptr @digits, i64 0, i64 %wide
  %byte = load i8, ptr %at
  %c = zext i8 %byte to i32
  %shown = call i32 @putchar(i32 %c)
  ret void
}
