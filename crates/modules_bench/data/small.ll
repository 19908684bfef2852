source_filename = "small.c"
target triple = "x86_64-unknown-linux-gnu"
%pair = type { i32, %other }
%other = type [2 x i8]
@table = internal constant [2 x %pair] [%pair { i32 1, %other c"ab" }, %pair zeroinitializer], align 4, !dbg !0
declare i32 @puts(ptr noundef) #0
define i32 @main(i32 %n) #0 !dbg !1 {
  %p = getelementptr inbounds %pair, ptr @table, i32 %n, i32 1
  %r = tail call i32 @puts(ptr %p), !dbg !2
  br label %end
end:
  ret i32 %r
}
attributes #0 = { nounwind }
!0 = !{}
!1 = distinct !DISubprogram(name: "main", line: 1)
!2 = !DILocation(line: 2, scope: !1)
