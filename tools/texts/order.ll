; Items in another order than they are printed in, and what may be written in several ways.
source_filename = "a.c"
target triple = "x86_64"
$v = comdat any
!0 = !{i32 1, !"x"}
@v = linkonce_odr global [3 x %b] zeroinitializer, comdat, align 4
attributes #0 = { nounwind }
%a = type { i8, %b }
%b = type <{ i16, [0 x i64] }>
define i8 @f(ptr noundef align 8 %p, i1 %c, i8 %x, i32 %y, i64 %z) memory(none) #0 !note !0 {
  add nsw nuw i32 %y, 7
  lshr exact i32 %y, 2147483647
  or disjoint i32 %y, 2147483648
  xor i32 4294967295, %y
  icmp sle ptr %p, null
  trunc nsw i32 %y to i8
  zext nneg i8 %x to i64
  add i64 9223372036854775807, 9223372036854775808
  sub i64 18446744073709551615, %z
  select i1 %c, i1 true, i1 0
  freeze <2 x i1> <i1 true, i1 poison>
  store ptr getelementptr (%b, ptr @v, i64 -3), ptr %p
  getelementptr nuw nusw inbounds %a, ptr %p, i64 1, i32 1
  load i32, ptr @p, align 2, !note !0, !other !1
  notail call void (ptr, ...) @g(ptr noundef @v, i8 %x) nounwind
  switch i8 %x, label %e [ i8 0, label %e i8 127, label %e i8 128, label %e i8 255, label %e ], !note !0
e:
  %r = musttail call fastcc i8 @h()
  ret i8 %r
}
%c = type opaque
@p = external constant ptr
declare !note !1 void @g(ptr signext, ...)
declare i8 @h()
!1 = distinct !{!1}
