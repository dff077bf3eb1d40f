; Forms that clang seldom writes, all of which LLVM and vplanc read: names as strings, flags, vectors, constants, and items of each kind.
source_filename = "forms.c"
target datalayout = "e-m:e-p270:32:32-p271:32:32-p272:64:64-i64:64-i128:128-f80:128-n8:16:32:64-S128"
target triple = "x86_64-pc-linux-gnu"

%pair = type { i8, i64 }
%"a b" = type <{ i16, [2 x %pair], <4 x i32> }>
%closed = type opaque

$shared = comdat any
$"other one" = comdat largest

@row = global [16 x i32] zeroinitializer, align 16
@shared = linkonce_odr constant i64 -7, section "own", comdat, align 8
@"two words" = internal unnamed_addr constant [3 x i8] c"x\0A\00", comdat($"other one"), align 1
@far = external dso_local global %"a b", align 8, !note !0
@places = private constant [2 x ptr] [ptr @row, ptr getelementptr (i8, ptr @row, i64 8)]

declare !note !1 void @g(ptr noundef, i32 signext, ...) #0

declare <4 x i32> @lanes(<4 x i32> %0, i1 zeroext %1)

declare fastcc zeroext i8 @z(i8 zeroext)

define i64 @numbers(i8 %0, i16 %1, i32 %2, i64 %3) {
  %5 = add nuw nsw i8 %0, -1
  %6 = sub i16 %1, 65535
  %7 = mul nsw i32 %2, 7
  %8 = shl nuw i64 %3, 3
  %9 = udiv exact i8 %5, 2
  %10 = sdiv i16 %6, -3
  %11 = lshr i32 %7, 4
  %12 = ashr exact i64 %8, 1
  %13 = urem i8 %9, 10
  %14 = srem i16 %10, 10
  %15 = and i32 %11, -2147483648
  %16 = or disjoint i64 %12, 1
  %17 = xor i8 %13, 85
  %18 = zext nneg i8 %17 to i64
  %19 = sext i16 %14 to i64
  %20 = trunc nuw i64 %16 to i1
  %21 = select i1 %20, i64 %18, i64 %19
  %22 = zext i32 %15 to i64
  %23 = freeze i64 %21
  %24 = add i64 %23, %22
  ret i64 %24
}

define internal void @memory(ptr noundef align 8 %"the place", i64 %at, i32 %value) unnamed_addr #0 !note !0 {
start:
  %a = load i32, ptr %"the place", align 2, !tbaa !2
  %b = load <4 x i32>, ptr getelementptr inbounds (i8, ptr @row, i64 16)
  %c = getelementptr inbounds nuw %pair, ptr %"the place", i64 %at, i32 1
  %d = getelementptr [16 x i32], ptr @row, i64 0, i64 %at
  %e = getelementptr nusw %"a b", ptr @far, i32 1, i32 1, i64 %at, i32 1
  %f = ptrtoint ptr %d to i64
  store i64 %f, ptr %c, align 8, !note !1
  store ptr @"two words", ptr %e, align 1
  store ptr null, ptr %c
  store <2 x i8> <i8 1, i8 poison>, ptr %d
  tail call void (ptr, i32, ...) @g(ptr noundef nonnull @row, i32 signext %a, i64 5, ptr poison) #1
  %g = notail call <4 x i32> @lanes(<4 x i32> %b, i1 zeroext false), !note !0
  %h = call fastcc zeroext i8 @z(i8 zeroext -3)
  %same = icmp eq ptr %c, %d
  br i1 %same, label %"next one", label %-

-:
  unreachable

"next one":
  switch i8 %h, label %- [
    i8 0, label %out
    i8 -1, label %out
  ], !prof !3

out:
  %i = phi <4 x i32> [ %g, %"next one" ], [ %g, %"next one" ]
  %j = insertelement <4 x i32> %i, i32 %value, i64 %at
  %k = shufflevector <4 x i32> %j, <4 x i32> poison, <8 x i32> <i32 0, i32 1, i32 2, i32 3, i32 poison, i32 1, i32 2, i32 3>
  %l = extractelement <8 x i32> %k, i8 7
  %m = icmp slt <4 x i32> %j, splat (i32 7)
  %n = select <4 x i1> %m, <4 x i32> %j, <4 x i32> <i32 1, i32 -1, i32 2, i32 -2>
  %o = sext <4 x i1> %m to <4 x i16>
  %p = add <4 x i32> %n, zeroinitializer
  store <4 x i32> %p, ptr @row, align 16
  store <4 x i16> %o, ptr %c, align 8
  store i32 %l, ptr getelementptr ([16 x i32], ptr @row, i64 1, i64 -2), align 4
  br label %again, !llvm.loop !4

again:
  %count = phi i32 [ 0, %out ], [ %more, %again ]
  %more = add nuw i32 %count, 1
  %done = icmp uge i32 %more, %value
  br i1 %done, label %end, label %again

end:
  ret void
}

attributes #0 = { nounwind "frame-pointer"="all" memory(argmem: readwrite) }
attributes #1 = { nounwind willreturn }

!named = !{!0, !1}
!0 = !{i32 7, !"text", null}
!1 = distinct !{!1, !0}
!2 = !{!5, !5, i64 0}
!3 = !{!"branch_weights", i32 1, i32 2, i32 3}
!4 = distinct !{!4}
!5 = !{!"int", !6, i64 0}
!6 = !{!"root"}
