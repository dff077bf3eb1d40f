define i32 @f(i32 %0, i1 %1) {
  br i1 %1, label %3, label %4
3:
  br label %4
4:
  %5 = phi i32 [ %0, %2 ], [ 7, %3 ]
  ret i32 %5
}
