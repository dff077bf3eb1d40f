declare void @k(i64 %0)

define i32 @sum(ptr %a, i64 %n) {
entry:
  br label %loop

loop:
  %i = phi i64 [ 0, %entry ], [ %i1, %loop ]
  %s = phi i32 [ 0, %entry ], [ %s1, %loop ]
  %p = getelementptr inbounds i32, ptr %a, i64 %i
  %x = load i32, ptr %p, align 4
  %s1 = add nsw i32 %s, %x
  %i1 = add nuw i64 %i, 1
  %c = icmp eq i64 %i1, %n
  br i1 %c, label %exit, label %loop

exit:
  ret i32 %s1
}

define void @shift(ptr %a, i64 %n) {
entry:
  br label %loop

loop:
  %i = phi i64 [ 0, %entry ], [ %i1, %loop ]
  %p = getelementptr inbounds i32, ptr %a, i64 %i
  %x = load i32, ptr %p, align 4
  %q = getelementptr inbounds i8, ptr %p, i64 12
  store i32 %x, ptr %q, align 4
  %i1 = add nuw i64 %i, 1
  %c = icmp eq i64 %i1, %n
  br i1 %c, label %exit, label %loop

exit:
  ret void
}

define i8 @rev(ptr %a, ptr %b, i64 %n) {
entry:
  br label %loop

loop:
  %i = phi i64 [ %n, %entry ], [ %i1, %loop ]
  %i1 = add nsw i64 %i, -1
  %p = getelementptr inbounds i8, ptr %a, i64 %i1
  %x = load i8, ptr %p, align 1
  %q = getelementptr inbounds i8, ptr %b, i64 %i1
  store i8 %x, ptr %q, align 1
  %c = icmp eq i64 %i1, 0
  br i1 %c, label %exit, label %loop

exit:
  ret i8 %x
}

define void @nest(ptr %a, ptr %b, i64 %n) {
entry:
  br label %loop

loop:
  %i = phi i64 [ 0, %entry ], [ %i1, %latch ]
  %p = getelementptr inbounds i32, ptr %a, i64 %i
  %x = load i32, ptr %p, align 4
  %o = icmp sgt i32 %x, 0
  br i1 %o, label %then, label %latch

then:
  %d = sub nuw i32 %x, 1
  %u = icmp ult i32 %d, 5
  br i1 %u, label %inner, label %latch

inner:
  %q = getelementptr inbounds i32, ptr %b, i64 %i
  store i32 7, ptr %q, align 4
  br label %latch

latch:
  %i1 = add nuw i64 %i, 1
  %c = icmp eq i64 %i1, %n
  br i1 %c, label %exit, label %loop

exit:
  ret void
}

define void @quot(ptr %a, ptr %b, ptr %r, i64 %n) {
entry:
  br label %loop

loop:
  %i = phi i64 [ 0, %entry ], [ %i1, %latch ]
  %p = getelementptr inbounds i32, ptr %a, i64 %i
  %x = load i32, ptr %p, align 4
  %q = getelementptr inbounds i32, ptr %b, i64 %i
  %y = load i32, ptr %q, align 4
  %o = icmp sgt i32 %y, 0
  br i1 %o, label %then, label %latch

then:
  %d = sdiv i32 %x, %y
  br label %latch

latch:
  %v = phi i32 [ 0, %loop ], [ %d, %then ]
  %w = getelementptr inbounds i32, ptr %r, i64 %i
  store i32 %v, ptr %w, align 4
  %i1 = add nuw i64 %i, 1
  %c = icmp eq i64 %i1, %n
  br i1 %c, label %exit, label %loop

exit:
  ret void
}

define void @mix(ptr %a, ptr %d, ptr %z, i1 %f, i64 %n) {
entry:
  br label %loop

loop:
  %i = phi i64 [ 0, %entry ], [ %i1, %latch ]
  %p = getelementptr i32, ptr %a, i64 %i
  %x = load i32, ptr %p, align 4
  br i1 %f, label %then, label %latch

then:
  %r = getelementptr i32, ptr %z, i64 %i
  %y = load i32, ptr %r, align 4
  br label %latch

latch:
  %v = phi i32 [ %x, %loop ], [ %y, %then ]
  %q = getelementptr i32, ptr %d, i64 %i
  store i32 %v, ptr %q, align 4
  %i1 = add i64 %i, 1
  %c = icmp eq i64 %i1, %n
  br i1 %c, label %exit, label %loop

exit:
  ret void
}

define void @wrap(ptr %a, ptr %b, i64 %n) {
entry:
  br label %loop

loop:
  %i = phi i64 [ 0, %entry ], [ %i1, %latch ]
  %q = getelementptr i32, ptr %b, i64 %i
  %x = load i32, ptr %q, align 4
  %e = and i64 %i, 1
  %o = icmp eq i64 %e, 0
  br i1 %o, label %then, label %latch

then:
  %m = mul i64 %i, -9223372036854775800
  %p = getelementptr i8, ptr %a, i64 %m
  store i32 %x, ptr %p, align 4
  br label %latch

latch:
  %i1 = add i64 %i, 1
  %c = icmp eq i64 %i1, %n
  br i1 %c, label %exit, label %loop

exit:
  ret void
}

define void @pairs(ptr %a, ptr %b, i64 %n) {
entry:
  br label %loop

loop:
  %i = phi i64 [ 0, %entry ], [ %i1, %loop ]
  %prev = phi i32 [ 0, %entry ], [ %x, %loop ]
  %p = getelementptr inbounds i32, ptr %a, i64 %i
  %x = load i32, ptr %p, align 4
  %y = add i32 %x, %prev
  %q = getelementptr inbounds i32, ptr %b, i64 %i
  store i32 %y, ptr %q, align 4
  %i1 = add nuw i64 %i, 1
  %c = icmp eq i64 %i1, %n
  br i1 %c, label %exit, label %loop

exit:
  ret void
}

define i64 @spin(i64 %b) {
entry:
  br label %loop

loop:
  %i = phi i64 [ %b, %entry ], [ %i1, %loop ]
  %s = phi i64 [ 0, %entry ], [ %s1, %loop ]
  %s1 = xor i64 %s, %i
  %i1 = add i64 %i, 1
  %c = icmp ne i64 %i1, %b
  br i1 %c, label %loop, label %exit

exit:
  ret i64 %s1
}

define i32 @even(ptr %a, i64 %n) {
entry:
  br label %loop

loop:
  %i = phi i64 [ 0, %entry ], [ %i1, %loop ]
  %s = phi i32 [ 0, %entry ], [ %s1, %loop ]
  %j = shl nuw nsw i64 %i, 1
  %p = getelementptr inbounds i32, ptr %a, i64 %j
  %x = load i32, ptr %p, align 4
  %s1 = add nsw i32 %s, %x
  %i1 = add nuw i64 %i, 1
  %c = icmp eq i64 %i1, %n
  br i1 %c, label %exit, label %loop

exit:
  ret i32 %s1
}

define void @b(i64 %n) {
entry:
  br label %loop

loop:
  %i = phi i64 [ 0, %entry ], [ %j, %loop ]
  call void @k(i64 %i)
  %j = add i64 %i, 1
  %c = icmp ne i64 %j, %n
  br i1 %c, label %loop, label %exit

exit:
  ret void
}
