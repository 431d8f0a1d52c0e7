@table = internal global [64 x i64] zeroinitializer, align 8
@sum = internal global i64 0, align 8
define internal i64 @mix(i64 %x, i64 %k) {
entry:
  %m = mul i64 %x, 6364136223846793005
  %a = add i64 %m, %k
  %s = lshr i64 %a, 33
  %r = xor i64 %a, %s
  ret i64 %r
}
define i64 @main() {
entry:
  br label %loop
loop:
  %i = phi i64 [ 0, %entry ], [ %next, %loop ]
  %x = phi i64 [ 1, %entry ], [ %y, %loop ]
  %k = and i64 %i, 63
  %p = getelementptr inbounds [64 x i64], ptr @table, i64 0, i64 %k
  %v = load i64, ptr %p, align 8
  %z = add i64 %v, %x
  %y = call i64 @mix(i64 %z, i64 %i)
  store i64 %y, ptr %p, align 8
  %t = load i64, ptr @sum, align 8
  %u = add i64 %t, %y
  store i64 %u, ptr @sum, align 8
  %next = add nuw nsw i64 %i, 1
  %done = icmp eq i64 %next, 10000000
  br i1 %done, label %exit, label %loop
exit:
  %w = load i64, ptr @sum, align 8
  ret i64 %w
}
