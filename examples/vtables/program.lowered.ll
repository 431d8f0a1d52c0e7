@.ltt.gv.0 = private constant { [5 x i64], [24 x i8] } zeroinitializer, align 8
define i1 @is_circle(ptr %vtable) {
0:
  %answer = icmp eq ptr %vtable, getelementptr (i8, ptr @.ltt.gv.0, i64 16)
  ret i1 %answer
}
define i1 @main() {
0:
  %answer = icmp eq ptr getelementptr (i8, ptr @.ltt.gv.0, i64 16), getelementptr (i8, ptr @.ltt.gv.0, i64 16)
  ret i1 %answer
}
