; Three vtables of words, each with a type entry of its own, and a function that tests a pointer.
@square = constant [4 x i64] zeroinitializer, !type !0
@circle = constant [5 x i64] zeroinitializer, !type !1
@polygon = constant [9 x i64] zeroinitializer, !type !2

define i1 @is_circle(ptr %vtable) {
  %answer = call i1 @llvm.type.test(ptr %vtable, metadata !"_ZTS6Circle")
  ret i1 %answer
}

declare i1 @llvm.type.test(ptr, metadata)

!0 = !{i64 16, !"_ZTS6Square"}
!1 = !{i64 16, !"_ZTS6Circle"}
!2 = !{i64 72, !"_ZTS7Polygon"}
