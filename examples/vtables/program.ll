; A vtable of words with a type entry, a function that tests a pointer, and a program that tests an address.
@circle = constant [5 x i64] zeroinitializer, !type !0

define i1 @is_circle(ptr %vtable) {
  %answer = call i1 @llvm.type.test(ptr %vtable, metadata !"_ZTS6Circle")
  ret i1 %answer
}

define i1 @main() {
  %answer = call i1 @llvm.type.test(ptr getelementptr (i8, ptr @circle, i64 16), metadata !"_ZTS6Circle")
  ret i1 %answer
}

declare i1 @llvm.type.test(ptr, metadata)

!0 = !{i64 16, !"_ZTS6Circle"}
