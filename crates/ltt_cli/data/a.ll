@a = constant [4 x i64] zeroinitializer, !type !0
define i1 @t(ptr %p) {
  %r = call i1 @llvm.type.test(ptr %p, metadata !"T")
  ret i1 %r
}
declare i1 @llvm.type.test(ptr, metadata)
!0 = !{i64 16, !"T"}
