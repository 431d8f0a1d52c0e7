; ModuleID = 'a.cpp'
source_filename = "a.cpp"
target datalayout = "e-m:e-p270:32:32-p271:32:32-p272:64:64-i64:64-i128:128-f80:128-n8:16:32:64-S128"
target triple = "x86_64-unknown-linux-gnu"
%class.A = type { ptr }
@_ZTV1A = hidden unnamed_addr constant { [3 x ptr] } { [3 x ptr] [ptr null, ptr null, ptr @_ZN1A1fEv] }, align 8, !type !0, !type !1, !vcall_visibility !2
@a = hidden global %class.A { ptr getelementptr inbounds inrange(-16, 8) ({ [3 x ptr] }, ptr @_ZTV1A, i32 0, i32 0, i32 2) }, align 8
; Function Attrs: mustprogress nounwind
define hidden noundef i32 @_ZN1A1fEv(ptr nocapture noundef nonnull readnone align 8 dereferenceable(8) %this) unnamed_addr #0 align 2 {
entry:
  ret i32 7
}
define hidden noundef i32 @_Z4callP1A(ptr noundef %a) local_unnamed_addr #0 {
entry:
  %vtable = load ptr, ptr %a, align 8, !tbaa !5
  %0 = tail call i1 @llvm.type.test(ptr %vtable, metadata !"_ZTS1A")
  tail call void @llvm.assume(i1 %0)
  %1 = load ptr, ptr %vtable, align 8
  %call = tail call noundef i32 %1(ptr noundef nonnull align 8 dereferenceable(8) %a)
  ret i32 %call
}
define hidden noundef i32 @main() local_unnamed_addr #0 {
entry:
  %r = tail call noundef i32 @_Z4callP1A(ptr noundef nonnull @a)
  ret i32 %r
}
declare i1 @llvm.type.test(ptr, metadata) #1
declare void @llvm.assume(i1 noundef) #1
attributes #0 = { mustprogress nounwind "target-cpu"="x86-64" }
attributes #1 = { nounwind }
!llvm.module.flags = !{!3}
!0 = !{i64 16, !"_ZTS1A"}
!1 = !{i64 16, !"_ZTSM1AFivE.virtual"}
!2 = !{i64 1}
!3 = !{i32 1, !"wchar_size", i32 4}
!5 = !{!6, !6, i64 0}
!6 = !{!"vtable pointer", !7, i64 0}
!7 = !{!"Simple C++ TBAA"}
