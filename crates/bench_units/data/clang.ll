; ModuleID = 'shapes.cpp'
source_filename = "shapes.cpp"
target datalayout = "e-m:e-p270:32:32-p271:32:32-p272:64:64-i64:64-i128:128-f80:128-n8:16:32:64-S128"
target triple = "x86_64-unknown-linux-gnu"
%class.Shape = type { ptr }
%class.Square = type { %class.Shape, i32, [4 x i8] }
$_ZTV5Shape = comdat any
@_ZTV5Shape = linkonce_odr hidden unnamed_addr constant { [4 x ptr] } { [4 x ptr] [ptr null, ptr null, ptr @_ZN5Shape4areaEv, ptr @_ZN5Shape4nameEv] }, comdat, align 8, !type !0, !type !1, !vcall_visibility !2
@_ZTV6Square = hidden unnamed_addr constant { [4 x ptr] } { [4 x ptr] [ptr null, ptr null, ptr @_ZN6Square4areaEv, ptr @_ZN5Shape4nameEv] }, align 8, !type !0, !type !3, !vcall_visibility !2
@.str = private unnamed_addr constant [7 x i8] c"square\00", align 1
@one = hidden global %class.Square { %class.Shape { ptr getelementptr inbounds inrange(-16, 16) ({ [4 x ptr] }, ptr @_ZTV6Square, i32 0, i32 0, i32 2) }, i32 3, [4 x i8] zeroinitializer }, align 8
@count = internal unnamed_addr global i64 0, align 8

; Function Attrs: mustprogress nofree norecurse nosync nounwind willreturn memory(argmem: read) uwtable
define hidden noundef i32 @_ZN6Square4areaEv(ptr nocapture noundef nonnull readonly align 8 dereferenceable(16) %this) unnamed_addr #0 align 2 {
entry:
  %side = getelementptr inbounds %class.Square, ptr %this, i64 0, i32 1
  %0 = load i32, ptr %side, align 8, !tbaa !5
  %mul = mul nsw i32 %0, %0
  ret i32 %mul
}

; Function Attrs: mustprogress nounwind uwtable
define hidden noundef i64 @_Z5totalPP5Shapem(ptr nocapture noundef readonly %shapes, i64 noundef %n) local_unnamed_addr #1 {
entry:
  %cmp.not = icmp eq i64 %n, 0
  br i1 %cmp.not, label %for.end, label %for.body

for.body:                                         ; preds = %for.body, %entry
  %i.07 = phi i64 [ %inc, %for.body ], [ 0, %entry ]
  %sum.06 = phi i64 [ %add, %for.body ], [ 0, %entry ]
  %arrayidx = getelementptr inbounds ptr, ptr %shapes, i64 %i.07
  %0 = load ptr, ptr %arrayidx, align 8, !tbaa !8
  %vtable = load ptr, ptr %0, align 8, !tbaa !10
  %1 = tail call i1 @llvm.type.test(ptr %vtable, metadata !"_ZTS5Shape")
  tail call void @llvm.assume(i1 %1)
  %2 = load ptr, ptr %vtable, align 8
  %call = tail call noundef i32 %2(ptr noundef nonnull align 8 dereferenceable(8) %0)
  %conv = sext i32 %call to i64
  %add = add nsw i64 %sum.06, %conv
  %inc = add nuw i64 %i.07, 1
  %exitcond.not = icmp eq i64 %inc, %n
  br i1 %exitcond.not, label %for.end, label %for.body, !llvm.loop !12

for.end:                                          ; preds = %for.body, %entry
  %sum.0.lcssa = phi i64 [ 0, %entry ], [ %add, %for.body ]
  %3 = load i64, ptr @count, align 8, !tbaa !14
  %4 = add i64 %3, 1
  store i64 %4, ptr @count, align 8, !tbaa !14
  ret i64 %sum.0.lcssa
}

; Function Attrs: mustprogress nounwind uwtable
define hidden noundef i32 @_Z4kindi(i32 noundef %k) local_unnamed_addr #1 {
entry:
  switch i32 %k, label %sw.default [
    i32 0, label %return
    i32 1, label %sw.one
    i32 7, label %sw.seven
  ]

sw.one:                                           ; preds = %entry
  %call = tail call i32 @_Z4helpi(i32 noundef %k) #3
  br label %return

sw.seven:                                         ; preds = %entry
  %call1 = tail call fastcc noundef i32 @_ZL5scalei(i32 noundef 7), !range !15
  %cmp = icmp ugt i32 %call1, 100
  %spec.select = select i1 %cmp, i32 100, i32 %call1
  br label %return

sw.default:                                       ; preds = %entry
  tail call void @llvm.trap()
  unreachable

return:                                           ; preds = %sw.seven, %sw.one, %entry
  %retval = phi i32 [ %call, %sw.one ], [ %spec.select, %sw.seven ], [ 4, %entry ]
  ret i32 %retval
}

declare i1 @llvm.type.test(ptr, metadata) #2
declare void @llvm.assume(i1 noundef) #2
declare void @llvm.trap() #4
declare i32 @_Z4helpi(i32 noundef) local_unnamed_addr #3

attributes #0 = { mustprogress nofree norecurse nosync nounwind willreturn memory(argmem: read) uwtable "min-legal-vector-width"="0" "no-trapping-math"="true" "target-cpu"="x86-64" }
attributes #1 = { mustprogress nounwind uwtable "min-legal-vector-width"="0" "no-trapping-math"="true" "target-cpu"="x86-64" }
!llvm.module.flags = !{!16, !17}
!llvm.ident = !{!18}
!0 = !{i64 16, !"_ZTS5Shape"}
!1 = !{i64 16, !"_ZTSM5ShapeFivE.virtual"}
!2 = !{i64 1}
!3 = !{i64 16, !"_ZTS6Square"}
!5 = !{!6, !7, i64 8}
!6 = !{!"_ZTS6Square", !19, i64 0, !7, i64 8}
!12 = distinct !{!12, !13}
!13 = !{!"llvm.loop.mustprogress"}
!15 = !{i32 0, i32 701}
!16 = !{i32 1, !"wchar_size", i32 4}
!17 = !{i32 8, !"PIC Level", i32 2}
!18 = !{!"clang version 19.1.7"}
