; ModuleID = 'shapes.cpp'
source_filename = "shapes.cpp"
target datalayout = "e-m:e-p270:32:32-p271:32:32-p272:64:64-i64:64-f80:128-n8:16:32:64-S128"
target triple = "x86_64-pc-linux-gnu"

%struct.Square = type { %struct.Shape, i64 }
%struct.Shape = type { ptr }
%struct.Circle = type { %struct.Shape, i64 }

$_ZNK6Square4areaEv = comdat any

$_ZNK5Shape11has_cornersEv = comdat any

$_ZNK6Circle4areaEv = comdat any

$_ZNK6Circle11has_cornersEv = comdat any

$_ZTV6Square = comdat any

$_ZTV6Circle = comdat any

@_ZL6shapes = internal constant [3 x ptr] [ptr @_ZL5small, ptr @_ZL5round, ptr @_ZL5large], align 16
@_ZTV6Square = linkonce_odr hidden unnamed_addr constant { [4 x ptr] } { [4 x ptr] [ptr null, ptr null, ptr @_ZNK6Square4areaEv, ptr @_ZNK5Shape11has_cornersEv] }, comdat, align 8, !type !0, !type !1, !type !2, !type !3, !type !4, !type !5, !vcall_visibility !6
@_ZL5small = internal global { ptr, i64 } { ptr getelementptr inbounds ({ [4 x ptr] }, ptr @_ZTV6Square, i32 0, inrange i32 0, i32 2), i64 1 }, align 8
@_ZTV6Circle = linkonce_odr hidden unnamed_addr constant { [4 x ptr] } { [4 x ptr] [ptr null, ptr null, ptr @_ZNK6Circle4areaEv, ptr @_ZNK6Circle11has_cornersEv] }, comdat, align 8, !type !0, !type !1, !type !2, !type !7, !type !8, !type !9, !vcall_visibility !6
@_ZL5round = internal global { ptr, i64 } { ptr getelementptr inbounds ({ [4 x ptr] }, ptr @_ZTV6Circle, i32 0, inrange i32 0, i32 2), i64 2 }, align 8
@_ZL5large = internal global { ptr, i64 } { ptr getelementptr inbounds ({ [4 x ptr] }, ptr @_ZTV6Square, i32 0, inrange i32 0, i32 2), i64 4 }, align 8

; Function Attrs: mustprogress noinline nounwind uwtable
define hidden noundef i64 @_Z5totalPKPK5Shapej(ptr nocapture noundef readonly %0, i32 noundef %1) local_unnamed_addr #0 {
  %3 = icmp eq i32 %1, 0
  br i1 %3, label %6, label %4

4:                                                ; preds = %2
  %5 = zext i32 %1 to i64
  br label %8

6:                                                ; preds = %25, %2
  %7 = phi i64 [ 0, %2 ], [ %26, %25 ]
  ret i64 %7

8:                                                ; preds = %4, %25
  %9 = phi i64 [ 0, %4 ], [ %27, %25 ]
  %10 = phi i64 [ 0, %4 ], [ %26, %25 ]
  %11 = getelementptr inbounds ptr, ptr %0, i64 %9
  %12 = load ptr, ptr %11, align 8, !tbaa !16
  %13 = load ptr, ptr %12, align 8, !tbaa !20
  %14 = tail call i1 @llvm.type.test(ptr %13, metadata !"_ZTS5Shape")
  tail call void @llvm.assume(i1 %14)
  %15 = getelementptr inbounds ptr, ptr %13, i64 1
  %16 = load ptr, ptr %15, align 8
  %17 = tail call noundef zeroext i1 %16(ptr noundef nonnull align 8 dereferenceable(8) %12) #5
  br i1 %17, label %18, label %25

18:                                               ; preds = %8
  %19 = load ptr, ptr %11, align 8, !tbaa !16
  %20 = load ptr, ptr %19, align 8, !tbaa !20
  %21 = tail call i1 @llvm.type.test(ptr %20, metadata !"_ZTS5Shape")
  tail call void @llvm.assume(i1 %21)
  %22 = load ptr, ptr %20, align 8
  %23 = tail call noundef i64 %22(ptr noundef nonnull align 8 dereferenceable(8) %19) #5
  %24 = add nsw i64 %23, %10
  br label %25

25:                                               ; preds = %8, %18
  %26 = phi i64 [ %24, %18 ], [ %10, %8 ]
  %27 = add nuw nsw i64 %9, 1
  %28 = icmp eq i64 %27, %5
  br i1 %28, label %6, label %8, !llvm.loop !22
}

; Function Attrs: mustprogress nofree nosync nounwind readnone speculatable willreturn
declare i1 @llvm.type.test(ptr, metadata) #1

; Function Attrs: inaccessiblememonly mustprogress nofree nosync nounwind willreturn
declare void @llvm.assume(i1 noundef) #2

; Function Attrs: mustprogress norecurse nounwind uwtable
define hidden noundef i32 @main() local_unnamed_addr #3 {
  %1 = tail call noundef i64 @_Z5totalPKPK5Shapej(ptr noundef getelementptr inbounds ([3 x ptr], ptr @_ZL6shapes, i64 0, i64 0), i32 noundef 3)
  %2 = trunc i64 %1 to i32
  ret i32 %2
}

; Function Attrs: mustprogress nounwind uwtable
define linkonce_odr hidden noundef i64 @_ZNK6Square4areaEv(ptr noundef nonnull align 8 dereferenceable(16) %0) unnamed_addr #4 comdat align 2 {
  %2 = getelementptr inbounds %struct.Square, ptr %0, i64 0, i32 1
  %3 = load i64, ptr %2, align 8, !tbaa !24
  %4 = mul nsw i64 %3, 10
  %5 = mul nsw i64 %4, %3
  ret i64 %5
}

; Function Attrs: mustprogress nounwind uwtable
define linkonce_odr hidden noundef zeroext i1 @_ZNK5Shape11has_cornersEv(ptr noundef nonnull align 8 dereferenceable(8) %0) unnamed_addr #4 comdat align 2 {
  ret i1 true
}

; Function Attrs: mustprogress nounwind uwtable
define linkonce_odr hidden noundef i64 @_ZNK6Circle4areaEv(ptr noundef nonnull align 8 dereferenceable(16) %0) unnamed_addr #4 comdat align 2 {
  %2 = getelementptr inbounds %struct.Circle, ptr %0, i64 0, i32 1
  %3 = load i64, ptr %2, align 8, !tbaa !27
  %4 = mul nsw i64 %3, 31
  %5 = mul nsw i64 %4, %3
  ret i64 %5
}

; Function Attrs: mustprogress nounwind uwtable
define linkonce_odr hidden noundef zeroext i1 @_ZNK6Circle11has_cornersEv(ptr noundef nonnull align 8 dereferenceable(16) %0) unnamed_addr #4 comdat align 2 {
  ret i1 false
}

attributes #0 = { mustprogress noinline nounwind uwtable "frame-pointer"="none" "min-legal-vector-width"="0" "no-trapping-math"="true" "stack-protector-buffer-size"="8" "target-cpu"="x86-64" "target-features"="+cx8,+fxsr,+mmx,+sse,+sse2,+x87" "tune-cpu"="generic" }
attributes #1 = { mustprogress nofree nosync nounwind readnone speculatable willreturn }
attributes #2 = { inaccessiblememonly mustprogress nofree nosync nounwind willreturn }
attributes #3 = { mustprogress norecurse nounwind uwtable "frame-pointer"="none" "min-legal-vector-width"="0" "no-trapping-math"="true" "stack-protector-buffer-size"="8" "target-cpu"="x86-64" "target-features"="+cx8,+fxsr,+mmx,+sse,+sse2,+x87" "tune-cpu"="generic" }
attributes #4 = { mustprogress nounwind uwtable "frame-pointer"="none" "min-legal-vector-width"="0" "no-trapping-math"="true" "stack-protector-buffer-size"="8" "target-cpu"="x86-64" "target-features"="+cx8,+fxsr,+mmx,+sse,+sse2,+x87" "tune-cpu"="generic" }
attributes #5 = { nounwind }

!llvm.module.flags = !{!10, !11, !12, !13, !14}
!llvm.ident = !{!15}

!0 = !{i64 16, !"_ZTS5Shape"}
!1 = !{i64 16, !"_ZTSM5ShapeKFlvE.virtual"}
!2 = !{i64 24, !"_ZTSM5ShapeKFbvE.virtual"}
!3 = !{i64 16, !"_ZTS6Square"}
!4 = !{i64 16, !"_ZTSM6SquareKFlvE.virtual"}
!5 = !{i64 24, !"_ZTSM6SquareKFbvE.virtual"}
!6 = !{i64 1}
!7 = !{i64 16, !"_ZTS6Circle"}
!8 = !{i64 16, !"_ZTSM6CircleKFlvE.virtual"}
!9 = !{i64 24, !"_ZTSM6CircleKFbvE.virtual"}
!10 = !{i32 1, !"wchar_size", i32 4}
!11 = !{i32 1, !"Virtual Function Elim", i32 0}
!12 = !{i32 7, !"PIC Level", i32 2}
!13 = !{i32 7, !"PIE Level", i32 2}
!14 = !{i32 7, !"uwtable", i32 1}
!15 = !{!"Debian clang version 14.0.6"}
!16 = !{!17, !17, i64 0}
!17 = !{!"any pointer", !18, i64 0}
!18 = !{!"omnipotent char", !19, i64 0}
!19 = !{!"Simple C++ TBAA"}
!20 = !{!21, !21, i64 0}
!21 = !{!"vtable pointer", !19, i64 0}
!22 = distinct !{!22, !23}
!23 = !{!"llvm.loop.mustprogress"}
!24 = !{!25, !26, i64 8}
!25 = !{!"_ZTS6Square", !26, i64 8}
!26 = !{!"long", !18, i64 0}
!27 = !{!28, !26, i64 8}
!28 = !{!"_ZTS6Circle", !26, i64 8}
