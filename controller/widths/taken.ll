; What is the same for pointers of either width: bytes that are counted, a pointer by itself, and aggregates in registers.
target datalayout = "e-m:e-p270:32:32-p271:32:32-p272:64:64-i64:64-i128:128-f80:128-n8:16:32:64-S128"
target triple = "x86_64-unknown-linux-gnu"

@digits = constant [4 x i8] c"0123"
@ptr = constant { [2 x i64], i8 } zeroinitializer

define { ptr, i64 } @slice_made(ptr %a, i64 %length) {
  %begun = insertvalue { ptr, i64 } poison, ptr %a, 0
  %slice = insertvalue { ptr, i64 } %begun, i64 %length, 1
  ret { ptr, i64 } %slice
}

define i64 @slice_in_bytes(ptr %a, i64 %length) {
  %slot = alloca [16 x i8], align 8
  %copy = alloca [16 x i8], align 8
  call void @llvm.memset.p0.i64(ptr %slot, i8 0, i64 16, i1 false)
  %slice = call { ptr, i64 } @slice_made(ptr %a, i64 %length)
  %start = extractvalue { ptr, i64 } %slice, 0
  %count = extractvalue { ptr, i64 } %slice, 1
  store ptr %start, ptr %slot, align 8
  %second = getelementptr inbounds nuw i8, ptr %slot, i64 8
  store i64 %count, ptr %second, align 8
  call void @llvm.memmove.p0.p0.i64(ptr %copy, ptr %slot, i64 16, i1 false)
  %first = load ptr, ptr %copy, align 8
  %copied = getelementptr i8, ptr %copy, i64 8
  %read = load i64, ptr %copied, align 8
  ret i64 %read
}

; a struct of a slice and numbers: made where its caller has a place for it, and copied whole by a function that is lent it
define void @table_made(ptr %place, ptr %a, i64 %length, i8 %last) {
  %table = alloca [24 x i8], align 8
  %slice = alloca [16 x i8], align 8
  store ptr %a, ptr %slice, align 8
  %length_at = getelementptr i8, ptr %slice, i64 8
  store i64 %length, ptr %length_at, align 8
  call void @llvm.memmove.p0.p0.i64(ptr %table, ptr %slice, i64 16, i1 false)
  %last_at = getelementptr i8, ptr %table, i64 16
  store i8 %last, ptr %last_at, align 1
  call void @llvm.memmove.p0.p0.i64(ptr %place, ptr %table, i64 24, i1 false)
  ret void
}

define i8 @table_lent(ptr %table) {
  %own = alloca [24 x i8], align 8
  call void @llvm.memmove.p0.p0.i64(ptr %own, ptr %table, i64 24, i1 false)
  %start = load ptr, ptr %own, align 8
  %byte = load i8, ptr %start, align 1
  ret i8 %byte
}

define { ptr, i64 } @slice_chosen(i1 %which, { ptr, i64 } %one, { ptr, i64 } %other) {
  %chosen = select i1 %which, { ptr, i64 } %one, { ptr, i64 } %other
  ret { ptr, i64 } %chosen
}

define i8 @pointer_by_itself(ptr %a) {
  %slot = alloca ptr, align 8
  %other = alloca ptr, align 8
  store ptr null, ptr %slot, align 8
  store ptr %a, ptr %slot, align 8
  %kept = load ptr, ptr %slot, align 8, !noundef !0
  store ptr %kept, ptr %other, align 8
  %null = icmp eq ptr %kept, null
  %byte = load i8, ptr %kept, align 1
  ret i8 %byte
}

; the slot of the function above is none here
define void @pointer_lent(ptr %slot) {
  %byte = call i8 @pointer_by_itself(ptr %slot)
  ret void
}

define { i8, i8 } @"a load { ptr } by getelementptr and ptrtoint "(ptr %"a ptr") {
  %pair = load { i8, i8 }, ptr %"a ptr", align 1
  store { i64, [2 x i8] } zeroinitializer, ptr %"a ptr", align 8
  ret { i8, i8 } %pair
}

define void @bytes_in_memory(ptr byval([16 x i8]) align 8 %bytes, ptr %a) {
  ret void
}

define i8 @ptrtoint_by_name() {
  %digit = load i8, ptr @digits, align 1
  ret i8 %digit
}

declare void @llvm.memset.p0.i64(ptr writeonly captures(none), i8, i64, i1 immarg)

declare void @llvm.memmove.p0.p0.i64(ptr writeonly captures(none), ptr readonly captures(none), i64, i1 immarg)

!0 = !{}
