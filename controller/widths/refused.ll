; Each form that means something else where pointers have 32 bits, in a function that is named for it.
target datalayout = "e-m:e-p270:32:32-p271:32:32-p272:64:64-i64:64-i128:128-f80:128-n8:16:32:64-S128"
target triple = "x86_64-unknown-linux-gnu"

%slice = type { ptr, i64 }

@list_of_pointers = constant [2 x ptr] zeroinitializer
@slice_of_list = constant { ptr, i64 } { ptr @list_of_pointers, i64 2 }

define i64 @number_of_pointer(ptr %a) {
  %number = ptrtoint ptr %a to i64
  ret i64 %number
}

define i64 @address_of_pointer(ptr %a) {
  %address = ptrtoaddr ptr %a to i64
  ret i64 %address
}

define ptr @pointer_of_number(i64 %number) {
  %a = inttoptr i64 %number to ptr
  ret ptr %a
}

define void @number_in_operand(ptr %a) {
  store i64 ptrtoint (ptr @list_of_pointers to i64), ptr %a, align 8
  ret void
}

define ptr @address_by_pointers(ptr %a) {
  %next = getelementptr ptr, ptr %a, i64 1
  ret ptr %next
}

define ptr @address_by_field(ptr %a) {
  %length = getelementptr inbounds nuw { ptr, i64 }, ptr %a, i32 0, i32 1
  ret ptr %length
}

define i8 @address_in_operand() {
  %byte = load i8, ptr getelementptr inbounds ({ ptr, i64 }, ptr @slice_of_list, i64 0, i32 1), align 1
  ret i8 %byte
}

define ptr @address_beyond_address() {
  %next = getelementptr i8, ptr getelementptr inbounds ({ ptr, i64 }, ptr @slice_of_list, i64 0, i32 1), i64 8
  ret ptr %next
}

define { i8, ptr } @load_of_option(ptr %a) {
  %option = load { i8, ptr }, ptr %a, align 8
  ret { i8, ptr } %option
}

define { ptr, i64 } @"load of slice {}"(ptr %"a ptr") {
  %slice = load { ptr, i64 }, ptr %"a ptr", align 8
  ret { ptr, i64 } %slice
}

define { i8, { i64, ptr } } @load_of_nested(ptr %a) {
  %nested = load { i8, { i64, ptr } }, ptr %a, align 8
  ret { i8, { i64, ptr } } %nested
}

define [2 x ptr] @load_of_array(ptr %a) {
  %array = load [2 x ptr], ptr %a, align 8
  ret [2 x ptr] %array
}

define <2 x ptr> @load_of_vector(ptr %a) {
  %vector = load <2 x ptr>, ptr %a, align 16
  ret <2 x ptr> %vector
}

define void @store_of_slice(ptr %a, { ptr, i64 } %slice) {
  store { ptr, i64 } %slice, ptr %a, align 8
  ret void
}

define void @store_of_constant(ptr %a) {
  store { ptr, ptr } zeroinitializer, ptr %a, align 8
  ret void
}

define void @slot_of_slice() {
  %slot = alloca { ptr, i64 }, align 8
  ret void
}

define void @slot_of_array() {
  %slot = alloca [2 x ptr], align 8
  ret void
}

define void @slot_of_pointers() {
  %slot = alloca ptr, i64 2, align 8
  ret void
}

define void @slot_filled() {
  %slot = alloca ptr, align 8
  call void @llvm.memset.p0.i64(ptr %slot, i8 0, i64 8, i1 false)
  ret void
}

define void @slot_copied(ptr %a) {
  %slot = alloca ptr, align 8
  call void @llvm.memmove.p0.p0.i64(ptr %a, ptr align 8 %slot, i64 8, i1 false)
  ret void
}

define i8 @slot_in_bytes() {
  %slot = alloca ptr, align 8
  %upper = getelementptr i8, ptr %slot, i64 4
  %byte = load i8, ptr %upper, align 1
  ret i8 %byte
}

define i64 @slot_as_number() {
  %"a slot" = alloca ptr, align 8
  %number = load i64, ptr %"a slot", align 8
  ret i64 %number
}

define void @slot_lent() {
  %slot = alloca ptr, align 8
  call void @slot_copied(ptr %slot)
  ret void
}

define void @slot_kept(ptr %a) {
  %slot = alloca ptr, align 8
  store ptr %slot, ptr %a, align 8
  ret void
}

define void @argument_in_memory(ptr byval({ ptr, ptr }) align 8 %pair) {
  ret void
}

define void @result_in_memory(ptr sret([2 x ptr]) %pair) {
  ret void
}

declare void @argument_declared(ptr byref({ ptr, ptr }))

declare void @llvm.memset.p0.i64(ptr writeonly captures(none), i8, i64, i1 immarg)

declare void @llvm.memmove.p0.p0.i64(ptr writeonly captures(none), ptr readonly captures(none), i64, i1 immarg)
