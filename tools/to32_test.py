"""The pass of tools/rom32 on small modules: what it makes of each thing that it knows, and each thing that it refuses."""

import to32

# a function of the sample, in which a line is put that the pass is to refuse
BODY = """define internal { ptr, i64 } @"rom_c::body"(ptr %p, i64 %n, i32 %k) {
"begin":
  %cell = alloca ptr, align 8
  %room = alloca [16 x i8], align 8
  %flag = icmp eq ptr %p, null
  store ptr %p, ptr %cell, align 8
  %whole = load { ptr, i64 }, ptr %room, align 8
  %turned = load { i8, ptr }, ptr %room, align 8
  %plain = load { i32, i64 }, ptr %room, align 8
  %at = ptrtoaddr ptr %p to i64
  %q = getelementptr inbounds nuw i8, ptr %p, i64 %n
  %word = load i64, ptr %q, align 1
  store i64 %word, ptr @"other", align 8
  %found = call i64 @llvm.umin.i64(i64 %n, i64 7)
  br i1 %flag, label %more, label %last

more:                                             ; preds = %begin
  br label %last

last:
  %r = phi ptr [ %p, %begin ], [ %q, %more ]
  %one = insertvalue { ptr, i64 } poison, ptr %r, 0
  %two = insertvalue { ptr, i64 } %one, i64 %found, 1
  ret { ptr, i64 } %two
}
"""
SAMPLE = (
    """; a module
source_filename = "rom_c"
target datalayout = "e-m:e-p270:32:32-i64:64-i128:128-n8:16:32:64-S128"
target triple = "x86_64-unknown-linux-gnu"

@"text" = private unnamed_addr constant [3 x i8] c"ptr", align 1
@numbers = private unnamed_addr constant [2 x i32] [i32 1, i32 2], align 4

declare { i64, i64 } @rattle_alloc(i64, i64)
declare { i64, i64 } @rattle_realloc(ptr, i64, i64, i64)
declare void @rattle_dealloc(ptr)
declare i64 @llvm.umin.i64(i64, i64)

"""
    + BODY.replace('  store i64 %word, ptr @"other", align 8\n', "  store i64 %word, ptr %q, align 8\n")
    + """
define i32 @romtool_check_v3(ptr noundef %0, ptr %1, i64 %2) #0 {
  %m = call { i64, i64 } @rattle_alloc(i64 8, i64 8)
  %l = call { i64, i64 } @rattle_realloc(ptr %0, i64 1, i64 8, i64 8)
  call void @rattle_dealloc(ptr %0)
  ret i32 0
}

"""
    + "".join(
        f"define {kind} @romtool_{name}({given}) #0 {{\n  {end}\n}}\n\n"
        for name, kind, given, end in (
            ("lookup_v3", "i64", "ptr noundef %0, ptr %1, i64 %2, i1 noundef %3", "ret i64 0"),
            ("lookup_within_v3", "i64", "ptr %0, ptr %1, i64 %2, i1 %3, ptr %4", "ret i64 0"),
            ("lookup_at_v3", "i64", "ptr %0, i32 %1, ptr %2, i64 %3", "ret i64 0"),
            ("is_node_v3", "zeroext i1", "ptr %0, i32 %1", "ret i1 0"),
            ("stat_v3", "ptr", "ptr %0, ptr %1, ptr %2, i64 %3, i1 %4", "ret ptr %0"),
            ("stat_node_v3", "ptr", "ptr %0, ptr %1, i32 %2", "ret ptr %0"),
            ("readlink_v3", "{ i64, i64 }", "ptr %0, ptr %1, i64 %2", "ret { i64, i64 } poison"),
            ("readlink_node_v3", "{ i64, i64 }", "ptr %0, i32 %1", "ret { i64, i64 } poison"),
            ("open_v3", "i32", "ptr %0, ptr %1, ptr %2, i64 %3", "ret i32 0"),
            ("open_node_v3", "i32", "ptr %0, ptr %1, i32 %2", "ret i32 0"),
            ("reopen_v3", "i32", "ptr %0, ptr %1, i32 %2, i64 %3", "ret i32 0"),
            ("fstat_v3", "ptr", "ptr %0, ptr %1", "ret ptr %0"),
            ("map_v3", "{ i64, i64 }", "ptr %0, i64 %1, i64 %2", "ret { i64, i64 } poison"),
            ("lend_v3", "{ i64, i64 }", "ptr %0, i64 %1", "ret { i64, i64 } poison"),
            ("read_v3", "i32", "ptr %0, ptr %1, i64 %2, ptr %3", "ret i32 0"),
            ("seek_v3", "i32", "ptr %0, i64 %1", "ret i32 0"),
            ("readdir_v3", "i32", "ptr %0, ptr %1", "ret i32 0"),
            ("numbers_v3", "void", "ptr %0, ptr %1", "ret void"),
            ("from_numbers_v3", "i32", "ptr %0, ptr %1, i64 %2, ptr %3", "ret i32 0"),
            ("links_v3", "i64", "ptr %0, i32 %1", "ret i64 0"),
            ("nodes_v3", "i64", "ptr %0, ptr %1, i64 %2", "ret i64 0"),
            ("parent_v3", "i64", "ptr %0, i32 %1", "ret i64 0"),
            ("volume_v3", "{ i64, i64 }", "ptr %0", "ret { i64, i64 } poison"),
            ("read_at_v3", "i32", "ptr %0, i64 %1, ptr %2, i64 %3, ptr %4", "ret i32 0"),
            ("telldir_v3", "i64", "ptr %0", "ret i64 0"),
            ("seekdir_v3", "i32", "ptr %0, i64 %1", "ret i32 0"),
            ("library_version", "i32", "", "ret i32 0"),
        )
    )
    + "attributes #0 = { nounwind }\n"
)
# what has to be in the module after the pass, and what may not be
MADE = (
    "%cell = alloca i64, align 8",
    "%pair.0.a = load ptr, ptr %room, align 8\n  %pair.0.at = getelementptr i8, ptr %room, i64 8\n  %pair.0.b = load i64",
    "%pair.1.a = load i8, ptr %room, align 8\n  %pair.1.at = getelementptr i8, ptr %room, i64 8\n  %pair.1.b = load ptr",
    "%plain = load { i32, i64 }, ptr %room, align 8",
    "%at = zext i32 %address.1 to i64",
    "define void @rom32_lookup_v3(ptr %answer, ptr %0, ptr %1, i64 %2, i1 %3) nounwind {",
    "define void @rom32_stat_v3(ptr %0, ptr %1, ptr %2, i64 %3, i1 %4) nounwind {",
    "define void @rom32_stat_node_v3(ptr %0, ptr %1, i32 %2) nounwind {",
    "define void @rom32_lookup_at_v3(ptr %answer, ptr %0, i32 %1, ptr %2, i64 %3) nounwind {",
    "define zeroext i1 @romtool_is_node_v3(",
    "define i64 @romtool_links_v3(ptr %0, i32 %1) #0 {",
    "define i64 @romtool_nodes_v3(ptr %0, ptr %1, i64 %2) #0 {",
    "define void @romtool_numbers_v3(ptr %0, ptr %1) #0 {",
    "define void @rom32_parent_v3(ptr %answer, ptr %0, i32 %1) nounwind {",
    "define i32 @romtool_library_version() #0 {",
    "define internal i64 @rom32.lookup_v3(",
    "define i32 @romtool_check_v3(",
    "call { i64, i64 } @rom32.alloc(i64 8, i64 8)",
    "declare void @rattle_alloc(ptr sret([16 x i8]) align 8, i64, i64) nounwind",
    "call void @rattle_dealloc(ptr %0)",
    "%both = load i64, ptr %cell, align 8\n  %at = and i64 %both, 4294967295\n",
)
# the search that --small replaces
SEARCH = """define internal { i8, i64 } @"memchr::bytes::memchr"(i8 noundef %a0, ptr noundef %a1, i64 noundef %a2) #3 {
  ret { i8, i64 } poison
}

"""
GONE = ("target triple", "target datalayout", "alloca ptr", "ptrtoaddr ptr %p to i64", "load { ptr, i64 }")
COUNTS = {"triple and layout": 2, "cells": 1, "pairs": 2, "addresses": 1, "heap": 2}
# lines of a function that the pass refuses
LINES = (
    "%x = inttoptr i64 %n to ptr",
    "%x = ptrtoint ptr %p to i64",
    "%x = ptrtoaddr ptr %p to i128",
    "%x = ptrtoaddr <2 x ptr> %v to <2 x i64>",
    "%x = addrspacecast ptr %p to ptr addrspace(1)",
    "store { ptr, i64 } %whole, ptr %room, align 8",
    "store ptr inttoptr (i64 8 to ptr), ptr %cell, align 8",
    "store ptr getelementptr (i8, ptr @numbers, i64 4), ptr %cell, align 8",
    "store <2 x ptr> %v, ptr %room, align 8",
    "store [2 x ptr] %v, ptr %room, align 8",
    "store volatile ptr %p, ptr %cell, align 8",
    "store atomic i64 %n, ptr %cell seq_cst, align 8",
    "%x = load { ptr, ptr, i64 }, ptr %room, align 8",
    "%x = load { i64, { ptr, i64 } }, ptr %room, align 8",
    "%x = load { ptr, i128 }, ptr %room, align 8",
    "%x = load <{ ptr, i64 }>, ptr %room, align 8",
    "%x = load [2 x ptr], ptr %room, align 8",
    "%x = load <2 x ptr>, ptr %room, align 8",
    "%x = load { ptr, i64 }, ptr %room, align 8, !tbaa !4",
    "%x = load volatile ptr, ptr %cell, align 8",
    "%x = load i64, ptr inttoptr (i64 64 to ptr), align 8",
    "%x = alloca { ptr, i64 }, align 8",
    "%x = alloca [4 x ptr], align 8",
    "%x = alloca ptr, align 16",
    "%x = alloca ptr, i64 4, align 8",
    "%x = getelementptr { ptr, i64 }, ptr %p, i64 1",
    "%x = getelementptr ptr, ptr %p, i64 1",
    "%x = getelementptr i8, <2 x ptr> %v, i64 1",
    "%x = getelementptr i64, ptr %p, i64 1",
    "%x = bitcast ptr %p to ptr",
    "%x = freeze <2 x ptr> %v",
    "%x = cmpxchg ptr %cell, i64 0, i64 1 seq_cst seq_cst, align 8",
    "%x = atomicrmw add ptr %cell, i64 1 seq_cst, align 8",
    "fence seq_cst",
    "%x = call i64 %p(i64 1)",
    "%x = call ptr @llvm.ptrmask.p0.i64(ptr %p, i64 -16)",
    "%x = call i64 @foreign(ptr %p)",
    'call void asm "nop", ""()',
    "%x = va_arg ptr %p, i64",
    "%x = insertelement <2 x ptr> poison, ptr %p, i32 0",
)
# lines outside functions that the pass refuses
TOPS = (
    "@table = private constant [2 x ptr] [ptr @numbers, ptr @numbers], align 8",
    "@place = private constant i64 ptrtoint (ptr @numbers to i64), align 8",
    "@place = private constant { ptr, i64 } { ptr @numbers, i64 1 }, align 8",
    "@cell = internal global ptr null, align 8",
    "@cell = internal global i64 0, align 8",
    "@cell = external global i64",
    "%kind = type { ptr, i64 }",
    "declare i64 @foreign(ptr)",
    "declare ptr @llvm.ptrmask.p0.i64(ptr, i64)",
    'module asm "nop"',
    "declare void @taken(ptr byval({ ptr, i64 }))",
)
# what the sample may not lack, have otherwise or have besides
WITHOUT = (
    ("define i32 @romtool_seek_v3(", "define i32 @romtool_sought_v3("),
    ("define i64 @romtool_lookup_v3(", "define i128 @romtool_lookup_v3("),
    ("define { i64, i64 } @romtool_map_v3(", "define { ptr, i64 } @romtool_map_v3("),
    ("declare { i64, i64 } @rattle_alloc(i64, i64)\n", "declare { i64, i64 } @rattle_alloc(i64)\n"),
    ("declare { i64, i64 } @rattle_realloc(ptr, i64, i64, i64)\n", "declare ptr @rattle_realloc(ptr, i64, i64, i64)\n"),
    ("@romtool_fstat_v3(ptr %0, ptr %1)", "@romtool_fstat_v3(ptr sret({ ptr, i64 }) align 8 %0, ptr %1)"),
    ("define ptr @romtool_fstat_v3(", "define void @romtool_fstat_v3("),
    ("define ptr @romtool_fstat_v3(", "define i32 @romtool_further(ptr %0) #0 {\n  ret i32 0\n}\n\ndefine ptr @romtool_fstat_v3("),
    ("define i64 @romtool_lookup_v3(", "define ptr @romtool_lookup_v3("),
    ("define i64 @romtool_links_v3(", "define ptr @romtool_links_v3("),
    ("define void @romtool_numbers_v3(", "define ptr @romtool_numbers_v3("),
)


def is_refused(text, small=False):
    """Returns whether the pass refuses a module."""
    try:
        to32.to32(text, small)
    except to32.Refused:
        return True
    return False


def main():
    wrong = []
    text, made = to32.to32(SAMPLE)
    wrong += [f"is not made: {it}" for it in MADE if it not in text]
    wrong += [f"is left: {it}" for it in GONE if it in text]
    wrong += [f"{it} was made {made.get(it)} times, not {many}" for it, many in COUNTS.items() if made.get(it) != many]
    before = "  %found = call i64 @llvm.umin"
    for line in LINES:
        if not is_refused(SAMPLE.replace(before, f"  {line}\n{before}", 1)):
            wrong.append(f"is not refused: {line}")
    for line in TOPS:
        if not is_refused(SAMPLE.replace("declare void @rattle_dealloc", f"{line}\ndeclare void @rattle_dealloc", 1)):
            wrong.append(f"is not refused: {line}")
    for old, new in WITHOUT:
        assert SAMPLE.count(old) >= 1, old
        if not is_refused(SAMPLE.replace(old, new, 1)):
            wrong.append(f"is not refused: {new}")
    if not is_refused(SAMPLE, small=True):
        wrong.append("a module without a search is not refused")
    small = to32.to32(SAMPLE.replace("define i32 @romtool_check_v3", SEARCH + "define i32 @romtool_check_v3"), small=True)[0]
    if "ret { i8, i64 } poison" in small or small.count("phi i64 [ 0, %start ]") != 1:
        wrong.append("the search is not replaced")
    for it in wrong:
        print(f"tools/rom32 --self-test: {it}")
    tried = 2 + len(MADE) + len(GONE) + len(COUNTS) + len(LINES) + len(TOPS) + len(WITHOUT)
    print(f"tools/rom32 --self-test: {tried - len(wrong)} passed, {len(wrong)} failed")
    return 1 if wrong else 0
