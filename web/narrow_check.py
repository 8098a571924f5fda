"""Whether narrow.py keeps what lies in memory, line by line, and refuses what it doesn't know.

    python3 web/narrow_check.py

The last line is 'N passed, M failed'."""

import narrow

# Lines of LLVM, and the same with addresses of 32 bits.
CASES = (
    ("  %v = load ptr, ptr %p, align 8, !noundef !1", "  %v = load ptr, ptr %p, align 8, !noundef !1"),
    ("  store ptr %v, ptr %p, align 8", "  store ptr %v, ptr %p, align 8\n  %narrow.0 = getelementptr i8, ptr %p, i32 4\n  store i32 0, ptr %narrow.0, align 4"),
    ("  %v = load ptr, ptr %p, align 1", "  %v = load ptr, ptr %p, align 1"),
    ("  store ptr @s, ptr %p, align 1", "  store ptr @s, ptr %p, align 1\n  %narrow.0 = getelementptr i8, ptr %p, i32 4\n  store i32 0, ptr %narrow.0, align 1"),
    ("  store i64 %v, ptr %p, align 8", "  store i64 %v, ptr %p, align 8"),
    ("  store { i64, i64 } %v, ptr %p, align 8", "  store { i64, i64 } %v, ptr %p, align 8"),
    ("  %v = load { i8, i64 }, ptr %p, align 8", "  %v = load { i8, i64 }, ptr %p, align 8"),
    ("  %v = load <16 x i8>, ptr %p, align 1", "  %v = load <16 x i8>, ptr %p, align 1"),
    ("  %v = load { i8, ptr }, ptr %p, align 8", "\n".join((
        "  %narrow.0.0.at = getelementptr i8, ptr %p, i32 0", "  %narrow.0.0 = load i8, ptr %narrow.0.0.at, align 1",
        "  %narrow.0.0.with = insertvalue { i8, ptr } poison, i8 %narrow.0.0, 0",
        "  %narrow.0.1.at = getelementptr i8, ptr %p, i32 8", "  %narrow.0.1 = load ptr, ptr %narrow.0.1.at, align 8",
        "  %v = insertvalue { i8, ptr } %narrow.0.0.with, ptr %narrow.0.1, 1"))),
    ("  %v = alloca ptr, align 8", "  %v = alloca i64, align 8"),
    ("  %v = alloca [3 x i64], align 8", "  %v = alloca [3 x i64], align 8"),
    ("  %v = ptrtoaddr ptr %p to i64", "  %narrow.0 = ptrtoaddr ptr %p to i32\n  %v = zext i32 %narrow.0 to i64"),
    ("  %v = getelementptr i8, ptr %p, i64 %n", "  %v = getelementptr i8, ptr %p, i64 %n"),
    ("  %v = load { i8, i64, ptr }, ptr %p, align 8", """  %narrow.0.0.at = getelementptr i8, ptr %p, i32 0
  %narrow.0.0 = load i8, ptr %narrow.0.0.at, align 1
  %narrow.0.0.with = insertvalue { i8, i64, ptr } poison, i8 %narrow.0.0, 0
  %narrow.0.1.at = getelementptr i8, ptr %p, i32 8
  %narrow.0.1 = load i64, ptr %narrow.0.1.at, align 8
  %narrow.0.1.with = insertvalue { i8, i64, ptr } %narrow.0.0.with, i64 %narrow.0.1, 1
  %narrow.0.2.at = getelementptr i8, ptr %p, i32 16
  %narrow.0.2 = load ptr, ptr %narrow.0.2.at, align 8
  %v = insertvalue { i8, i64, ptr } %narrow.0.1.with, ptr %narrow.0.2, 2"""),
    ("  %v = extractvalue { i8, ptr } %p, 1", "  %v = extractvalue { i8, ptr } %p, 1"),
    ("  ret { ptr, i64 } %v", "  ret { ptr, i64 } %v"),
    ("@s = private constant <{ ptr, [8 x i8] }> <{ ptr getelementptr (i8, ptr @s, i64 16), [8 x i8] c\"ptr @s, \" }>, align 8",
     "@s = private constant <{ ptr, [4 x i8], [8 x i8] }> <{ ptr getelementptr (i8, ptr @s, i64 16), [4 x i8] zeroinitializer, [8 x i8] c\"ptr @s, \" }>, align 8"),
    ("@t = private unnamed_addr constant [6 x i8] c\"ptr = \", align 1", "@t = private unnamed_addr constant [6 x i8] c\"ptr = \", align 1"),
    ('attributes #0 = { nounwind "target-cpu"="x86-64" }', "attributes #0 = { nounwind }"),
)
# What might have another layout.
REFUSED = (
    "  %v = ptrtoint ptr %p to i64", "  %v = inttoptr i64 %n to ptr", "  store { ptr, i64 } %v, ptr %p, align 8", "  %v = alloca { ptr, i64 }, align 8", "  %v = alloca [2 x ptr], align 8",
    "  %v = getelementptr ptr, ptr %p, i64 1", "  %v = getelementptr { i8, ptr }, ptr %p, i64 1",
    "  %v = load <2 x ptr>, ptr %p, align 8", "  store <2 x ptr> %v, ptr %p, align 16", "  %v = atomicrmw xchg ptr %p, ptr %q seq_cst", "  %v = freeze ptr %p",
    "  %v = load { i8, { ptr, i8 } }, ptr %p, align 8", "  %v = load [2 x ptr], ptr %p, align 8",
    "%T = type { ptr, i64 }", "  call void @f(ptr byval({ ptr, i64 }) %p)", "  call void @f(ptr sret({ ptr, i64 }) %p)", '@"a b" = private constant [2 x ptr] [ptr @s, ptr @t]',
    "  %v = call <4 x ptr> @llvm.masked.load.v4p0(ptr %p)", "  call void @f(i64 ptrtoint (ptr getelementptr (ptr, ptr null, i32 1) to i64))", "\t%v = load ptr, ptr %p",
    "@s = global ptr @t, align 8", "@s = private constant [1 x ptr] [ptr @t], align 8", "@s = private constant <{ { ptr } }> <{ { ptr } { ptr null } }>, align 8",
)


def is_refused(line):
    try:
        list(narrow.narrowed([f"{line}\n"]))
    except (narrow.Unknown, KeyError):
        return True
    return False


def main():
    failed = [line for line, wanted in CASES if "".join(narrow.narrowed([f"{line}\n"])).rstrip("\n") != wanted]
    failed += [line for line in REFUSED if not is_refused(line)]
    for line in failed:
        print(f"FAILED: {line}")
    print(f"{len(CASES) + len(REFUSED) - len(failed)} passed, {len(failed)} failed")
    return bool(failed)


if __name__ == "__main__":
    raise SystemExit(main())
