"""board/module.py takes the library's module for each core, changing three lines, and refuses every doctored one: modules.py DESK.ll

Each doctored file differs from the true one in one place, and must be refused by one line of text that has the given words.
"""
import pathlib
import subprocess
import sys
import tempfile

TRUE = {
    "module": pathlib.Path(sys.argv[1]).read_text(),
    "header": pathlib.Path("include/space.h").read_text(),
    "source": pathlib.Path("crates/space_c_c/src/lib.rt").read_text(),
}
# in space_open, where %r0 is the slot of a lent slice, %a0 and %a2 are pointers, and %a1 is a length
CALL = '  %r18 = call i32 @"space_c_c::space_open"('
# what is wrong, the file, the text once, the text instead, words of the refusal
DOCTORED = [
    ("a pointer as a number", "module", CALL, "  %x = ptrtoint ptr %r0 to i64\n" + CALL, "no kind"),
    ("a number as a pointer", "module", CALL, "  %x = inttoptr i64 %a1 to ptr\n" + CALL, "no kind"),
    ("pointers compared", "module", CALL, "  %x = icmp eq ptr %a0, %a2\n" + CALL, "no kind"),
    ("a pointer compared with a place", "module", CALL, "  %x = icmp eq ptr %a0, inttoptr (i64 8 to ptr)\n" + CALL, "no kind"),
    ("memory filled with other than zeros", "module", CALL, "  call void @llvm.memset.p0.i64(ptr %r0, i8 1, i64 16, i1 false)\n" + CALL, "no kind"),
    ("a pointer among several values", "module", CALL, "  %x = load { i8, ptr }, ptr %r0, align 8\n" + CALL, "no kind"),
    ("several numbers where a pointer is", "module", CALL, "  %x = load { i8, i32 }, ptr %r0, align 8\n" + CALL, "now a pointer, now a number"),
    ("a step by the size of a pointer", "module", "getelementptr i8, ptr %r0, i64 8", "getelementptr ptr, ptr %r0, i64 1", "no kind"),
    ("a variable outside the functions", "module", "\n\n; Function", "\n\n@x = global i64 0\n\n; Function", "no kind"),
    ("a constant that has a pointer", "module", "\n\n; Function", "\n\n@static.99 = private unnamed_addr constant ptr @static.0, align 8\n\n; Function", "no kind"),
    ("assembler", "module", CALL, '  call void asm sideeffect "nop", ""()\n' + CALL, "no kind"),
    ("a slot read as pointer and as number", "module", CALL, "  %x = load i64, ptr %r0, align 8\n" + CALL, "now a pointer, now a number"),
    ("half of a pointer read", "module", CALL, "  %x = getelementptr i8, ptr %r0, i64 4\n  %y = load i32, ptr %x, align 4\n" + CALL, "now a pointer, now a number"),
    ("a slot of more bytes than are followed", "module", "alloca [512 x i8]", "alloca [520 x i8]", "more bytes than are followed"),
    ("a pointer in a slot in which places are computed", "module", CALL, "  %x = alloca [128 x i8], align 8\n  store ptr %a0, ptr %x, align 8\n  %y = getelementptr i8, ptr %x, i64 %a1\n  %z = load i64, ptr %y, align 8\n" + CALL, "now a pointer, now a number"),
    ("a pointer kept in lent words", "module", CALL, "  %x = load ptr, ptr %r0, align 8\n  store ptr %a0, ptr %x, align 8\n" + CALL, "outside a slot"),
    ("another layout of the desk", "module", "-n8:16:32:64-S128", "-n8:16:32:64", "should have this line once"),
    ("a second line for the processor", "module", "attributes #1 = {", 'attributes #1 = { "target-cpu"="x86-64"', "more lines than one"),
    ("a pointer that is said not to be null", "module", "@space_open(ptr noundef %a0,", "@space_open(ptr noundef nonnull %a0,", "no kind"),
    ("a loaded pointer that is said not to be null", "module", CALL, "  %x = load ptr, ptr %r0, align 8, !nonnull !2\n" + CALL, "no kind"),
    ("a length of 32 bits in the module", "module", "@space_open(ptr noundef %a0, i64 noundef", "@space_open(ptr noundef %a0, i32 noundef", "the module has"),
    ("lengths of size_t in the header", "header", "uint64_t space_len, const uint64_t *roster", "size_t space_len, const uint64_t *roster", "the header declares"),
    ("an unsigned key in the header", "header", "int32_t read_key", "uint32_t read_key", "the header declares"),
    ("a partition's number for a set in the header", "header", "uint64_t read_partitions", "uint32_t read_partitions", "the header declares"),
    ("a partition's number for a set in the source", "source", "read_partitions: u64", "read_partitions: u32", "the header declares"),
    ("a set of 32 bits for a look in the module", "module", "@space_look(ptr noundef %a0, i64 noundef %a1, i32 noundef %a2, i64", "@space_look(ptr noundef %a0, i64 noundef %a1, i32 noundef %a2, i32", "the module has"),
    ("a signed set for a take in the header", "header", "uint32_t space_take(uint64_t *space, uint64_t space_len, uint32_t party, uint64_t", "uint32_t space_take(uint64_t *space, uint64_t space_len, uint32_t party, int64_t", "the header declares"),
    ("a roster that may be written", "header", "const uint64_t *roster", "uint64_t *roster", "the header declares"),
    ("a file of words in the header", "header", "const uint8_t *file", "const uint64_t *file", "the header declares"),
    ("a file that may be written", "header", "const uint8_t *file", "uint8_t *file", "the header declares"),
    ("a file of signed bytes", "header", "const uint8_t *file", "const int8_t *file", "the header declares"),
    ("a file's length of size_t", "header", "uint64_t file_len", "size_t file_len", "the header declares"),
    ("a roster that is only read from", "header", "uint64_t file_len, uint64_t *roster", "uint64_t file_len, const uint64_t *roster", "the header declares"),
    ("pairs that may be written", "header", "const uint64_t *pairs", "uint64_t *pairs", "the header declares"),
    ("a count of pairs of size_t", "header", "uint64_t pair_count", "size_t pair_count", "the header declares"),
    ("an order that is only read from", "header", "uint64_t pair_count, uint64_t *result", "uint64_t pair_count, const uint64_t *result", "the header declares"),
    ("a count of pairs of 32 bits in the module", "module", "@space_start_order(ptr noundef %a0, i64 noundef", "@space_start_order(ptr noundef %a0, i32 noundef", "the module has"),
    ("a space that a look may write, in the header", "header", "space_look(const uint64_t *space", "space_look(uint64_t *space", "the header declares"),
    ("a space that a look may write, in the source", "source", "space_look(\n    space: &[u64]", "space_look(\n    space: &mut [u64]", "the header declares"),
    ("a space that a receive may not write, in the header", "header", "space_receive(uint64_t *space", "space_receive(const uint64_t *space", "the header declares"),
    ("a space that a receive may not write, in the source", "source", "space_receive(\n    space: &mut [u64]", "space_receive(\n    space: &[u64]", "the header declares"),
    ("a length of 32 bits for a look in the module", "module", "@space_look(ptr noundef %a0, i64 noundef", "@space_look(ptr noundef %a0, i32 noundef", "the module has"),
    ("a file's length of 32 bits in the module", "module", "@space_read_roster(ptr noundef %a0, i64 noundef", "@space_read_roster(ptr noundef %a0, i32 noundef", "the module has"),
    ("a call that the header forgets", "header", "uint32_t space_take(", "uint32_t space_takes(", "the header declares"),
    ("a call that the header declares twice", "header", "uint32_t space_put(", "uint32_t space_open(uint64_t *space);\nuint32_t space_put(", "twice"),
    ("a call that is not extern C", "header", "/* The kinds of", "uint32_t space_close(uint64_t *space);\n/* The kinds of", "no call in its place"),
    ("a header without extern C", "header", 'extern "C" {', "", "extern"),
    ("a helper that the archive would have to have", "header", "static inline uint64_t space_message", "uint64_t space_message", "no call in its place"),
    ("a variable in the header", "header", "/* The kinds of", "static int space_count = 0;\n/* The kinds of", "no call in its place"),
    ("a helper among the calls", "header", "uint32_t space_put(", "static inline int space_one(void) { return 1; }\nuint32_t space_put(", "no call in its place"),
    ("a call under a condition", "header", "uint32_t space_put(", "#ifdef __arm__\nuint32_t space_put(", "no call in its place"),
    ("helpers under a condition", "header", "/* The kinds of", "#ifdef __arm__\n#endif\n/* The kinds of", "no call in its place"),
    ("a macro for a type", "header", "#define SPACE_SHARE", "#define uint64_t uint32_t\n#define SPACE_SHARE", "no call in its place"),
    ("a macro for a parameter", "header", "uint64_t *space, uint64_t space_len, uint32_t party", "uint64_t *space, uint64_t SPACE_X, uint32_t party", "no known form"),
    ("a comment that goes on", "header", "/* The kinds of", "// \\\n/* The kinds of", "goes on"),
    ("a file of words in the source", "source", "file: &[u8]", "file: &[u64]", "the header declares"),
    ("a file for which no type of C is known", "source", "file: &[u8]", "file: &[u16]", "no type of C"),
    ("a call that the source doesn't export", "source", '#[unsafe(no_mangle)]\npub extern "C" fn space_put', 'pub extern "C" fn space_put', "the header declares"),
]
# looks like declarations, and has none
ALIKE = r"""
// uint32_t space_put(int x);
/* uint32_t space_put(int x); */
static inline const char *space_alike(int x)
{
    if (x == '"') { return "\"} uint32_t space_put(int x); /*"; }
    return "*/";
}
"""


def run(core, files):
    with tempfile.TemporaryDirectory() as folder:
        paths = []
        for name in ("module", "header", "source"):
            paths.append(pathlib.Path(folder) / name)
            paths[-1].write_text(files[name])
        return subprocess.run([sys.executable, "board/module.py", core, *map(str, paths)], capture_output=True, text=True)


passed = failed = 0


def check(what, ok, why=""):
    global passed, failed
    passed, failed = passed + ok, failed + (not ok)
    print(f"{'ok' if ok else 'FAILED'}: {what}{'' if ok else ': ' + why}")


for core in ("cortex-m4", "cortex-m0plus"):
    ran = run(core, TRUE)
    changed = [a for a, b in zip(TRUE["module"].split("\n"), ran.stdout.split("\n")) if a != b]
    same_length = TRUE["module"].count("\n") == ran.stdout.count("\n")
    names = [line.split()[0] + " " + line.split()[1] for line in changed]
    check(f"the module for {core} differs in three lines", same_length and names == ["target datalayout", "target triple", "attributes #0"], ran.stderr or str(changed))
header = TRUE["header"].replace("/* The kinds of", ALIKE + "/* The kinds of", 1)
ran = run("cortex-m4", {**TRUE, "header": header})
check("what looks like a declaration in a comment or a text is none", ran.returncode == 0 and ALIKE in header, ran.stderr)
for what, name, old, new, words in DOCTORED:
    if old not in TRUE[name]:
        check(what, False, f"the {name} doesn't have: {old!r}")
        continue
    ran = run("cortex-m4", {**TRUE, name: TRUE[name].replace(old, new, 1)})
    check(f"refused: {what}", ran.returncode == 1 and ran.stdout == "" and ran.stderr.count("\n") == 1 and words in ran.stderr, repr(ran.stderr))
print(f"{passed} passed, {failed} failed")
sys.exit(failed > 0)
