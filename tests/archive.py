"""The library keeps no list of the row starts in memory, the compiler has folded it into the code: archive.py PREFIX ARCHIVE

The archive has no variables, fewer constants than the list would take, and nothing by the list's name. That this is seen is tried on
copies with one object more. PREFIX is that of the tools for the archive's machine; the last line is 'N passed, M failed'.
"""
import pathlib
import re
import shutil
import subprocess
import sys
import tempfile

PREFIX, ARCHIVE = sys.argv[1:]
SMALLEST_LIST = 128 * 2  # bytes: no start fits into one
# what is added, its source, words of the fault
DOCTORED = [
    ("a list by its name", "const unsigned short row_starts[2] = {17, 31};", "named row_starts"),
    ("a list by another name", "const unsigned short list[128] = {17, 31};", "bytes of constants"),
    ("a function that is called for a start", "int starts_start(int row) { return 17 + 14 * row; }", "named starts_start"),
    ("a list that can be written", "unsigned short list[2] = {17, 31};", "variables in .data"),
    ("a list that is made at the start", "unsigned short list[128];", "variables in .bss"),
]


def said(tool, *words):
    return subprocess.run([PREFIX + tool, *map(str, words)], check=True, capture_output=True, text=True).stdout


def constants(sizes):
    return sum(size for name, size in sizes if name.startswith(".rodata"))


def sections(archive):
    """The sections that have something in them, with their sizes."""
    found = re.findall(r"^ *\d+ (\S+) +([0-9a-f]{8}) ", said("objdump", "-h", archive), re.M)
    return [(name, int(size, 16)) for name, size in found if int(size, 16)]


def faults(archive):
    sizes = sections(archive)
    all_faults = [] if any(name.startswith(".text") for name, _ in sizes) else ["no code"]
    all_faults += [f"variables in {name}" for name, _ in sizes if re.match(r"\.(data|bss|tdata|tbss)\b", name)]
    if constants(sizes) >= SMALLEST_LIST:
        all_faults.append(f"{constants(sizes)} bytes of constants")
    names = re.findall(r" [A-Za-z] (.*starts.*)$", said("nm", archive), re.M | re.I)
    return all_faults + [f"named {name}" for name in names]


def with_object(folder, source):
    """A copy of the archive with this source compiled into it."""
    path, part, copy = (folder / name for name in ("more.c", "more.o", "copy.a"))
    path.write_text(source + "\n")
    shutil.copy(ARCHIVE, copy)
    said("gcc", "-O2", "-c", path, "-o", part)
    said("ar", "r", copy, part)
    return copy


passed = failed = 0


def check(what, ok, why):
    global passed, failed
    passed, failed = passed + ok, failed + (not ok)
    print(f"{'ok' if ok else 'FAILED'}: {ARCHIVE}: {what}{'' if ok else ': ' + '; '.join(why)}")


found = faults(ARCHIVE)
check(f"no variables, no list of row starts, {constants(sections(ARCHIVE))} bytes of constants", not found, found)
with tempfile.TemporaryDirectory() as folder:
    for what, source, words in DOCTORED:
        found = faults(with_object(pathlib.Path(folder), source))
        check(f"{what} would be seen", any(words in fault for fault in found), found)
print(f"{passed} passed, {failed} failed")
sys.exit(failed > 0)
