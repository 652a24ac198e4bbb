"""The LLVM module of the proved library, made ready for a 32-bit core: module.py CORE MODULE.ll HEADER SOURCE.rt > BOARD.ll

The module was lowered for a desk with 64-bit pointers. It may run where pointers have 32 bits only if nothing in it depends on
their width, and this is what is looked at here, line by line. Everything that is not known to be harmless is refused: one line
on standard error says why, nothing is written, and the status is 1. Otherwise the text is written again with other words in
the lines that name the target, and in no other line.

HEADER is held to SOURCE, the functions that the library exports, and both to the module.
"""
import re
import sys

CORES = {"cortex-m4": "thumbv7em", "cortex-m0plus": "thumbv6m"}
ARM_LAYOUT = "e-m:e-p:32:32-Fi8-i64:64-v128:64:128-a:0:32-n32-S64"
DESK_LAYOUT = "e-m:e-p270:32:32-p271:32:32-p272:64:64-i64:64-i128:128-f80:128-n8:16:32:64-S128"
DESK_TRIPLE = "x86_64-unknown-linux-gnu"
DESK_ATTRIBUTES = ' "probe-stack"="inline-asm" "stack-probe-size"="3072" "target-cpu"="x86-64-v2"'
POINTER = 8  # bytes that a pointer has on the desk; on the board it has four of them, and the others are padding

VALUE = r'(?:%[\w.]+|@static\.\d+|-?\d+|true|false)'
INT = r'(?:i1|i8|i16|i32|i64)'
TYPE = r'(?:i1|i8|i16|i32|i64|ptr)'
NUMBERS = rf'\{{ {INT}(?:, {INT})* \}}'  # several numbers side by side, as both layouts place them: each at a multiple of its size
NAME = r'@(?:"[^"]+"|\w+)'  # a function's path; for one of a generic function or an impl with its types
NOTES = r'(?:, !(?:noundef|range) !\d+)*'  # and so none that a pointer isn't null: where the length is 0 it may be
ARGUMENTS = rf'(?:{TYPE} {VALUE}(?:, {TYPE} {VALUE})*)?'
PARAMETER = rf'(?:{TYPE}(?: noundef)?|i1 noundef zeroext) %\w+'
PARAMETERS = rf'(?:{PARAMETER}(?:, {PARAMETER})*)?'

# Every form of line that the module may have. Numbers are compared and computed with as numbers of their own width; a pointer
# is only stored, loaded, passed on, moved by a count of bytes and compared with null. So no ptrtoint, no comparison of two pointers,
# no size of a type. Where memory is filled, it is with zeros, which are 0 and null in every width. What stands outside the functions
# is bytes that nobody writes; both targets order the bytes of a number alike.
FORMS = {
    "blank": r"",
    "comment": r"; .*",
    "label": r"[\w.]+:(?: +;.*)?",
    "end": r"}",
    "file": r'source_filename = "\w+"',
    "layout": r'target datalayout = "[^"]*"',
    "triple": r'target triple = "[^"]*"',
    "bytes": r'@static\.\d+ = private unnamed_addr constant \[\d+ x i8\] (?:c"[^"]*"|zeroinitializer), align [1248]',
    "attributes": r"attributes #\d+ = \{.*\}",
    "metadata": r"!(?:[\w.]+|\d+) = !\{.*\}",
    "declare": r"declare void @llvm\.memmove\.p0\.p0\.i64\(ptr writeonly captures\(none\), ptr readonly captures\(none\), i64, i1 immarg\) #\d+",
    "declare fill": r"declare void @llvm\.memset\.p0\.i64\(ptr writeonly captures\(none\), i8, i64, i1 immarg\) #\d+",
    "define": rf"define (?P<own>internal )?(?:noundef (?:zeroext )?)?(?P<gives>void|{INT}|{NUMBERS}) (?P<name>{NAME})\((?P<takes>{PARAMETERS})\) #0 {{",
    "slot": rf"  (?P<to>%\w+) = alloca (?:{TYPE}|\[(?P<bytes>\d+) x i8\]), align [1248]",
    "part": rf"  (?P<to>%\w+) = getelementptr (?:inbounds )?(?:nuw )?i8, ptr (?P<of>%\w+), i64 (?P<by>{VALUE})",
    "load": rf"  (?P<to>%\w+) = load (?P<what>{TYPE}|{NUMBERS}), ptr (?P<of>%\w+), align [1248]{NOTES}",
    "store": rf"  store (?P<what>{TYPE}) (?P<value>{VALUE}), ptr (?P<of>%\w+), align [1248]",
    "compute": rf"  %\w+ = (?:add|sub|mul|udiv|urem|and|or|xor|shl|lshr|ashr)(?: nuw| nsw| exact| disjoint)* {INT} {VALUE}, {VALUE}",
    "compare": rf"  %\w+ = icmp (?:eq|ne|[us][lg][te]) {INT} {VALUE}, {VALUE}",
    "null": r"  %\w+ = icmp eq ptr %\w+, null",
    "one of several": rf"  %\w+ = extractvalue {NUMBERS} %\w+, \d+",
    "resize": rf"  %\w+ = (?:zext|sext|trunc)(?: nuw| nsw| nneg)* {INT} {VALUE} to {INT}",
    "copy": r"  call void @llvm\.memmove\.p0\.p0\.i64\(ptr (?P<into>%\w+), ptr (?P<of>%\w+), i64 (?P<size>\d+), i1 false\)",
    "fill": r"  call void @llvm\.memset\.p0\.i64\(ptr %\w+, i8 0, i64 \d+, i1 false\)",
    "call": rf"  (?:%\w+ = )?call (?:void|{INT}|{NUMBERS}) (?P<name>{NAME})\((?P<with>{ARGUMENTS})\)",
    "branch": rf"  br (?:label %[\w.]+|i1 {VALUE}, label %[\w.]+, label %[\w.]+)",
    "switch": rf"  switch {INT} {VALUE}, label %[\w.]+ \[",
    "case": rf"    {INT} -?\d+, label %[\w.]+",
    "cases": r"  \]",
    "return": rf"  ret (?:void|{INT} {VALUE}|{NUMBERS} %\w+)",
    "never": r"  unreachable",
}
FORMS = {name: re.compile(form) for name, form in FORMS.items()}


class Refused(Exception):
    """Why the module can't run on a board as it is."""


def read(text):
    """The lines with the form of each. A line of no known form is refused."""
    for number, line in enumerate(text.split("\n"), 1):
        for form, shape in FORMS.items():
            found = shape.fullmatch(line)
            if found:
                yield number, form, found
                break
        else:
            raise Refused(f"line {number} of the module is of no kind that is known to be harmless: {line.strip()}")


def parameters(text):
    """The types of a list `TYPE .. NAME, TYPE .. NAME`, and the names."""
    items = [item.split() for item in text.split(", ") if item]
    return [item[0] for item in items], [item[-1] for item in items]


class Places:
    """What each byte of each slot holds, a number or part of a pointer. Bytes that are copied onto each other, or that a caller
    lends to a callee, are one."""

    def __init__(self):
        self.same, self.holds = {}, {}

    def one(self, byte):
        while byte in self.same:
            byte = self.same[byte]
        return byte

    def join(self, a, b):
        a, b = self.one(a), self.one(b)
        if a != b:
            self.same[a] = b
            self.holds.setdefault(b, set()).update(self.holds.pop(a, set()))

    def seen(self, byte, what):
        self.holds.setdefault(self.one(byte), set()).add(what)

    def mixed(self):
        return [byte for byte, kinds in self.holds.items() if len(kinds) > 1]


SIZE = {"i1": 1, "i8": 1, "i16": 2, "i32": 4, "i64": 8, "ptr": POINTER}


def bytes_of(what):
    """The bytes of a value in memory: of a number or a pointer, or of several numbers without what is left free between them."""
    end, found = 0, []
    for size in (SIZE[kind] for kind in re.findall(r"\w+", what)):
        start = -(-end // size) * size
        end = start + size
        found += range(start, end)
    return found


LENT = 512  # bytes of a slot that are followed: a slice has 16, the words of a roster have 128, the list of row starts 512; a larger slot is refused


def refuse_mixed_slots(lines):
    """No byte of a slot holds a number at one time and part of a pointer at another; then the bytes that a pointer leaves free on
    the board are never looked at. Through a pointer that was itself loaded (a lent slice), or moved by a count that isn't known
    here, only numbers are read and written. So whatever a stored pointer leads to counts as numbers, and so does a slot in which
    places are computed."""
    places, at, function, formals = Places(), {}, None, {}

    def numbers(pointer):
        base, offset = at[pointer]
        for byte in range(LENT):
            places.seen((function, base, offset + byte), False)

    for _, form, found in lines:
        if form == "define":
            formals[found["name"]] = parameters(found["takes"])[1]
    for number, form, found in lines:
        if form == "define":
            function = found["name"]
            types, names = parameters(found["takes"])
            at = {name: (name, 0) for name, kind in zip(names, types) if kind == "ptr"}
        elif form == "slot":
            if found["bytes"] and int(found["bytes"]) > LENT:
                raise Refused(f"line {number} of the module has a slot of more bytes than are followed")
            at[found["to"]] = (found["to"], 0)
        elif form == "part" and found["of"] in at:
            if found["by"].isdigit():
                base, offset = at[found["of"]]
                at[found["to"]] = (base, offset + int(found["by"]))
            else:
                numbers(found["of"])
        elif form in ("load", "store"):
            if found["of"] in at:
                base, offset = at[found["of"]]
                for byte in bytes_of(found["what"]):
                    places.seen((function, base, offset + byte), found["what"] == "ptr")
            elif found["what"] == "ptr":
                raise Refused(f"line {number} of the module keeps a pointer outside a slot")
            if form == "store" and found["what"] == "ptr" and found["value"] in at:
                numbers(found["value"])
        elif form == "copy":
            if found["into"] not in at or found["of"] not in at:
                raise Refused(f"line {number} of the module copies what is in no slot")
            (into, i), (of, k) = at[found["into"]], at[found["of"]]
            for byte in range(int(found["size"])):
                places.join((function, into, i + byte), (function, of, k + byte))
        elif form == "call":
            _, given = parameters(found["with"])
            if len(given) != len(formals.get(found["name"], ())):
                raise Refused(f"line {number} of the module calls {found['name']}, which it doesn't have")
            for value, formal in zip(given, formals[found["name"]]):
                if value in at:
                    base, offset = at[value]
                    for byte in range(LENT):
                        places.join((function, base, offset + byte), (found["name"], formal, byte))
    mixed = places.mixed()
    if mixed:
        function, base, offset = mixed[0]
        raise Refused(f"in {function} byte {offset} of {base} holds now a pointer, now a number")


# What the header may have. A macro's name begins with SPACE_, so it stands for no type and no name of a function or parameter.
QUOTED = re.compile(r"""/\*.*?\*/|//[^\n]*|"(?:\\.|[^"\\\n])*"|'(?:\\.|[^'\\\n])*'""", re.S)
DIRECTIVE = re.compile(r"^#(?:ifndef SPACE_H|define SPACE_\w+(?: .*)?|include <stdint\.h>|endif)$", re.M)
CALLS = re.compile(r'^#ifdef __cplusplus\nextern "C" \{\n#endif\n(.*?)^#ifdef __cplusplus\n\}\n#endif\n', re.M | re.S)
CALL = r"(\w+) (space_\w+)\(([\w *,]*)\); "
HELPER = r"static inline (?:const )?\w+ \*?space_\w+\([\w *,]*\) BODY "
PARAMETER = re.compile(r"((?:const )?\w+(?: \*| ))[a-z]\w*")


def plain(text):
    """C without comments, and with nothing in its texts but for the "C" of extern "C"."""
    return QUOTED.sub(lambda found: " " if found[0][0] == "/" else found[0] if found[0] == '"C"' else '""', text)


def outline(text):
    """C in one line, with BODY for whatever stands in braces."""
    inner = 1
    while inner:
        text, inner = re.subn(r"\{[^{}]*\}", " BODY ", text)
    return "".join(word + " " for word in text.split())


def declared(header):
    """name -> (result, [parameter types]) of each function that the header leaves to the library. They are declared in one part,
    which is extern "C" for C++. Beside it are constants and static inline functions; anything else is refused."""
    parts = CALLS.split(re.sub(r" +$", "", plain(header), flags=re.M))
    if len(parts) != 3 or "\\\n" in header:
        raise Refused('the header should have one part that is extern "C" for C++, and no line that goes on in the next')
    helpers, calls = outline(DIRECTIVE.sub("", parts[0] + parts[2])), outline(parts[1])
    for text, form in ((helpers, HELPER), (calls, CALL)):
        rest = re.sub(f"^(?:{form})*", "", text)
        if rest:
            raise Refused(f"the header has what is no constant, no static inline function and no call in its place: {rest[:60]}")
    found = {}
    for gives, name, takes in re.findall(CALL, calls):
        kinds = [PARAMETER.fullmatch(item.strip()) for item in takes.split(",")]
        if name in found or None in kinds:
            raise Refused(f"the header declares {name} twice, or with a parameter of no known form")
        found[name] = gives, [kind[1].strip() for kind in kinds]
    return found


FOR_C = {
    "&[u8]": ["const uint8_t *", "uint64_t"],
    "&[u64]": ["const uint64_t *", "uint64_t"],
    "&mut [u64]": ["uint64_t *", "uint64_t"],
    "u32": ["uint32_t"],
    "i32": ["int32_t"],
    "u64": ["uint64_t"],
}
LOWERED = {"uint64_t *": "ptr", "const uint64_t *": "ptr", "const uint8_t *": "ptr", "uint64_t": "i64", "uint32_t": "i32", "int32_t": "i32"}


def exported(source):
    """name -> (result, [parameter types]) that C has to declare for each function that the source exports."""
    found = {}
    for name, takes, gives in re.findall(r'#\[unsafe\(no_mangle\)\]\npub extern "C" fn (\w+)\(([^()]*)\) -> (\w+)', source):
        kinds = [item.split(":", 1)[1].strip() for item in takes.split(",") if item.strip()]
        try:
            found[name] = FOR_C[gives][0], [word for kind in kinds for word in FOR_C[kind]]
        except KeyError as kind:
            raise Refused(f"{name} of the source passes {kind}, for which no type of C is known") from None
    return found


def compare_signatures(lines, header, source):
    wanted, told = exported(source), declared(header)
    lowered = {}
    for _, form, found in lines:
        if form == "define" and not found["own"]:
            lowered[found["name"].lstrip("@")] = found["gives"], parameters(found["takes"])[0]
    if not wanted:
        raise Refused("the source exports nothing")
    for name in sorted(wanted.keys() | told.keys() | lowered.keys()):
        if wanted.get(name) != told.get(name):
            raise Refused(f"{name}: the source exports {wanted.get(name)}, the header declares {told.get(name)}")
        gives, takes = wanted[name]
        expected = LOWERED[gives], [LOWERED[kind] for kind in takes]
        if lowered.get(name) != expected:
            raise Refused(f"{name}: the header declares {expected}, the module has {lowered.get(name)}")


def retarget(text, core):
    """The module's text for the core: the lines that name the target, and no other, are changed."""
    swaps = {
        f'target datalayout = "{DESK_LAYOUT}"': f'target datalayout = "{ARM_LAYOUT}"',
        f'target triple = "{DESK_TRIPLE}"': f'target triple = "{CORES[core]}-unknown-none-eabi"',
        f"attributes #0 = {{ nounwind{DESK_ATTRIBUTES} }}": "attributes #0 = { nounwind }",
    }
    lines = text.split("\n")
    for line in swaps:
        if lines.count(line) != 1:
            raise Refused(f"the module should have this line once and has it {lines.count(line)} times: {line}")
    if sum(text.count(word) for word in ("probe-stack", "stack-probe", "target-cpu", "target-features", "tune-cpu")) != 3:
        raise Refused("the module names the desk's processor in more lines than one")
    return "\n".join(swaps.get(line, line) for line in lines)


def main(core, module, header, source):
    with open(module) as m, open(header) as h, open(source) as s:
        text, header, source = m.read(), h.read(), s.read()
    try:
        if core not in CORES:
            raise Refused(f"no such core: {core} (there are {' and '.join(CORES)})")
        lines = list(read(text))
        refuse_mixed_slots(lines)
        compare_signatures(lines, header, source)
        sys.stdout.write(retarget(text, core))
    except Refused as why:
        sys.exit(f"board: {why}")


main(*sys.argv[1:])
