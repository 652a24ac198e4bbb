"""Says of each function what its contract lacks; the last line has how many functions were looked at.

A public function states its outcome by `ensures`, and names there as it is at the exit everything that is lent to it to be
written: `space.new` for the parameter `space`. That it is named is all that is seen here, not
what is said of it; and a `&mut` is seen in a parameter's type, not inside a struct that the type names. A function that a guest can
call has no `requires`: those of the crates `space`, `space_c` and `space_c_c`. No function has more than 40 lines of code.

With --self the same is asked of the made-up functions at the end of this file, of which it is known what they lack.
"""
import pathlib
import re
import sys

GUEST_CRATES = ("space", "space_c", "space_c_c")
MOST_LINES = 40
HEAD = re.compile(r'^([ \t]*)(pub(?:\([^)]*\))? )?((?:const |unsafe |extern (?:"[^"]*" )?)*)fn (\w+)', re.M)
CLAUSE = re.compile(r"\b(requires|ensures|ghost)(?:\s+\w+)?\s*\{|\{")  # a clause may have a name
LENT = re.compile(r"&\s*(?:'\w+\s+)?mut\b")
CLOSES = {"(": ")", "[": "]", "{": "}", "<": ">"}
BOUND = r'[\s(){}.;,@"«»]'  # what ends a name in a clause


def without_comments(source):
    """Lines keep their numbers. A clause has comments of its own, behind two dashes."""
    return re.sub(r"//.*|(?<=\s)--(?=\s).*", "", source)


def closed(text, at):
    """Where the bracket at this place is closed."""
    opened = []
    for place in range(at, len(text)):
        if text[place] in CLOSES and not (text[place] == "<" and opened and opened[0] != "<"):
            opened.append(text[place])
        elif opened and text[place] == CLOSES[opened[-1]]:
            opened.pop()
            if not opened:
                return place
    raise ValueError(f"{text[at]} is not closed")


def lent_to_be_written(parameters):
    """The names of the parameters that are, or have in them, a `&mut`."""
    depth, parts = 0, [""]
    for letter in parameters:
        depth += (letter in "([{") - (letter in ")]}")
        if letter == "," and not depth:
            parts.append("")
        else:
            parts[-1] += letter
    names = [re.sub(r"^\s*(?:mut\s+)?|\s*:.*$", "", part, flags=re.S) for part in parts if LENT.search(part)]
    return ["self" if LENT.match(name) else name for name in names]


def at_exit(name, clauses):
    """Whether the clauses speak of this parameter as it is at the exit."""
    return re.search(rf"(?:^|{BOUND})(?:{name}|«{name}»)\.new(?={BOUND}|$)", " ".join(clauses))


def contract_of(source, at):
    """Parameters and clauses of the function whose name ends there, and where its body begins."""
    if source[at] == "<":
        at = closed(source, at) + 1
    end = closed(source, at)
    parameters, clauses, at = source[at + 1 : end], {"requires": [], "ensures": [], "ghost": []}, end
    while True:
        found = CLAUSE.search(source, at)
        if not found[1]:
            return parameters, clauses, found.start()
        at = closed(source, found.end() - 1)
        clauses[found[1]].append(source[found.end() : at])


def faults(crate, source):
    """Each fault with the number of its function's line; then how many functions are public, and how many parameters are lent to
    them to be written."""
    source, found, public, lent = without_comments(source), [], 0, 0
    for head in HEAD.finditer(source):
        name = head[4]
        if name == "main":
            continue
        parameters, clauses, body = contract_of(source, head.end())
        lines = source[body:].split(f"\n{head[1]}}}")[0].count("\n")
        written = lent_to_be_written(parameters) if head[2] else []
        public, lent = public + bool(head[2]), lent + len(written)
        lacks = [f"public, and silent about {parameter} at the exit" for parameter in written if not at_exit(parameter, clauses["ensures"])]
        if head[2] and not clauses["ensures"]:
            lacks = ["public, and no ensures"]
        if head[2] and crate in GUEST_CRATES and clauses["requires"]:
            lacks.append("a guest can call it, and it has a requires")
        if lines > MOST_LINES:
            lacks.append(f"{lines} lines of code")
        found += [(source.count("\n", 0, head.start(4)) + 1, f"{name}: {lack}") for lack in lacks]
    return found, public, lent


def check_crates():
    functions = parameters = 0
    for path in sorted(pathlib.Path("crates").glob("*/src/**/*.rt")):
        found, public, lent = faults(path.parts[1], path.read_text())
        functions, parameters = functions + public, parameters + lent
        for number, fault in found:
            print(f"{path}:{number}: {fault}")
    print(f"public functions: {functions}, lent to them to be written: {parameters}")


SAYS = "    ensures { result ≡ 1 }\n"
BODY = "{\n    1\n}\n"
SILENT = "public, and silent about {} at the exit"
# What it is, the function, and what it lacks; the crate is `words` where no other is said.
MADE_UP = [
    ("nothing is lent", f"pub fn f(a: u32, b: &[u64]) -> u32\n{SAYS}{BODY}", []),
    ("no ensures", f"pub fn f(space: &mut [u64]) -> u32\n    requires {{ space.new ≡ [] }}\n{BODY}", ["public, and no ensures"]),
    ("silent about a lent slice", f"pub fn f(space: &mut [u64]) -> u32\n{SAYS}{BODY}", [SILENT.format("space")]),
    ("silent, and private", f"fn f(space: &mut [u64]) -> u32\n{SAYS}{BODY}", []),
    ("it says it", f"pub fn f(space: &mut [u64])\n    ensures {{ space.new ≡ space.old }}\n{BODY}", []),
    ("it says it in its second ensures", f"pub fn f(out: &mut [u8]) -> u32\n{SAYS}    ensures {{ Kept (out.new) }}\n{BODY}", []),
    ("it says it in a clause with a name", f"pub fn f(out: &mut [u8]) -> u32\n{SAYS}    ensures left {{ Kept out.new }}\n{BODY}", []),
    ("only in a requires with a name", f"pub fn f(out: &mut [u8]) -> u32\n    requires left {{ Kept out.new }}\n{SAYS}{BODY}", [SILENT.format("out")]),
    ("only what it is at the entry", f"pub fn f(out: &mut [u8]) -> u32\n    ensures {{ result ≡ length (out.old) }}\n{BODY}", [SILENT.format("out")]),
    ("only in a requires", f"pub fn f(out: &mut [u8]) -> u32\n    requires {{ out.new ≡ [] }}\n{SAYS}{BODY}", [SILENT.format("out")]),
    ("only in a comment", f"pub fn f(out: &mut [u8]) -> u32\n    // out.new\n    ensures {{ result -- out.new\n        ≡ 1 }}\n{BODY}", [SILENT.format("out")]),
    ("only in the body", f"pub fn f(out: &mut [u8]) -> u32\n{SAYS}{{\n    ensures(out.new)\n}}\n", [SILENT.format("out")]),
    ("only of a longer name", f"pub fn f(out: &mut [u8]) -> u32\n    ensures {{ about_out.new ≡ out.news }}\n{BODY}", [SILENT.format("out")]),
    ("one of two", f"pub fn f(\n    a: &mut [u64],\n    b: u32,\n    c: &mut [u64],\n) -> u32\n    ensures {{ a.new ≡ [] }}\n{BODY}", [SILENT.format("c")]),
    ("both, on several lines", f"pub fn f(\n    a: &mut [u64],\n    c: &mut [u64],\n) -> u32\n    ensures {{\n        a.new ≡\n            c.new\n    }}\n{BODY}", []),
    ("a name with an underscore", f"pub fn f(all_of: &mut [u64])\n    ensures {{ all_of.new ≡ [] }}\n{BODY}", []),
    ("a lifetime, silent", f"pub fn f<'a>(out: &'a mut [u8], b: &'a [u8]) -> u32\n{SAYS}{BODY}", [SILENT.format("out")]),
    ("a lifetime, and it says it", f"pub fn f<'a, 'b: 'a>(out: &'a mut [u8]) -> u32\n    ensures {{ out.new ≡ [] }}\n{BODY}", []),
    ("for C, silent", f'#[unsafe(no_mangle)]\npub extern "C" fn f(a: &[u64], result: &mut [u64]) -> u32\n{SAYS}{BODY}', [SILENT.format("result")]),
    ("for C, and it says it", f'pub extern "C" fn f(result: &mut [u64]) -> u32\n    ensures {{ Left result result.new }}\n{BODY}', []),
    ("lent in a pair", f"pub fn f(pair: (u32, &mut u64), b: u32) -> u32\n{SAYS}{BODY}", [SILENT.format("pair")]),
    ("a parameter that can be changed is not lent", f"pub fn f(mut a: u32) -> u32\n{SAYS}{BODY}", []),
    ("an implicit argument in a clause", f"pub fn f(out: &mut [u8]) -> u32\n    ensures {{ Is {{result}} (out.new) }}\n{BODY}", []),
    ("a method, silent", f"impl Desk {{\n    pub fn f(&mut self) -> u32\n    {SAYS}    {{\n        1\n    }}\n}}\n", [SILENT.format("self")]),
    ("the second function of two", f"pub fn g() -> u32\n{SAYS}{BODY}\npub fn f(a: &mut u64) -> u32\n{SAYS}{BODY}", [SILENT.format("a")]),
    ("a requires where no guest calls", f"pub fn f(a: u32) -> u32\n    requires {{ a ≤ 1 }}\n{SAYS}{BODY}", []),
    ("40 lines", f"fn f()\n{SAYS}{{\n" + "    1;\n" * 40 + "}\n", []),
    ("41 lines", f"fn f()\n{SAYS}{{\n" + "    1;\n" * 41 + "}\n", ["41 lines of code"]),
]
MADE_UP_FOR_GUESTS = [
    ("a requires", f"pub fn f(a: u32) -> u32\n    requires {{ a ≤ 1 }}\n{SAYS}{BODY}", ["a guest can call it, and it has a requires"]),
    ("a requires of a helper", f"fn f(a: u32) -> u32\n    requires {{ a ≤ 1 }}\n{SAYS}{BODY}", []),
]


def check_itself():
    cases = [("words", *case) for case in MADE_UP] + [(crate, *case) for crate in GUEST_CRATES for case in MADE_UP_FOR_GUESTS]
    for crate, what, source, wanted in cases:
        found = [fault for _, fault in faults(crate, source)[0]]
        if found != [f"f: {lack}" for lack in wanted]:
            print(f"made up, {crate}: {what}: found is {found}, wanted {wanted}")
    flagged = sum(bool(wanted) for *_, wanted in cases)
    print(f"functions made up: {len(cases)}, to be flagged: {flagged}")


if sys.argv[1:] == ["--self"]:
    check_itself()
else:
    check_crates()
