#!/usr/bin/env python3
"""respell.py: spells the repository's own definitions and lemmas as today's Rattle does.

It was run once, after the kit's port.py, at the top of the repository. The words of a name are in snake case, type names and modules
keep their capitals, and a prime is an apostrophe. It goes over the .antt files of specs/ and proofs/ and the .rt files, where such
names stand in clauses and comments alone. A lemma that then would have its function's name gets `_lem`. It prints each old name with
the new one, and changes nothing without --write.
"""
import pathlib
import re
import sys

TOP = pathlib.Path(".")
# a name of antt: anything but blanks, brackets and what parts a path
NAME = re.compile(r"[^\s(){}\[\].,;:\"`«»]+")
CAMEL = re.compile(r"(?<![A-Za-z0-9_])[a-z]+[a-z0-9_]*(?:[A-Z][a-z0-9]*)+")
# what declares a name: 'pub name :', 'abbrev pub name :', a constructor, a field
DECLARED = re.compile(r"^\s*(?:(?:abbrev|unfoldable|opaque)\s+)?(?:pub\s+)?(?:record\s+|data\s+)?([^\s(){}\[\].,;:]+)(?:\s[^:]*)?\s:(?:\s|$)")
# lemmas, and a field and a local, that would fall together with a definition, by the file or crate in which they stand or are used
LEMMAS = {
    "bits_in": ["rules/proofs/Rosters.antt", "rules/proofs/SetLaws.antt"],
    "rows_ok": ["rules/proofs/Rows.antt"],
    "found_in": ["rules/proofs/Lift.antt"],
    "names_in": ["roster_file/proofs/PrintedLines.antt"],
    "from_start": ["lines/proofs/Items.antt", "lines/proofs/item/Proof.antt"],
    "key_in": ["text/proofs/FieldReading.antt", "text/proofs/of_key/Proof.antt"],
    "too_long": ["session/proofs/Claims.antt"],
}

# names of definitions with a dash, which is for lemmas alone
DASHED = ["four-read", "four-take", "read-gift", "read-op", "read-pair", "search-found", "set-up", "signed-number"]


def snake(name):
    """Each word of the name that begins small, in snake case."""
    return CAMEL.sub(lambda m: re.sub(r"(?<=[a-z0-9])([A-Z])", lambda n: "_" + n[1].lower(), m[0]), name).replace("′", "'")


def code(line):
    """The line without its comment."""
    return re.split(r"(?:^|\s)--(?:\s|$)", line)[0]


def antt_files():
    return sorted(p for kind in ("specs", "proofs") for p in TOP.glob(f"crates/*/{kind}/**/*.antt"))


def respelled(text, names):
    return NAME.sub(lambda m: names.get(m[0], m[0]), text)


def main():
    files = antt_files()
    declared = set()
    for path in files:
        for line in path.read_text().split("\n"):
            found = DECLARED.match(code(line))
            if found:
                declared.add(found[1])
    names = {name: snake(name) for name in declared if snake(name) != name}
    dashed = {name: name.replace("-", "_") for name in DASHED}
    for old, new in sorted(names.items()):
        print(old, new)
    for name, places in LEMMAS.items():
        print(name, name + "_lem", "in", *places)
    for name in DASHED:
        print(name, dashed[name], "in specs/")
    if "--write" not in sys.argv:
        return
    for path in files:
        here = {name: name + "_lem" for name, places in LEMMAS.items() if str(path).split("crates/")[1] in places}
        if "/specs/" in str(path) or "/rules/" in str(path):
            here.update(dashed)
        path.write_text(respelled(respelled(path.read_text(), here), names))
    for path in sorted(TOP.glob("crates/*/src/**/*.rt")):
        path.write_text(respelled(path.read_text(), names))


main()
