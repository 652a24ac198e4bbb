"""Says where docs/RULES.md, the index in docs/CLAIMS.md and the sources are out of step; nothing where all is well.

Every rule has an id and a line in the index. What the index names is there: a definition in its file of specs/, a theorem in proofs/, a
function in its crate, a file. Every id that a comment of the sources cites is a rule, and every rule is cited in some specs/ or src/.
"""
import pathlib
import re

ID = r"[NFEMLSCRAGTDO]\d{1,2}"


def table_ids(text):
    return re.findall(rf"^\| ({ID}) \|", text, re.M)


def cited(comment):
    """The ids in a comment, with those between the ends of `R2 to R8`."""
    found = set(re.findall(rf"\b({ID})\b", comment))
    for letter, first, same, last in re.findall(r"\b([A-Z])(\d+) to ([A-Z])(\d+)\b", comment):
        if letter == same:
            found |= {f"{letter}{n}" for n in range(int(first), int(last) + 1)}
    return found


def citations():
    """id -> the files whose comments cite it"""
    found = {}
    for path in [*pathlib.Path("crates").glob("*/specs/**/*.antt"), *pathlib.Path("crates").glob("*/src/**/*.rt")]:
        mark = "--" if path.suffix == ".antt" else "//"
        comment = " ".join(line.split(mark, 1)[1] for line in path.read_text().split("\n") if mark in line)
        for rule in cited(comment):
            found.setdefault(rule, []).append(str(path))
    return found


def defined(name, file):
    crate, _, module = file.rpartition("/")
    path = pathlib.Path("crates") / (crate or "rules") / "specs" / f"{module}.antt"
    return path.exists() and re.search(rf"^ *(?:abbrev |unfoldable )?pub (?:record |data )?{re.escape(name)}\b", path.read_text(), re.M)


def exists(name):
    if "/" in name:
        return pathlib.Path(name).exists()
    if "::" in name:
        crate, *owners, function = name.split("::")
        wanted = [rf"\bfn {function}[(<]", *(rf"\bimpl\b[^{{]*\b{owner}\b" for owner in owners)]
        sources = [path.read_text() for path in pathlib.Path("crates", crate, "src").glob("**/*.rt")]
        return any(all(re.search(each, source) for each in wanted) for source in sources)
    return any(re.search(rf"^pub {name} :", path.read_text(), re.M) for path in pathlib.Path("crates").glob("*/proofs/*.antt"))


rules = table_ids(pathlib.Path("docs/RULES.md").read_text())
index = pathlib.Path("docs/CLAIMS.md").read_text().partition("## Index of the rules")[2].partition("\n## ")[0]
rows = re.findall(rf"^\| ({ID}) \| (.*?) \| (.*?) \|$", index, re.M)
for rule in sorted({rule for rule in rules if rules.count(rule) > 1}):
    print(f"docs/RULES.md has {rule} twice")
if [row[0] for row in rows] != rules:
    print("the index doesn't list the rules one by one in their order:", set(rules) ^ {row[0] for row in rows} or "another order")
for rule, definitions, uses in rows:
    for names, file in re.findall(r"((?:`\w+`, )*`\w+`) in `([\w/]+)`", definitions):
        for name in re.findall(r"\w+", names):
            if not defined(name, file):
                print(f"{rule}: no definition {name} in {file}")
    if not re.fullmatch(r"(?:(?:`\w+`, )*`\w+` in `[\w/]+`(?:, )?)+", definitions):
        print(f"{rule}: not understood: {definitions}")
    named = re.findall(r"`([^`]+)`", uses)
    if not named and "case" not in uses:
        print(f"{rule}: nothing rests on it")
    for name in named:
        if not exists(name):
            print(f"{rule}: there is no {name}")
found = citations()
for rule in sorted(found.keys() - set(rules)):
    print(f"{found[rule][0]} cites {rule}, which is no rule")
for rule in rules:
    if rule not in found:
        print(f"{rule} is cited in no specs/ and no src/")
