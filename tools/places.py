#!/usr/bin/env python3
"""tools/places.py [-l]: how often src/ has the forms that docs/DESIGN-PASS.md counts, a line for each of its points; with -l each place too.

A place is found by its look alone, so a line of a list may be right as it is: the page says which stay, and why.
Example: tools/places.py -l | grep '^3 '
"""
import glob
import re
import sys
from collections import Counter, defaultdict

LIST = sys.argv[1:] == ["-l"]
KEYWORDS = set("fn let mut if else match for in while loop return break continue self Self true false as struct impl pub ref move".split())


def sources():
    for path in sorted(glob.glob("crates/*/src/**/*.rt", recursive=True)):
        with open(path, encoding="utf-8") as file:
            yield path, file.read()


def line_of(text, at):
    return text.count("\n", 0, at) + 1


def lines_with(pattern):
    found = []
    for path, text in sources():
        for m in re.finditer(pattern, text, re.M):
            found.append((path, line_of(text, m.start()), m.group(0).strip()))
    return found


def structs():
    for path, text in sources():
        for m in re.finditer(r"^(?:pub(?:\([a-z]+\))? )?struct (\w+)[^{;\n]*\{\n(.*?)^\}", text, re.M | re.S):
            yield path, line_of(text, m.start()), m.group(1), re.findall(r"^\s+(?:pub(?:\([a-z]+\))? )?(\w+): (.*),$", m.group(2), re.M)


def functions():
    """path, line, name, contract and parameters, body"""
    for path, text in sources():
        for m in re.finditer(r"^( *)(?:pub(?:\([a-z]+\))? )?fn (\w+)(.*?)^\1\{\n(.*?)^\1\}", text, re.M | re.S):
            yield path, line_of(text, m.start()), m.group(2), m.group(3), m.group(4)
        for m in re.finditer(r"^( *)(?:pub(?:\([a-z]+\))? )?fn (\w+)([^\n{]*) \{\n(.*?)^\1\}", text, re.M | re.S):
            yield path, line_of(text, m.start()), m.group(2), m.group(3), m.group(4)
        for m in re.finditer(r"^( *)(?:pub(?:\([a-z]+\))? )?fn (\w+)((?:<[^\n]*>)?\(\n(?:\1 +[^\n]*\n)*\1\)[^\n]*) \{\n(.*?)^\1\}", text, re.M | re.S):
            yield path, line_of(text, m.start()), m.group(2), m.group(3), m.group(4)


def conjuncts(clause):
    depth, parts, part = 0, [], ""
    for sign in clause:
        depth += (sign in "([{") - (sign in ")]}")
        if sign == "×" and depth == 0:
            parts.append(part)
            part = ""
        else:
            part += sign
    for part in parts + [part]:
        part = part.strip()
        while part.startswith("(") and part.endswith(")"):
            part = part[1:-1].strip()
        yield part


def skeleton(body):
    body = re.sub(r"//[^\n]*", "", body)
    tokens = re.findall(r"[A-Za-z_]\w*|\d\w*|b?\"[^\"]*\"|\S", body)
    shape = []
    for token in tokens:
        word = re.match(r"[A-Za-z_\d\"]", token)
        shape.append(token if not word or token in KEYWORDS else "x")
    return " ".join(shape)


def by_point():
    flags = [(p, n, f"struct {name}: {field}") for p, n, name, fields in structs() for field, kind in fields if kind == "bool" and len(fields) > 1]
    yield 1, "own enums with a number of refusal", lines_with(r"^\s+Refused\(u8\),")
    yield 1, "flags among other fields", flags
    yield 1, "constants that number refusals", lines_with(r"^\s+pub const [A-Z_]+: u8 = \d+;$") if any("struct Refusal;" in t for _, t in sources()) else []
    yield 1, "a number that stands for none", lines_with(r"^\s*//.*(?:\b(?:0|n|16|NONE) where (?:there|it|they|that)|; none where|stands for \"no|[,;] or 0\b|\b0 past the end).*$")
    same = defaultdict(list)
    for path, line, name, _, body in functions():
        shape = skeleton(body)
        if len(shape.split()) >= 40:
            same[shape].append((path, line, f"fn {name}"))
    yield 2, "functions of one shape (40 words and more)", [place for group in same.values() if len(group) > 1 for place in group]
    yield 3, "while and loop", lines_with(r"^\s*(?:'\w+: )?(?:while|loop) .*$")
    yield 4, "a cast alone as a function", [(p, n, f"fn {f}") for p, n, f, _, b in functions() if re.fullmatch(r"\s*\w+ as \w+\s*", b)]
    yield 4, "bytes of a number by hand", lines_with(r"^.*(?:256\) as u8|256 \* \(|\* 256 \+|<< 8\b).*$")
    yield 4, "base::least", lines_with(r"^.*\bbase::least\(.*$")
    facts = []
    for crate in sorted({p.split("/")[1] for p, _ in sources()}):
        count, at = Counter(), {}
        for path, line, name, head, _ in functions():
            if path.split("/")[1] != crate:
                continue
            for clause in re.findall(r"requires(?: \w+)? \{(.*?)\}\s*(?=\n|$)", head, re.S):
                for fact in set(conjuncts(" ".join(clause.split()))):
                    count[fact] += 1
                    at.setdefault(fact, (path, line))
        facts += [(*at[fact], f"{n} times: {fact}") for fact, n in count.items() if n >= 3]
    yield 5, "facts in three contracts of a crate, or more", facts
    yield 5, "functions of seven parameters, or more", [(p, n, f"fn {f}") for p, n, f, h, _ in functions() if len(re.findall(r"\b\w+: ", h.split("->")[0].split("requires")[0])) >= 7]
    yield 6, "an array with a number beside it", [(p, n, f"struct {name}") for p, n, name, fields in structs() if any(k.startswith("[") for _, k in fields) and any(k == "usize" for _, k in fields)]
    yield 7, "functions that a bool parameter switches", [(p, n, f"fn {f}") for p, n, f, h, _ in functions() if re.search(r"\b\w+: bool\b", h.split("->")[0])]
    walks = sorted(glob.glob("crates/*/proofs/**/Proof.antt", recursive=True))
    yield 8, "proofs written as whole walks", [(p, 1, "") for p in walks]


if sys.argv[1:] not in ([], ["-l"]):
    sys.exit(__doc__.strip())
for point, what, places in by_point():
    print(f"{point}  {len(places):4}  {what}")
    if LIST:
        for path, line, text in places:
            print(f"{point}        {path}:{line} {text}".rstrip())
