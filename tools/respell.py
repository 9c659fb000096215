#!/usr/bin/env python3
"""Brings the repository's own definitions and lemmas to today's spelling, behind port.py, once.

usage: python3 tools/respell.py [FILE.edit ..]      at the top of the repository

A word is in snake case: what was written fromFirst is from_first. A definition has no dash, and the proof of a function f is f_spec. In a lemma's
name a dash joins two names, and stays. Types, facts and modules keep their capitals, source names and std's names are left. Names that would fall
together are printed ('look:', and BESIDE below where one file has both).
"""
import collections
import os
import re
import sys

DECLARED = re.compile(r"^\s*((?:abbrev |unfoldable |pub )*)([^\s:(){};,.\"@]+)\s*(?:\{[^}]*\}\s*|\([^)]*\)\s*)*:\s")
TOKEN = re.compile(r"[^\s(){}:;,.\"@`/\\|]+")
CAMEL = re.compile(r"[a-z]{2}\w*[a-z][A-Z][a-zA-Z]*'?$|[a-z]{2,}[A-Z]\w*'?$")
OWN = re.compile(r"^\s*(?:ghost )?(?:pub )?use (Rattle\.[\w.]+|[\w.']+?)\.\{([^}]*)\}", re.M)
# lemmas and a constructor that would have a definition's new name, beside it in one file
BESIDE = [
    ("flag_word", "flag_word_lem", ["demands/proofs/SubChannels", "subchannel_spec/proofs/Flags"]),
    ("in_group", "in_group_lem", ["subchannel/proofs/Numbers"]),
    ("in_head", "in_head_lem", ["capture/proofs/Following"]),
    ("in_head", "cut_head", ["capture_spec/proofs/Order", "capture_spec/specs/Order"]),
    ("in_use", "in_use_lem", ["channel/proofs/Demands", "channel/proofs/Shown", "subchannel/proofs/Demands", "subchannel/proofs/Shown"]),
    ("key_fits", "key_fits_lem", ["packet_spec/proofs/Judging", "demands_laws/proofs/Frames"]),
    ("near_by", "near_by_lem", ["demands_laws/proofs/Showing"]),
]
KEYWORDS = {"where", "record", "module", "data", "use", "mod", "let", "in", "λ"}


def files(ends):
    for folder, dirs, names in sorted(os.walk("crates")):
        dirs[:] = sorted(d for d in dirs if d != "out")
        for name in sorted(names):
            if name.endswith(ends):
                yield os.path.join(folder, name)


def snake(part):
    if not part[:1].islower():
        return part
    return re.sub(r"(?<=[a-z0-9])([A-Z])(?=[a-z]|$|['₀-₉])", lambda m: "_" + m.group(1).lower(), re.sub(r"(?<=[a-z0-9])([A-Z])$", lambda m: "_" + m.group(1).lower(), part))


def main(edits):
    for word, new, places in BESIDE if not edits else []:
        for place in places:
            path = f"crates/{place}.antt"
            with open(path) as f:
                text = f.read()
            with open(path, "w") as f:
                f.write(re.sub(rf"(?<![\w.'-]){word}(?![\w'-])", new, text))

    own, foreign, words = set(), set(), set()
    crates = set(os.listdir("crates"))
    for path in files((".antt", ".rt")):
        with open(path) as f:
            text = f.read()
        for m in OWN.finditer(text):
            parts = m.group(1).split(".")
            if not (parts[0] == "Rattle" and len(parts) > 1 and parts[1] in crates):
                foreign.update(w.strip() for name in m.group(2).split(",") for w in name.split(" as "))
        if path.endswith(".rt"):
            continue
        own.update(t for t in TOKEN.findall(text) if CAMEL.match(t))
        for line in text.splitlines():
            m = DECLARED.match(line)
            if m and not line.lstrip().startswith("--") and m.group(2) not in KEYWORDS:
                own.add(m.group(2))
                if path.endswith("/Proof.antt") and m.group(2).endswith("-spec") or "/specs/" in path or "abbrev" in m.group(1) or "unfoldable" in m.group(1):
                    words.add(m.group(2))
    to = {}
    for name in sorted(own):
        if name in foreign or "◌" in name or name.startswith(("invariant-", "decreases-", "measure-")):
            continue
        new = ("_" if name in words else "-").join(snake(p) for p in name.split("-"))
        if new != name:
            to[name] = new
    held = collections.defaultdict(set)
    for name in own | foreign:
        held[to.get(name, name)].add(name)
    for new, names in sorted(held.items()):
        if len(names) > 1:
            print(f"look: {new} is {sorted(names)}")

    def turn(text):
        return TOKEN.sub(lambda m: to.get(m.group(0), m.group(0)), text)

    for path in edits or files((".antt", ".rt")):
        with open(path) as f:
            text = f.read()
        if path.endswith(".rt"):
            new = "\n".join(l if '"' in l else turn(l) for l in text.split("\n"))
        else:
            new = turn(text)
        if new != text:
            with open(path, "w") as f:
                f.write(new)
    for name, new in sorted(to.items()):
        print(f"{name} {new}")


main(sys.argv[1:])
