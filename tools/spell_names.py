#!/usr/bin/env python3
"""Brings the repository's own definitions, constructors and fields to today's spelling: words in snake case.

Run once at the top, after the toolchain's port.py. Renames whole names in crates/ (definitions, proofs, contracts and edits,
outside strings) and those in backticks in docs/. A dash joins two names, and stays in lemmas; a constructor or field keeps its dash
where the name without it is taken. Prints each new name that something else in crates/ has already, as a function of src/ or an edit
that is written in today's spelling.
"""
import glob
import re
import sys

# Letters of a name: all but space and what ends a name.
NAME = re.compile(r"[^\s(){}.,;:\[\]λ→≡×@\"«»|↦=∷+*<≤?`⌜⌝]+")
STRING = re.compile(r'"(?:[^"\\]|\\.)*"|b\'.\'')
CAMEL = re.compile(r"[a-z][a-z0-9]*(?:[A-Z][a-z0-9]*)+['0-9]*")
PLACES = ("crates/**/*.antt", "crates/**/*.rt", "crates/**/*.edit")


def files():
    return sorted(f for p in PLACES for f in glob.glob(p, recursive=True) if "/out/" not in f)


def outside_strings(line):
    """The pieces of a line, each with whether it is outside strings."""
    at = 0
    for m in STRING.finditer(line):
        yield line[at:m.start()], True
        yield m.group(0), False
        at = m.end()
    yield line[at:], True


def names(line):
    return [w for part, code in outside_strings(line) if code for w in NAME.findall(part)]


def dashed_members():
    """Constructors and fields that are declared with a dash in specs/ and in files of lemmas."""
    found = set()
    for f in glob.glob("crates/*/specs/*.antt") + glob.glob("crates/*/proofs/*.antt"):
        inside = False
        for line in open(f):
            if re.match(r"(?:pub )?(?:data|record) ", line):
                inside = True
            elif re.match(r"[^\s-]", line):
                inside = False
            m = re.match(r"  (?:pub )?(\S+-\S+) :", line)
            if inside and m:
                found.add(m.group(1))
    return found


def snake(name):
    return re.sub(r"(?<=[a-z0-9])([A-Z])", lambda m: "_" + m.group(1).lower(), name).replace("-", "_").lower()


def main():
    every = {w for f in files() for line in open(f) for w in names(line)}
    new = {w: snake(w) for w in every if CAMEL.fullmatch(w)}
    for w in sorted(new):
        if new[w] in every:
            print(f"{w}: {new[w]} is a name already")
    taken = every | set(new.values())
    for w in sorted(dashed_members()):
        if snake(w) in taken:
            print(f"{w} stays: {snake(w)} is a name already")
        else:
            new[w] = snake(w)
    for f in files():
        text = open(f).read()
        turned = "".join(
            "".join(NAME.sub(lambda m: new.get(m.group(0), m.group(0)), part) if code else part for part, code in outside_strings(line))
            for line in text.splitlines(keepends=True)
        )
        if turned != text:
            open(f, "w").write(turned)
    for f in sorted(glob.glob("docs/*.md")):
        if f.startswith("docs/PORT") or f == "docs/REFUSED.md":
            continue
        text = open(f).read()
        turned = re.sub(r"`([^`\n]+)`", lambda m: "`" + NAME.sub(lambda n: new.get(n.group(0), n.group(0)), m.group(1)) + "`", text)
        if turned != text:
            open(f, "w").write(turned)
    print(f"{len(new)} names")


if __name__ == "__main__":
    sys.exit(main())
