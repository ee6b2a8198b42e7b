#!/usr/bin/env python3
"""Gives the definitions and lemmas of this repository the spelling of today's Rattle.

    python3 tools/snake_names.py [--list]

run once, at the top, on files that port.py turned. Definitions, constructors, fields and lemmas that the files of
specs/ and the lemma files of proofs/ declare are put into snake case (`cueAt` and `some-begins` become `cue_at` and
`some_begins`), and statements that are types into camel case (`Count-right` becomes `CountRight`). Names that Rattle
makes (`loop-i-preserved`) and names of the source stay. The names are turned in crates/, README.md and docs/; --list
only prints them. A lemma that would get the name of the definition that it is about ends in `_lem`. Another new name
that stands in one of the files already is printed as a clash, and nothing is written.
"""

import collections
import glob
import re
import sys

WORD = r"[^\s(){},;.:\[\]⟨⟩⟦⟧@\"`|]+"
DECLARED = re.compile(
    r"^\s*(?:(?:abbrev|unfoldable|pub|data|record|private|opaque)\s+)*(" + WORD + r")\s*"
    r"(?:\([^)]*\)\s*|\{[^}]*\}\s*)*:\s")
GENERATED = re.compile(r"/(Answers|Choices|Invariants|Proof)\.antt$")
TOKEN = re.compile(r"(?P<dot>\.?)(?P<word>" + WORD + r")")
# A definition that falls together with a constructor, a lemma with the definition that it is about, and two of the library.
OWN = {"tooLong": "too_long_report", "ending_at": "ending_at_lem", "entries-at": "entries_at_lem", "bit-or": "bit_or_lem",
       "bit-and": "bit_and_lem"}


def turned(name):
    """The name in today's spelling."""
    if name[0].isupper():
        return "".join(part[:1].upper() + part[1:] for part in name.split("-"))
    name = name.replace("-", "_").replace("′", "'")
    return re.sub(r"(?<=[a-z0-9])([A-Z])", lambda m: "_" + m.group(1).lower(), name)


def odd(name):
    return "-" in name or "′" in name or re.match(r"^[a-z].*[A-Z]", name) is not None


def declared():
    """The names to turn, and the fields among them."""
    names, fields = set(), set()
    for folder in ("specs", "proofs"):
        for path in glob.glob(f"crates/*/{folder}/**/*.antt", recursive=True):
            if GENERATED.search(path):
                continue
            with open(path, encoding="utf-8") as f:
                for line in f:
                    m = DECLARED.match(line)
                    if m and odd(m.group(1)):
                        names.add(m.group(1))
                        if line.startswith(" "):
                            fields.add(m.group(1))
    names |= set(OWN)
    new = {n: OWN.get(n, turned(n)) for n in sorted(names)}
    definitions = {w for n, w in new.items() if "-" not in n}
    for n in new:
        if "-" in n and n not in OWN and new[n] in definitions:
            new[n] += "_lem"
    return new, fields


def put(names, fields, text):
    """The text with the names turned. A word with a dash behind a dot is a label of a goal, and stays, unless it is a field."""
    def one(m):
        word = m.group("word")
        if word not in names:
            return m.group(0)
        if m.group("dot") and "-" in word:
            before = re.search(r"(?:^|[^\w.'-])([cw])$", text[:m.start()][-3:])
            if word not in fields or before:
                return m.group(0)
        return m.group("dot") + names[word]
    return TOKEN.sub(one, text)


def files():
    kinds = ["crates/*/src/**/*.rt", "crates/*/specs/**/*.antt", "crates/*/proofs/**/*.antt"]
    return sorted(p for k in kinds for p in glob.glob(k, recursive=True))


def main():
    names, fields = declared()
    if "--list" in sys.argv:
        for old, new in names.items():
            print(old, new, "field" if old in fields else "")
        return
    clashes = []
    back = collections.defaultdict(list)
    for old, new in names.items():
        back[new].append(old)
    clashes += [f"{new}: from {', '.join(olds)}" for new, olds in back.items() if len(olds) > 1]
    known = {m.group(1) for p in files() if p.endswith(".antt") for m in map(DECLARED.match, open(p, encoding="utf-8")) if m}
    texts = {}
    for path in files():
        with open(path, encoding="utf-8") as f:
            text = f.read()
        words = {m.group("word") for m in TOKEN.finditer(text) if not m.group("dot")}
        for old, new in names.items():
            if old in words and new in words and new not in names and path.endswith(".antt"):
                clashes.append(f"{path}: {old} becomes {new}, which stands there")
        texts[path] = text
    if clashes:
        print("\n".join(clashes))
        sys.exit(1)
    for path, text in texts.items():
        new = put(names, fields, text)
        if new != text:
            with open(path, "w", encoding="utf-8") as f:
                f.write(new)
    for path in sorted(glob.glob("docs/*.md")) + ["README.md"]:
        with open(path, encoding="utf-8") as f:
            text = f.read()
        new = re.sub(r"`[^`\n]+`", lambda m: put(names, fields, m.group(0)), text)
        # Names that port.py turned in crates/ alone.
        new = re.sub(r"`([^`\n]+)`", lambda m: "`" + turned(m.group(1)) + "`" if turned(m.group(1)) in known else m.group(0), new)
        if new != text:
            with open(path, "w", encoding="utf-8") as f:
                f.write(new)


main()
