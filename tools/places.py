#!/usr/bin/env python3
"""Lists the places in crates/*/src where a form of the older language may stand, one heading for each kind.

    python3 tools/places.py [KIND ..]

It goes by text, and a line that it lists need not be a place: docs/DESIGN-PASS.md says what was found and what
stays. A place of kind `clause` or `params` is a fact or a pair of parameters that stands in three or more
functions of one crate, one of kind `twin` a pair of runs of five or more lines that are alike but for names,
numbers and texts.
"""
import re, sys
from pathlib import Path
from collections import defaultdict

ROOT = Path(__file__).resolve().parent.parent
FILES = sorted(ROOT.glob("crates/*/src/**/*.rt"))

# kind -> pattern of a line
LINES = {
    "refused-case": r"^\s*(Refused|Failed|NoMemory|Missing|None)\b.*,$",
    "option-refusal": r"Option<(Refusal|\(Refusal)",
    "result-bool": r"Result<bool",
    "number-code": r"fn (number|status|letter|\w*_column)\(.*-> u\d+|letter: u8|status: u64|-> u64 \{",
    "zero-none": r"!= 0\b|== 0 \{|> 0 \{|; 0 (where|ends|if)",
    "dummy-answer": r"^pub fn \w+\(\) -> u8",
    "loop-range": r"^\s*for \w+ in .*\.\.",
    "loop-enumerate": r"^\s*for \(\w+, .*enumerate\(\)",
    "loop-while": r"^\s*(while|loop)\b",
    "loop-each": r"^\s*for (?!\w+ in .*\.\.)(?!.*enumerate)",
    "cast": r"\bas (u8|u16|u32|u64|usize|char)\b",
    "same-by-hand": r"^impl .*\b(PartialEq|PartialOrd|Ord|Eq|Clone|Event) for|== \w+\.?\w* && .*==",
    "convert-by-hand": r"fn (number|letter|status|of_fault|read_kind|\w+_text)\(",
    "else-none": r"else \{$|return None;",
    "vec-field": r"^\s*(pub(\(\w+\))? )?\w+: Vec<",
    "const": r"^\s*(pub(\(\w+\))? )?const [A-Z]+",
    "step-switch": r"match (letter|row_of|layout|machine|section|name|command)\b",
}

def functions(text):
    """(name, head) of each function: the text from `fn` to its body."""
    for m in re.finditer(r"\bfn (\w+)", text):
        end = re.search(r"^\s*\{\s*$|\{$|;\s*$|^\s*\{\}", text[m.start():], re.M)
        yield m.group(1), text[m.start(): m.start() + (end.start() if end else 200)]

def repeated():
    clauses, params = defaultdict(set), defaultdict(set)
    for f in FILES:
        crate, text = f.relative_to(ROOT / "crates").parts[0], f.read_text()
        for name, head in functions(text):
            where = f"{f.relative_to(ROOT)}:{name}"
            for c in re.findall(r"requires(?: \w+)? \{ (.*?) \}\n", head + "\n"):
                fact = re.sub(r"\.(old|new|now)\b", "", c)
                clauses[crate, fact].add(where)
            names = re.findall(r"[(,]\s*(?:mut )?(\w+): ", head.split("->")[0])
            for i in range(len(names)):
                for j in range(i + 1, len(names)):
                    params[crate, f"{names[i]}, {names[j]}"].add(where)
    return clauses, params

RUN = 5

def shapes(text):
    """(line number, shape) of each line of code: its words and numbers replaced, but for keywords."""
    for n, line in enumerate(text.splitlines(), 1):
        line = line.strip()
        if len(line) > 1 and not line.startswith(("//", "#", "use ", "pub use ", "mod ", "ghost use", "ensures", "requires")):
            yield n, re.sub(r"b?\"[^\"]*\"|b?'.'|\b\d\w*\b|\b(?!(?:fn|let|mut|if|else|match|for|in|while|return|pub|self|Ok|Err|Some|None)\b)\w+", "x", line)

def twins():
    """Pairs of runs of RUN or more lines of one shape."""
    at = defaultdict(list)
    code = {f: list(shapes(f.read_text())) for f in FILES}
    for f, lines in code.items():
        for i in range(len(lines) - RUN + 1):
            at[tuple(s for _, s in lines[i: i + RUN])].append((f, i))
    seen, rows = set(), []
    for places in at.values():
        if len(places) > 8:
            continue
        for a in range(len(places)):
            for b in range(a + 1, len(places)):
                (f, i), (g, j) = places[a], places[b]
                if (f, i, g, j) in seen or (f == g and j < i + RUN):
                    continue
                n = 0
                while i + n < len(code[f]) and j + n < len(code[g]) and code[f][i + n][1] == code[g][j + n][1]:
                    seen.add((f, i + n, g, j + n))
                    n += 1
                rows.append(f"{f.relative_to(ROOT)}:{code[f][i][0]}-{code[f][i + n - 1][0]} ~ "
                            f"{g.relative_to(ROOT)}:{code[g][j][0]}-{code[g][j + n - 1][0]}")
    return sorted(rows)

def main():
    wanted = sys.argv[1:]
    total = {}
    for kind, pattern in LINES.items():
        if wanted and kind not in wanted:
            continue
        found = []
        for f in FILES:
            for n, line in enumerate(f.read_text().splitlines(), 1):
                if line.lstrip().startswith("//") and kind != "zero-none":
                    continue
                if re.search(pattern, line):
                    found.append(f"{f.relative_to(ROOT)}:{n}: {line.strip()}")
        total[kind] = len(found)
        print(f"== {kind}: {len(found)}")
        print(*found, sep="\n")
    if not wanted or "twin" in wanted:
        rows = twins()
        total["twin"] = len(rows)
        print(f"== twin: {len(rows)}")
        print(*rows, sep="\n")
    if not wanted or "clause" in wanted or "params" in wanted:
        for kind, table in zip(("clause", "params"), repeated()):
            rows = [(k, v) for k, v in sorted(table.items()) if len(v) >= 3]
            total[kind] = len(rows)
            print(f"== {kind}: {len(rows)}")
            for (crate, fact), places in rows:
                print(f"{crate}: {fact}: {len(places)}: {', '.join(sorted(p.split(':')[1] for p in places))}")
    print("==", ", ".join(f"{k} {v}" for k, v in total.items()))

main()
