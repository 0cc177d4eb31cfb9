#!/usr/bin/env python3
"""Counts the places of docs/DESIGN-PASS.md in crates/*/src: tools/places.py [POINT] lists them, one a line, point first.

1  enums with an arm that holds nothing beside one that holds the value; flags `there`; constants that number kinds
2  functions of one file or two that become one text once widths, names and constants are taken out
3  while and loop
4  `if A { return B; } C` over tests and numbers: ||, &&, min, max by hand; conversions and equality by hand
5  functions of nine parameters or more; clauses that stand letter for letter in three functions or more
6  tables lent beside a length of their own
7  matches whose arms only choose what to call
"""
import re, sys, glob, collections, os

want = sys.argv[1] if len(sys.argv) > 1 else None
files = sorted(glob.glob("crates/*/src/*.rt"))
out = []

def put(point, where, what):
    if want in (None, point):
        out.append((point, where, what))

def functions(text):
    for m in re.finditer(r"^ *(?:pub )?(?:extern \"C\" )?fn (\w+)(.*?)^( *)\}\n", text, re.S | re.M):
        whole = m.group(0)
        brace = re.search(r"^ *\{$|\{\n", whole, re.M)
        yield m.group(1), whole

clauses = collections.defaultdict(list)
shapes = collections.defaultdict(list)
for path in files:
    text = open(path).read()
    crate = path.split("/")[1] + "/" + os.path.basename(path)
    for m in re.finditer(r"enum (\w+) \{(.*?)\n\s*\}", text, re.S):
        arms = [a.strip() for a in re.sub(r"//.*", "", m.group(2)).split("\n") if a.strip()]
        bare = [a for a in arms if "(" not in a and "{" not in a]
        full = [a for a in arms if "(" in a]
        nothing = [a for a in bare if re.match(r"(Nothing|None|Nowhere|NoRoom|TooDeep|Refused|Unknown|Absent|Sound)", a)]
        if (len(bare) == 1 and len(full) == 1) or nothing:
            put("1", crate, f"enum {m.group(1)}: {' '.join(arms)}")
    for m in re.finditer(r"^\s*(?:pub )?there: bool", text, re.M):
        put("1", crate, "flag there beside a value")
    for m in re.finditer(r"^\s*(?:pub )?const ([A-Z_0-9]+): (u32|u64|usize|u8) = (\d+);", text, re.M):
        if int(m.group(3)) < 16:
            put("1", crate, f"number code {m.group(1)} = {m.group(3)}")
    for m in re.finditer(r"^\s*(while|loop)\b.*", text, re.M):
        put("3", crate, m.group(0).strip())
    for m in re.finditer(r"if ([^{}\n]+) \{\n\s*return ([^;{}\n]+);\n\s*\}\n\s*([^;{}\n]+)\n\s*\}", text):
        a, b, c = m.groups()
        if b in ("true", "false") or (re.fullmatch(r"\w+", b) and re.fullmatch(r"\w+", c) and re.search(r"[<>]", a)):
            put("4", crate, f"if {a} {{ return {b}; }} {c}")
    for m in re.finditer(r"fn (same_\w+|least\w*|greater\w*|either|wide|gap|is_among|hit_of|tally)\(", text):
        put("4", crate, f"fn {m.group(1)} by hand")
    for m in re.finditer(r"fn (\w+)(?:<[^>]*>)?\((.*?)\)(?: ->|\n|\s)", text, re.S):
        n = len([p for p in re.split(r",", m.group(2)) if p.strip() and ":" in p])
        if n >= 9:
            put("5", crate, f"fn {m.group(1)} of {n} parameters")
    for m in re.finditer(r"^    requires(?: \w+)? (\{.*?\})\n(?=    (?:requires|ensures)|\{)", text, re.S | re.M):
        clauses[re.sub(r"\s+", " ", m.group(1))].append(crate)
    for m in re.finditer(r"match (\w+) \{(.*?)\n    \}", text, re.S):
        arms = re.findall(r"(\w+)::(\w+) => (\w[\w:]*)\(", m.group(2))
        if len(arms) >= 2 and len({a[2] for a in arms}) >= 2:
            put("7", crate, f"match {m.group(1)}: {' '.join(a[1] for a in arms)}")
    for name, whole in functions(text):
        body = re.sub(r"u32|u64|usize|u8|\d+|b\"[^\"]*\"|b'.'", "#", whole)
        body = re.sub(r"\b[a-z_][a-z_0-9]*\b", lambda w: w.group(0) if w.group(0) in ("fn", "let", "mut", "if", "while", "return", "for", "in", "else", "match", "as") else "x", body)
        body = re.sub(r"(requires|ensures)[^\n]*(\n\s+[^\s{}][^\n]*)*", "", body)
        body = re.sub(r"\s+", " ", body)
        if len(body) > 60:
            shapes[body].append(f"{crate}:{name}")
for c, where in sorted(clauses.items()):
    if len(where) >= 3:
        put("5", f"{len(where)} functions", f"clause {c[:150]}")
for s, where in sorted(shapes.items()):
    if len(where) >= 2:
        put("2", " ".join(where), "one shape")
for row in out:
    print("\t".join(row))
counts = collections.Counter(r[0] for r in out)
print(" ".join(f"{p}:{n}" for p, n in sorted(counts.items())), file=sys.stderr)
