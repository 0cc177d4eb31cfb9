#!/usr/bin/env python3
"""Spells the repository's own names of specs/ and proofs/ as Rattle's libraries are spelled: words in snake case.

usage: respell.py [--check] ROOT

What port.py leaves: a definition `fieldAt`, a lemma `field-past`, a field `lastRow`, a binder `goesOn`. They turn in .antt files, in the clauses and ghost items
of .rt files and in comments' code spans there. A name of a library stays, and so does a name that Rattle makes (behind `tie.`, and the steps of a walk).
--check writes nothing and lists the names that would fall together with another one. A second run writes nothing more.
"""

import collections
import os
import re
import sys

WORD = re.compile(r'[^\s(){}.;,@"«»]+')
OLD = re.compile(r"^[a-zα-ω][A-Za-z0-9₀-₉α-ω]*(?:[-_A-Z][A-Za-z0-9₀-₉α-ω]+)*'*$")
IMPORT = re.compile(r"\b(?:ghost )?use ([\w.·+-]+?)(?:\.\{([^}]*)\})?(?=[\s;]|$)")
# The definition's hexadecimal digits in capitals, as upstream prints addresses.
GIVEN = {"HEX": "hex_upper"}
# Lemmas named as a definition is named once it is spelled so.
LEMMAS = "all_placed back_at branch_if deep_in in_place kept_row low_fits no_line open_next phi_value stack_off to_block trim_start".split()


def snake(name):
    words = re.sub(r"(?<=[a-z0-9₀-₉])([A-Z])", lambda m: "_" + m[1].lower(), name)
    words = re.sub(r"([A-Z])", lambda m: m[1].lower(), words)
    return words.replace("-", "_")


def texts(root):
    for folder, dirs, files in os.walk(os.path.join(root, "crates")):
        dirs[:] = sorted(d for d in dirs if d not in ("out", "must-fail"))
        for name in sorted(files):
            if name.endswith((".rt", ".antt")):
                yield os.path.join(folder, name)


def code_of(text, comment):
    """The text without comments and strings."""
    text = re.sub(r'"(?:[^"\\\n]|\\.)*"', '""', text)
    return re.sub(comment + r"[^\n]*", "", text)


def is_walk(path):
    return path.endswith("/Proof.antt")


def main():
    check = "--check" in sys.argv
    root = [a for a in sys.argv[1:] if a != "--check"][0]
    own_crates = set(os.listdir(os.path.join(root, "crates")))
    library, own, where = set(), collections.Counter(), {}
    words_of = {}
    contents = {}
    for path in texts(root):
        with open(path, encoding="utf-8") as f:
            text = contents[path] = f.read()
        antt = path.endswith(".antt")
        code = code_of(text, r"(?m)(?:^|(?<=\s))--" if antt else r"//")
        for m in IMPORT.finditer(code):
            steps = m[1].split(".")
            if steps[0] == "Rattle" and steps[1] in own_crates:
                for item in re.findall(r"\bas ([^\s,]+)", m[2] or ""):
                    own[item] += 1
                continue
            for item in (m[2] or "").split(","):
                if item.strip():
                    library.add(item.split(" as ")[0].strip())
                    for alias in re.findall(r"\bas ([^\s,]+)", item):
                        own[alias] += 1
        code = IMPORT.sub("", code)
        if antt:
            # declared: at the head of a signature, as a field, bound by a let or a λ or in parentheses
            for m in re.finditer(r"(?m)^[ \t]*(?:pub |abbrev |unfoldable |let |where )*([^\s(){}.;,@\"«»]+)(?: \{[^{}\n]*\})* :", code):
                if is_walk(path) and re.match(r" *tie\.", code[m.end():]):
                    continue
                own[m[1]] += 1
            for m in re.finditer(r"(?m)^ +((?:[a-z][\w-]* )+):", code):
                own.update(m[1].split())
            for m in re.finditer(r"\blet ([^\s(){}.;,@\"«»]+) (?::|=)", code):
                own[m[1]] += 1
            for m in re.finditer(r"[({λ]\s*((?:[^\s(){}.;,@\"«»:=]+ )+):", code):
                for w in m[1].split():
                    own[w] += 1
            for m in re.finditer(r"λ ((?:[^\s(){}.;,@\"«»:=]+ ?)+)\.", code):
                for w in m[1].split():
                    own[w] += 1
            for m in re.finditer(r"(?m)^[ \t]*((?:[^\s(){}.;,@\"«»:=]+ )+)=", code):
                if not is_walk(path):
                    for w in m[1].split():
                        own[w] += 1
        words_of[path] = set(WORD.findall(code if antt else stated(code)))
    turned = {}
    every = set().union(*words_of.values()) | library
    old_names = [n for n in own if n not in GIVEN and OLD.match(n) and n not in library and snake(n) != n]
    for name in old_names:
        if "-" not in name:
            turned[name] = snake(name)
    turned.update((o, n) for o, n in GIVEN.items() if o in own)
    taken = every | set(turned.values())
    for name in sorted(old_names):
        if "-" in name:
            turned[name] = snake(name) + ("_lem" if snake(name) in taken else "")
    meets = collections.defaultdict(set)
    for old, new in turned.items():
        if new in every:
            meets[new].add(old)
            for path, words in words_of.items():
                if old in words and new in words:
                    where.setdefault((old, new), []).append(os.path.relpath(path, root))
    by_new = collections.defaultdict(set)
    for old, new in turned.items():
        by_new[new].add(old)
    for new, olds in sorted(by_new.items()):
        if len(olds) > 1 or new in meets:
            both = [w for o in olds for w in where.get((o, new), [])]
            print(f"meets: {new} <- {sorted(olds)}{' in ' + ' '.join(both[:4]) if both else ''}")
    print(f"{len(turned)} names")
    if check:
        return
    if os.path.exists(os.path.join(root, "tools")):
        with open(os.path.join(root, "tools", "respelled.tsv"), "w", encoding="utf-8") as f:
            f.writelines(f"{o}\t{n}\n" for o, n in sorted(turned.items()))
    for path, text in contents.items():
        walk = is_walk(path)
        antt = path.endswith(".antt")

        def one(m):
            w = m[0]
            if w in LEMMAS and not walk and text[m.start() - 1:m.start()] != "." and antt:
                return w + "_lem"
            if w not in turned:
                return w
            if walk and text[max(0, m.start() - 4):m.start()] == "tie.":
                return w
            return turned[w]

        new = WORD.sub(one, text) if antt else turn_rust(text, one)
        new = re.sub(r"`([^`\n ]+)`", lambda m: "`" + ".".join(turned.get(p, p) for p in m[1].split(".")) + "`", new)
        new = re.sub(r"\b(\w+) as \1\b(?!')", r"\1", new)
        if new != text:
            with open(path, "w", encoding="utf-8") as f:
                f.write(new)


def stated(code):
    """What a source file's clauses and ghost items say."""
    parts = [m[0] for m in re.finditer(r"(?s)\bghost use\b[^;]*;", code)]
    parts += [code[a:b] for a, b in clauses(code)]
    return "\n".join(parts)


def clauses(text):
    at = 0
    for m in re.finditer(r"(?:requires|ensures|ghost)\s*\*?\s*(?:\w+\s*:?\s*)?\{", text):
        if m.start() < at:
            continue
        depth, end = 1, m.end()
        while depth:
            depth += {"{": 1, "}": -1}.get(text[end], 0)
            end += 1
        yield m.end(), end
        at = end


def turn_rust(text, one):
    def item(m):
        return WORD.sub(one, m[0])

    text = re.sub(r"(?s)\bghost use\b[^;]*;", item, text)
    out, at = [], 0
    for begin, end in clauses(text):
        out.append(text[at:begin])
        out.append(WORD.sub(one, text[begin:end]))
        at = end
    out.append(text[at:])
    return "".join(out)


main()
