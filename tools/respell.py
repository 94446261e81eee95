#!/usr/bin/env python3
"""Spells the definitions and lemmas of the crates in snake case, as `bigEndian` and `four-bytes` to `big_endian` and `four_bytes`.

usage: tools/respell.py [--check]      at the top of the repository

A name is turned that a file of specs/ or proofs/ declares, and that begins with a small letter and has a capital or a dash in it. Types and
modules keep their capitals, and functions, strings, inputs and outputs are left alone. A name is turned in definitions and lemmas, in the
clauses and `ghost use` lines of the sources, in the edits of must-fail/, and in the code spans of comments and pages. TAKEN has the names whose
plain spelling means something else already; names that would fall together are printed, and nothing is written.
It was run once, after the kit's own respelling; a second run finds nothing.
"""
import collections
import glob
import os
import re
import sys

NAME = r'[^\s(){}.;,@"«»]+'
DECLARED = re.compile(rf"(?m)^ *(?:(?:pub|abbrev|unfoldable|record|data) )*({NAME})(?: \{{[^{{}}\n]*\}})*(?: \([^()\n]*\))* :(?=[ \n])")
LISTED = re.compile(rf"(?m)^ *\| ({NAME}) :|^ +(?:pub )?({NAME}) :")
LIBRARY = re.compile(r"(?m)^ *(?:pub |ghost )*use (?!Rattle\.)[^\s;{]+\.\{([^}]*)\}")
QUIET_ANTT = re.compile(r"--[^\n]*")
QUIET_RT = re.compile(r'//[^\n]*|b?"(?:\\.|[^"\\])*"')
# What is written of the proof of one function, whose names are the goals'.
OF_A_FUNCTION = re.compile(r"/proofs/.+/(Proof|Answers|Invariants)\.antt$")
SPAN = re.compile(r"`[^`\n]+`")
# Lemmas that would have the name of a word of the library, or of a variable beside them.
TAKEN = set("bit-and bit-or bit-xor nan-bits up-to".split())
# Lemmas that the kit's respelling gave a name that a definition has now.
GIVE_WAY = {it: it + "_lem" for it in "mask_at position_at units_of".split()}


def snake(name):
    words = re.sub(r"(?<=[a-z0-9])[A-Z]", lambda m: "_" + m[0].lower(), name)
    return words.replace("-", "_").replace("′", "'") + "_lem" * (name in TAKEN)


def read(path):
    with open(path, encoding="utf-8") as f:
        return f.read()


def paths(*patterns):
    found = []
    for pattern in patterns:
        found += glob.glob(pattern, recursive=True)
    return sorted(p for p in found if "/out/" not in p and os.path.isfile(p))


def lent_to(path):
    """The names that a file has of a library."""
    return {it for line in LIBRARY.findall(read(path)) for it in re.findall(NAME, line)}


def turned(names):
    tokens = re.compile(NAME)
    return lambda text: tokens.sub(lambda m: names.get(m[0], m[0]), text)


def quietly(text, quiet, code, names):
    """Turns the code by `code`, and of comments the code spans and the names in camel case."""
    camel = turned({old: new for old, new in names.items() if "-" not in old})
    parts, last = [], 0
    for m in quiet.finditer(text):
        parts.append(code(text[last : m.start()]))
        said = m[0]
        if said.startswith(("//", "--")):
            said = SPAN.sub(lambda s: "`" + code(s[0][1:-1]) + "`", said)
            said = camel(said)
        parts.append(said)
        last = m.end()
    return "".join(parts) + code(text[last:])


def main():
    antt = paths("crates/*/specs/**/*.antt", "crates/*/proofs/**/*.antt")
    laws = [p for p in antt if not OF_A_FUNCTION.search(p)]
    declared = set()
    for p in laws:
        text = QUIET_ANTT.sub("", read(p))
        declared.update(DECLARED.findall(text))
        declared.update(a or b for a, b in LISTED.findall(text))
    names = {it: snake(it) for it in declared if it[0].islower() and re.search("[A-Z′-]", it)}
    names = {old: new for old, new in names.items() if old != new}
    # A lemma gives way to the definition of its name.
    kept = {new for old, new in names.items() if "-" not in old} | declared
    names = {old: new + "_lem" * ("-" in old and new in kept) for old, new in names.items()}
    names.update({old: new for old, new in GIVE_WAY.items() if old in declared and names})
    bad = []
    by_new = collections.defaultdict(set)
    for old, new in names.items():
        by_new[new].add(old)
    for new, olds in by_new.items():
        if len(olds) > 1:
            bad.append(f"{', '.join(sorted(olds))}: all {new}")
    for p in antt + paths("crates/*/src/**/*.rt"):
        text = (QUIET_RT if p.endswith(".rt") else QUIET_ANTT).sub(" ", read(p))
        found = set(re.findall(NAME, text)) - lent_to(p)
        # A function's name stands in no clause, and a step of a proof behind a dot.
        words = set(re.findall(r"\b\w+\b(?! ?\(|::)", text) if p.endswith(".rt") else re.findall(r"(?<![^\s(){};,@«»])" + NAME, text))
        for old in sorted(found & set(names)):
            if names[old] in words - set(GIVE_WAY):
                bad.append(f"{p}: {old}: {names[old]} is there already")
    print(f"{len(names)} names")
    for line in bad:
        print("clash: " + line)
    if bad or "--check" in sys.argv:
        return 1 if bad else 0
    code = turned(names)
    count = 0
    for p in antt + paths("crates/*/src/**/*.rt", "crates/*/must-fail/*.edit", "README.md", "docs/*.md", "rust/*.md"):
        old = read(p)
        if p.endswith(".md"):
            new = SPAN.sub(lambda s: "`" + code(s[0][1:-1]) + "`", old)
        elif p.endswith(".edit"):
            new = code(old)
        else:
            own = {a: b for a, b in names.items() if a not in lent_to(p)}
            new = quietly(old, QUIET_RT if p.endswith(".rt") else QUIET_ANTT, turned(own), own)
        if new != old:
            count += 1
            with open(p, "w", encoding="utf-8") as f:
                f.write(new)
    print(f"{count} files changed")
    return 0


if __name__ == "__main__":
    raise SystemExit(main())
