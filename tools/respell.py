#!/usr/bin/env python3
"""Spells the names of the repository's own definitions, lemmas and record fields in snake case, as today's Rattle writes them.

usage: python3 tools/respell.py [--dry]      once, at the top of the repository, right behind port.py

A name that a file of specs/ or of proofs/ (not a function's own folder) declares is turned where it is used: in .antt and .rt
files, in must-fail edits, and between backticks in docs/ and README.md. The module `code` of specs/ gets a module's capital. Types
keep theirs, and functions of src/, fields of Rust structs and exported names their spelling, as does a name that a file has from
a library. It stops, and changes
nothing, where two names would fall together, or where a new name is used already in a file that uses the old one.
"""
import collections
import os
import re
import sys

NAME = r"[^\s(){}\[\];:,.@\"«»`λ]+"
TOKEN = re.compile(NAME)
DECLARED = re.compile(rf"^(\s*)(?:(?:unfoldable|abbrev|pub|opaque|data|record)\s+)*({NAME})(?:\s+(?:\([^)]*\)|\{{[^}}]*\}}))*\s*:\s")
# a definition of a proof that would fall together with a theorem of specs/
APART = {
    "twoSteps": "counted_in_two",
    "sevenSteps": "counted_in_seven",
    "endDate": "date_of_end",
    "fourDates": "dates_of_four",
    "needDates": "dates_of_need",
}


def snake(name):
    name = re.sub(r"(?<=[a-z0-9])([A-Z])", lambda m: "_" + m.group(1).lower(), name)
    return name.replace("-", "_")


def files(*ends):
    for folder, dirs, names in os.walk("crates"):
        dirs[:] = sorted(d for d in dirs if d not in ("out", ".git"))
        for n in sorted(names):
            if n.endswith(ends):
                yield os.path.join(folder, n)


def is_own(path):
    """A file whose names are ours: not one of a function's folder, whose names Rattle asks for."""
    return not path.endswith(("/Proof.antt", "/Answers.antt", "/Invariants.antt"))


def declared():
    found = collections.defaultdict(set)
    for p in files(".antt"):
        if not is_own(p):
            continue
        with open(p, encoding="utf-8") as f:
            for line in f:
                if line.lstrip().startswith(("--", "use ", "pub use ", "mod ", "pub mod ", "module ", "let ")):
                    continue
                m = DECLARED.match(line)
                if m:
                    found[m.group(2)].add(p)
    return found


def imported(text):
    """The names that a file has from a library of the kit."""
    names = set()
    for m in re.finditer(r"(?m)^\s*(?:pub |ghost )*use ([\w.'◌-]+?)\.\{([^}]*)\}", text):
        parts = m.group(1).split(".")
        if parts[0] == "Rattle" and parts[1] != "std" and os.path.isdir(os.path.join("crates", parts[1])):
            continue
        for it in m.group(2).split(","):
            names.add(it.split(" as ")[0].strip())
    return names


def turned(text, names, skip=()):
    text = re.sub(r"\bspecs\.code\b", "specs.Code", text)
    text = re.sub(r"\bspecs/code\b", "specs/Code", text)
    text = re.sub(r"(?m)^pub mod code$", "pub mod Code", text)
    return TOKEN.sub(lambda m: names[m.group(0)] if m.group(0) in names and m.group(0) not in skip else m.group(0), text)


def main():
    dry = "--dry" in sys.argv
    own = declared()
    names = {}
    groups = collections.defaultdict(list)
    for n in own:
        if n[0].islower():
            groups[APART.get(n, snake(n))].append(n)
    for new, olds in groups.items():
        # the definition has the plain name, and a lemma that would have it too gets `_lem`
        olds.sort(key=lambda n: (not any("/specs/" in p for p in own[n]), "-" in n, n == snake(n), n))
        for i, n in enumerate(olds):
            to = new if i == 0 else new + "_lem"
            if to != n:
                names[n] = to
    bad = []
    back = collections.defaultdict(set)
    for n in own:
        back[names.get(n, n)].add(n)
    bad += [f"fall together: {sorted(v)} as {k}" for k, v in sorted(back.items()) if len(v) > 1]
    work = {}
    for p in files(".antt", ".rt", ".edit"):
        with open(p, encoding="utf-8") as f:
            text = f.read()
        skip = imported(text) if p.endswith((".antt", ".rt")) else ()
        bare = re.sub(r"(?m)(--|//).*$", "", text)
        used = set(TOKEN.findall(bare))
        free = set(re.findall(rf"(?<![.\w'-]){NAME}", bare))
        if p.endswith(".antt"):
            for n in sorted(used & set(names)):
                if n not in skip and names[n] in free - set(names) and is_own(p):
                    bad.append(f"{p}: {n} and {names[n]}")
        if p.endswith(".rt"):
            for n in sorted(used & set(names)):
                if re.search(rf"\b{re.escape(names[n])}\s*:(?!:)", bare) or re.search(rf"\b(const|let|let mut) {re.escape(names[n])}\b", bare):
                    bad.append(f"{p}: {n} and the Rust name {names[n]}")
        work[p] = (text, turned(text, names, skip))
    for p in ["README.md"] + [os.path.join(d, n) for d, _, ns in os.walk("docs") for n in sorted(ns) if n.endswith(".md")]:
        with open(p, encoding="utf-8") as f:
            text = f.read()
        work[p] = (text, re.sub(r"`[^`\n]*`", lambda m: turned(m.group(0), names), text))
    for b in bad:
        print(b)
    print(f"{len(names)} names, {sum(a != b for a, b in work.values())} files, {len(bad)} in the way")
    if dry or bad:
        return bool(bad)
    for p, (a, b) in work.items():
        if a != b:
            with open(p, "w", encoding="utf-8") as f:
                f.write(b)
    for c in sorted(os.listdir("crates")):
        for end in ("", ".antt"):
            if os.path.exists(f"crates/{c}/specs/code{end}"):
                os.rename(f"crates/{c}/specs/code{end}", f"crates/{c}/specs/Code{end}")
    return 0


if __name__ == "__main__":
    sys.exit(main())
