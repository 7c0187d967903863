#!/usr/bin/env python3
"""Spells the repository's own definitions and lemmas as today's Rattle does.

Run once at the top, after the toolchain's own script. Words are in snake case; a dash joins two names of definitions,
a plain word is added with `_`; types and modules keep their capitals. Functions of src/, strings and inputs keep theirs.
With --list it prints the names and changes nothing.
"""
import collections
import glob
import os
import re
import subprocess
import sys

TOKEN = r"[^\s(){}\[\].,;:λ→`\"/*=<>≡≤≢×+∷∙|↦&!?]+"
DECLARED = re.compile(r"^(\s*)((?:(?:abbrev|unfoldable|opaque|instance|private|pub)\s+)*)"
                      r"((?:[^\s:=(){}|.,;]+\s+)*[^\s:=(){}|.,;]+)\s+:(?:\s|$)")
TYPED = re.compile(r"^\s*((?:(?:abbrev|pub)\s+)*)(data|record)\s+([^\s:(){}]+)")
FIRST = re.compile(r"^\s*(?:pub\s+)?(?:abbrev\s+|unfoldable\s+)?pub\s+([^\s:=(){}|.,;]+)\s*(?::|$|\()")


def files(pattern):
    return sorted(f for f in glob.glob(pattern, recursive=True) if "/out/" not in f)


def declared():
    names = collections.defaultdict(set)
    for f in files("crates/*/specs/**/*.antt") + files("crates/*/proofs/*.antt"):
        for line in open(f, encoding="utf-8"):
            if re.match(r"\s*(--|use\b|pub mod|mod\b|pub use)", line):
                continue
            m = DECLARED.match(line)
            if m:
                for n in m.group(3).split():
                    if n not in ("abbrev", "unfoldable", "pub", "data", "record", "module", "where", "_", "let", "in"):
                        names[n].add(f)
                continue
            m = TYPED.match(line) or None
            if m:
                names[m.group(3)].add(f)
    return names


def snake(part):
    if not part or part[0].isupper():
        return part
    return re.sub(r"(?<=[a-z0-9'])([A-Z])", lambda m: "_" + m.group(1).lower(), part)


def kit_words():
    """Names that the toolchain's library declares: they stay, and join with a dash."""
    words = set()
    page = subprocess.run(["rt", "doc"], capture_output=True, text=True, check=True).stdout.strip()
    root = os.path.join(os.path.dirname(page), "rattle")
    for d, _, fs in os.walk(root):
        if "/out" in d:
            continue
        for f in fs:
            if f.endswith(".antt"):
                for line in open(os.path.join(d, f), encoding="utf-8", errors="replace"):
                    m = DECLARED.match(line)
                    if m:
                        words.update(m.group(3).split())
    return words


def mapping():
    names = declared()
    kit = kit_words()
    spec = {n for n, fs in names.items() if any("/specs/" in f for f in fs)}
    definitions = {snake(n.replace("-type", "_type")) for n in spec} - {"of", "at", "is", "in", "with"}
    out = {}
    for n in sorted(names):
        if (n in kit and not re.search("[a-z][A-Z]", n)) or "◌" in n:
            continue
        if n[0].isupper() and "-" in n and n in spec:      # Bool-type and the like are numbers, not types
            out[n] = n.lower().replace("-", "_")
            continue
        if n[0].isupper():
            continue
        parts = [snake(p) for p in n.split("-")]
        if n in spec:
            new = "_".join(parts)
        else:
            new = parts[0]
            for a, b in zip(parts, parts[1:]):
                joined = (a in definitions or a[:1].isupper()) and (b in definitions or b[:1].isupper())
                new += ("-" if joined else "_") + b
        if new != n:
            out[n] = new
    taken = collections.defaultdict(list)
    for n in names:
        taken[out.get(n, n)].append(n)
    for new, olds in sorted(taken.items()):
        if len(olds) > 1 or (new in kit and olds[0] in out):
            # The definition keeps the name, the lemma gets `_lem`.
            keeps = ([o for o in olds if o in spec] or [o for o in olds if o not in out]
                     or [o for o in olds if "-" not in o])
            for o in olds:
                if o not in keeps:
                    out[o] = new + "_lem"
    return names, spec, kit, out


def one_of(names):
    return "(%s)" % "|".join(map(re.escape, sorted(names, key=len, reverse=True)))


def main():
    names, spec, kit, out = mapping()
    if "--list" in sys.argv:
        for o in sorted(out):
            print(o, out[o], "spec" if o in spec else "lemma")
        return
    # A lemma that was snake case already and has a definition's name: its name may stand in a path too, after a dot.
    again = {n for n in out if re.fullmatch(r"[a-z0-9_]+", n)}
    anywhere = re.compile(r"(?<![\w'\-◌])" + one_of(set(out) - again) + r"(?![\w'\-◌])")
    bare = re.compile(r"(?<![\w'\-◌.])" + one_of(again) + r"(?![\w'\-◌])") if again else None
    for f in files("crates/**/*.antt") + files("crates/*/src/**/*.rt"):
        text = new = open(f, encoding="utf-8").read()
        if bare and f.endswith(".antt"):
            new = bare.sub(lambda m: out[m.group(1)], new)
        if f.endswith(".rt") or re.search(r"/proofs/[^/]+/", f):
            new = respell_walk(new, out, again)
        else:
            new = anywhere.sub(lambda m: out[m.group(1)], new)
        if new != text:
            open(f, "w", encoding="utf-8").write(new)
    spelled = {out.get(n, n) for n in names}
    for f in ["README.md", "docs/PROMISES.md", "docs/DECISIONS.md", "docs/PARTS.md"]:
        if not os.path.exists(f):
            continue
        text = open(f, encoding="utf-8").read()

        def quoted(m):
            inner = m.group(1)
            if inner in out and inner not in again:
                return "`" + out[inner] + "`"
            if re.fullmatch(r"[a-z][A-Za-z0-9]*", inner) and snake(inner) in spelled:
                return "`" + snake(inner) + "`"
            return m.group(0)
        new = re.sub(r"`([^`\s]+)`", quoted, text)
        if new != text:
            open(f, "w", encoding="utf-8").write(new)


def respell_walk(text, out, again):
    """A function's proof has names of goals and steps, which Rattle makes; a source has Rust's own. There only what the
    file imports, and fields, are the repository's."""
    imported = set()
    for m in re.finditer(r"\buse Rattle\.[^\s{;]*?\.?\{([^}]*)\}", text):
        for n in m.group(1).split(","):
            imported.add(n.strip().split(" as ")[0].strip())
    words = {n for n in out if n in imported and n not in again}
    fields = {n for n in out if re.search(r"^[a-z][a-z0-9]*[A-Z]", n) and "-" not in n}
    if words - fields:
        text = re.sub(r"(?<![\w'\-◌.])" + one_of(words - fields) + r"(?![\w'\-◌])", lambda m: out[m.group(1)], text)
    return re.sub(r"(?<![\w'\-◌])" + one_of(fields) + r"(?![\w'\-◌])", lambda m: out[m.group(1)], text)


if __name__ == "__main__":
    main()
