#!/usr/bin/env python3
"""Brings the repository's own definitions and lemmas to the library's spelling, once, right after the toolchain's own script.

usage: respell.py [--list] ROOT

Definitions, fields and constructors in camel case turn to snake case, nodes of modules to camel case. In a lemma's name a dash stays between two names of definitions, and
else turns to an underscore; the proof of a function f is f_spec. A lemma that would then have the name of something else gets _lem. Functions of src/, exported
names, strings, inputs and outputs keep their names: nothing there is written in camel case or with a dash. --list writes nothing and prints old and new names.
"""

import collections
import glob
import os
import re
import subprocess
import sys

# What the files say otherwise than the rule: lemmas that would have the name of a definition, and fields, which may have it.
BY_HAND = {
    "all_yes": "all_yes_lem",
    "one_less": "one_less_lem",
    "one_on": "one_on_lem",
    "goes_to": "goes_to_lem",
    "first-line": "first_line",
}
WORD = re.compile(r"[^\s(){}\[\];,.:|\"`λ→]+")
DECLARED = re.compile(r"^\s*(?:abbrev\s+|unfoldable\s+|pub\s+|\|\s*)*([^\s(){}\[\];,.:|\"`λ→]+(?:\s+[^\s(){}\[\];,.:|\"`λ→]+)*)\s+:(?:\s|$)")
# Names of the library's functions and constructors that own lemmas speak of.
LIBRARY = """zero suc none some cons nil append map length take drop replicate reverse range filter set get_or flat_map sum min max mul add sub choose snoc true false eq le lt
total one two up left right splice""".split()


def files(root, *ends):
    for folder, dirs, names in os.walk(os.path.join(root, "crates")):
        dirs[:] = sorted(d for d in dirs if d != "out")
        for n in sorted(names):
            if n.endswith(ends):
                yield os.path.join(folder, n)


def read(p):
    with open(p, encoding="utf-8") as f:
        return f.read()


def snake(n):
    return re.sub(r"(?<=[a-z0-9])([A-Z])", lambda m: "_" + m.group(1).lower(), n)


def declared(root):
    """The names that specs/ and proofs/ declare: those of definitions, and those of lemmas."""
    defs, lemmas = set(), set()
    for p in files(root, ".antt"):
        for line in read(p).split("\n"):
            if line.lstrip().startswith("--") or line.startswith("use ") or line.startswith("pub use "):
                continue
            m = DECLARED.match(line)
            if m:
                names = [n for n in m.group(1).split() if n not in ("abbrev", "pub", "unfoldable", "record", "data", "let", "module", "where", "λ")]
                (defs if "/specs/" in p else lemmas).update(names)
            m = re.match(r"^\s*(?:abbrev |pub )*(?:record|data)\s+([^\s(){}:]+)", line)
            if m:
                defs.add(m.group(1))
    return defs, lemmas - defs


def imported(root):
    """The names that the files take from the library."""
    found = set()
    for p in files(root, ".antt", ".rt"):
        for m in re.finditer(r"use ((?!Rattle\.(?!std\.))[\w.ᴰ]+)\.\{([^}]*)\}", read(p)):
            found |= {n.split(" as ")[0].strip() for n in m.group(2).split(",")}
    return found


def main(argv):
    listing = "--list" in argv
    root = [a for a in argv if not a.startswith("--")][0]
    defs, lemmas = declared(root)
    theirs = imported(root)
    turned = {}
    for n in defs | lemmas:
        if re.match(r"^[a-z][A-Za-z0-9_']*$", n) and re.search(r"[A-Z]", n) and n not in theirs:
            turned[n] = snake(n)
    for p in files(root, ".antt", ".rt"):
        for n in re.findall(r"(?:\bas |[( {])([a-z][a-z0-9]*[A-Z][A-Za-z0-9']*)(?=[ ,}:)])", "\n".join(l for l in read(p).split("\n") if "--" not in l[:6])):
            if n not in theirs and not n.startswith("arg"):
                turned[n] = snake(n)
    known = {turned.get(d, d) for d in defs if d[0].islower() and "-" not in d} | set(LIBRARY) | {snake(t) for t in theirs}
    tokens = collections.Counter()
    for p in files(root, ".antt", ".rt"):
        tokens.update(WORD.findall(read(p)))
    goals = set()
    for p in files(root, "Proof.antt"):
        goals |= set(re.findall(r"(?m)^\s*(?:abbrev )?(\S+) : (?:\w[\w-]*-?)?(?:tie|lts)\.(?:Need|invariant|decreases)", read(p)))
        goals |= set(re.findall(r"(?m)^\s*(?:abbrev )?(\S+) : \S*lts\.(?:Need|invariant|decreases)", read(p)))
    spec = {}
    taken = set(tokens) | set(turned.values())
    for n in sorted(lemmas | defs):
        if "-" not in n or n in theirs or n in goals or not re.match(r"^[^\W\d_μ][\w'-]*$", n) or n.endswith("-spec") or n.startswith("slice-aggregate"):
            continue
        parts = [snake(q) for q in n.split("-")]
        new = parts[0]
        for a, b in zip(parts, parts[1:]):
            left = re.split(r"-", new)[-1]
            new += ("-" if (left in known and b in known) else "_") + b
        if new != n:
            if new in taken:
                new += "_lem"
            turned[n] = new
            taken.add(new)
    turned.update((n, new) for n, new in BY_HAND.items() if n in defs | lemmas)
    for old, new in list(turned.items()):
        if re.search("[A-Z]", old) and (tokens[new] or list(turned.values()).count(new) > 1):
            print(f"falls together: {old} -> {new} ({tokens[new]})")
    if listing:
        for old in sorted(turned):
            print(old, turned[old])
        return 0
    nodes = set()
    for p in glob.glob(os.path.join(root, "crates/*/specs/*")):
        b = os.path.basename(p)
        if os.path.isdir(p) and b[0].islower() and b != "declared":
            nodes.add(b)
    for p in files(root, ".antt", ".rt", ".edit"):
        text = read(p)
        out = []
        for line in text.split("\n"):
            comment = line.lstrip().startswith("--") or line.lstrip().startswith("//")

            def word(m):
                w = m.group(0)
                if w in turned and not (comment and "-" in w):
                    return turned[w]
                return w

            # a string of the program, or a text of the paper, keeps its words
            line = re.sub(r'"(?:[^"\\]|\\.)*"|' + WORD.pattern, lambda m: m.group(0) if m.group(0).startswith('"') else word(m), line) if not p.endswith(".edit") else WORD.sub(word, line)
            for b in nodes:
                line = re.sub(rf"\bspecs\.{b}\b", f"specs.{b.capitalize()}", line)
                if p.endswith("specs/Lib.antt"):
                    line = re.sub(rf"\bmod {b}\b", f"mod {b.capitalize()}", line)
            out.append(line)
        folder = os.path.basename(os.path.dirname(p))
        new = "\n".join(out)
        if p.endswith("Proof.antt"):
            name = re.sub(r"^\+", "", folder).replace("+", "_") + "_spec"
            cited = set(re.findall(r"(?m)^pub (\S+-spec) :", new))
            for c in cited:
                new = re.sub(rf"(?<![\w'+-]){re.escape(c)}(?![\w'-])", ("+" if folder.startswith("+") else "") + name, new)
        if new != text:
            with open(p, "w", encoding="utf-8") as f:
                f.write(new)
    for b in nodes:
        for p in glob.glob(os.path.join(root, f"crates/*/specs/{b}")) + glob.glob(os.path.join(root, f"crates/*/specs/{b}.antt")):
            to = os.path.join(os.path.dirname(p), os.path.basename(p).replace(b, b.capitalize(), 1))
            subprocess.run(["git", "-C", root, "mv", p, to], check=True)
    for p in glob.glob(os.path.join(root, "README.md")) + glob.glob(os.path.join(root, "docs/*.md")):
        text = read(p)
        new = re.sub(r"`[^`\n]+`", lambda m: WORD.sub(lambda w: turned.get(w.group(0), w.group(0)), m.group(0)), text)
        if new != text:
            with open(p, "w", encoding="utf-8") as f:
                f.write(new)
    return 0


if __name__ == "__main__":
    raise SystemExit(main(sys.argv[1:]))
