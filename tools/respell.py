#!/usr/bin/env python3
"""Brings the definitions and lemmas of specs/ and proofs/ to snake case, once, after the kit's port.py.

usage: python3 tools/respell.py [FOLDER]      the repository's top; with --list it only prints the names, old and new

A name that the repository's own .antt files declare, and that has a dash or a capital behind a small letter, is spelled anew wherever it stands: in
.antt files, in clauses and imports of .rt files, in must-fail edits, and between backticks in pages. A dash stays where it joins two names of
definitions, and behind a type. Rust's own names, strings, inputs and outputs stay. A name that would meet another one, or a word of the source, gets `_lem`.
"""
import collections
import os
import re
import sys

NAME = r"[^\s(){}.;,@\"«»:\[\]`|]+"
ANSWERS = re.compile(r"/proofs/(.*/)?(Proof|Answers|Invariants)\.antt$")
HEAD = re.compile(r"^( *)((?:(?:pub|abbrev|unfoldable|data|record|private) +)*)(" + NAME + r")((?: +\{[^{}]*\})*)( [^:]*?)?\s*:(?!:)")
HAND = {"isOne": "exactly_one"}
KEEP = {"use", "let", "λ", "where", "unfolding", "mod", "in"}
STD = {"length", "take", "drop", "append", "map", "set", "get_or", "nat_abs", "pos", "negsuc", "neg", "all", "zip", "sum", "filter", "reverse", "concat", "mod", "div", "mul", "add", "sub", "cond", "eqb", "ltb", "leb", "to_z", "of_z", "to_bits", "of_bits", "round"}


def crates(root):
    return sorted(c for c in os.listdir(os.path.join(root, "crates")) if os.path.isdir(os.path.join(root, "crates", c)))


def files(root, endings, folders=("src", "specs", "proofs", "must-fail")):
    for c in crates(root):
        for d in folders:
            for f, dirs, fs in os.walk(os.path.join(root, "crates", c, d)):
                dirs.sort()
                for x in sorted(fs):
                    if x.endswith(endings):
                        yield os.path.join(f, x)


def read(p):
    with open(p, encoding="utf-8") as f:
        return f.read()


def snake(word):
    """One part of a name, between dashes."""
    if word == "getD":
        return "get_or"
    if word[:1].isupper():
        return word
    word = re.sub(r"(?<=[a-z0-9])([A-Z]+)(?=[a-z0-9])", lambda m: "_" + (m[1].lower() if len(m[1]) == 1 else m[1][:-1].lower() + "_" + m[1][-1].lower()), word)
    word = re.sub(r"(?<=[a-z0-9])([A-Z]+)(?![a-z0-9])", lambda m: "_" + m[1].lower(), word)
    return re.sub(r"(?<=[a-z0-9])([ℤℕ])", r"_\1", word)


def declared(root):
    """Each name that lemma files and definitions declare, with what declares it."""
    found = collections.defaultdict(set)
    for p in files(root, ".antt", ("specs", "proofs")):
        if ANSWERS.search(p):
            continue
        for line in read(p).split("\n"):
            if line.lstrip().startswith("--"):
                continue
            m = HEAD.match(line)
            if not m or m[3] in KEEP:
                continue
            words = m[2].split()
            kind = "inner" if m[1] else "definition" if {"abbrev", "unfoldable", "data", "record"} & set(words) else "lemma"
            for n in [m[3]] + ((m[5] or "").split() if m[1] else []):
                if re.fullmatch(NAME, n):
                    found[n].add((kind, p))
    return found


def spelled(found):
    words = {snake(n) for n, ds in found.items() if any(k == "definition" and "/specs/" in p for k, p in ds) and "-" not in n} | STD
    new = {}
    for n in found:
        if "-" not in n and n == snake(n) or not re.search(r"\w", n) or "→" in n or n.startswith(("*", "+", "◌", "-")):
            continue
        parts = [snake(w) for w in n.split("-")]
        out = parts[0]
        for i, w in enumerate(parts[1:]):
            left = parts[i]
            joins = (left in words and w in words) or left[:1].isupper() or not re.match(r"\w", w) or not re.search(r"\w$", out)
            out += ("-" if joins else "_") + w
        if out != n:
            new[n] = out
    return new


def source_words(root):
    """What Rust's text names: fields, parameters, locals and constants, which a clause would read in the place of a definition."""
    out = set()
    for p in files(root, ".rt", ("src",)):
        t = re.sub(r"//[^\n]*", "", read(p))
        out |= set(re.findall(r"\b([a-z]\w*) *:(?!:)", t)) | set(re.findall(r"\b(?:const|static) (\w+)", t))
    return out


def table(root):
    found = declared(root)
    new = spelled(found)
    taken = set(found) | source_words(root)
    for p in files(root, (".antt", ".rt"), ("specs", "proofs", "src")):
        for m in re.finditer(r"(?:ghost use|^use) Rattle[^\n{;]*\{([^}]*)\}" if p.endswith(".antt") else r"ghost use [^\n{;]*\{([^}]*)\}", read(p), re.M):
            taken |= {w.strip().split(" as ")[-1] for w in m[1].split(",")} - set(new)
    first = sorted(new, key=lambda n: (not any(k == "definition" and "/specs/" in p for k, p in found[n]), n))
    new.update({n: HAND[n] for n in HAND if n in new})
    for n in first:
        while new[n] in taken:
            new[n] += "_lem"
        taken.add(new[n])
    return new


def main(argv):
    only = "--list" in argv
    argv = [a for a in argv if a != "--list"]
    root = argv[0] if argv else "."
    new = table(root)
    if only:
        for n in sorted(new):
            print(n, new[n])
        return
    inner = {n for n, ds in declared(root).items() if any(k == "inner" for k, _ in ds)}
    word = re.compile(NAME)

    own = tuple(f"Rattle.{c}." for c in crates(root))

    def turned(text, answers):
        lent = set()
        for m in re.finditer(r"\buse (\S+?)\.\{([^}]*)\}", text):
            if not m[1].startswith(own):
                lent |= {w.strip().split(" as ")[0] for w in m[2].split(",")}

        def one(m):
            n = m[0]
            if n in lent:
                return n
            tail = ""
            if n not in new and n.endswith("'") and n[:-1] in new:
                n, tail = n[:-1], "'"
            if n not in new:
                return m[0]
            if answers and text[m.start() - 1 : m.start()] == "." and n not in inner:
                start = text.rfind("\n", 0, m.start())
                if not re.search(r"(Rattle\.[\w.+'-]*|\b(spec|law|laws)\.)$", text[start : m.start()]):
                    return m[0]
            return new[n] + tail

        return word.sub(one, text)

    done = 0
    for p in files(root, (".antt", ".rt", ".edit")):
        t = read(p)
        u = turned(t, bool(ANSWERS.search(p)))
        if u != t:
            done += 1
            with open(p, "w", encoding="utf-8") as f:
                f.write(u)
    for folder, dirs, fs in os.walk(root):
        dirs[:] = [d for d in dirs if d not in (".git", "out", "target", "build", "data")]
        for x in fs:
            p = os.path.join(folder, x)
            if x.endswith(".md") and x not in ("PORT.md", "NOTICE"):
                t = read(p)
                u = re.sub(r"`[^`\n]+`", lambda m: turned(m[0], False), t)
                if u != t:
                    done += 1
                    with open(p, "w", encoding="utf-8") as f:
                        f.write(u)
    print(f"respell: {len(new)} names, {done} files")


main(sys.argv[1:])
