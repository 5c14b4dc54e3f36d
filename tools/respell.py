#!/usr/bin/env python3
"""Brings the names of this repository's definitions and lemmas to the library's spelling.

usage: python3 tools/respell.py [FOLDER]     in the repository, after port.py; FOLDER is its top, else this one

Functions, lemmas, fields and constructors are in snake case, facts and types in upper camel case. A name is respelled
wherever it stands: in specs/ and proofs/, in clauses and imports of src/, and in code spans of the documents. Names that
Rattle makes (goals, steps, branches), names of the library, code, strings and edits stay. It prints each name that it
changes, and stops where two names would fall together.
"""
import os
import re
import sys

TOP = sys.argv[1] if len(sys.argv) > 1 else "."
SIGNATURE = re.compile(r"^\s*(?:(?:abbrev|unfoldable|pub|mutual|private)\s+)*((?:[^\s:{}().,;λ\"]+\s+)*[^\s:{}().,;λ\"]+)\s+:\s+(.*)$")
KIND = re.compile(r"^\s*(?:(?:abbrev|unfoldable|pub|mutual)\s+)*(?:data|record)\s+([^\s:{}().,;]+)")
WORD = re.compile(r"[^\s(){}\[\];,.\"`]+")
HEADS = {"use", "open", "module", "mod", "elim", "let", "in", "rw", "where", "infixl", "infixr", "infix"}


def texts(folder, ends):
    for at, dirs, files in os.walk(folder):
        dirs[:] = sorted(d for d in dirs if d not in ("out", ".git"))
        for f in sorted(files):
            if f.endswith(ends):
                yield os.path.join(at, f)


def read(path):
    with open(path, encoding="utf-8") as f:
        return f.read()


def respelled(name):
    if name[0].isupper():
        return "".join(p[:1].upper() + p[1:] for p in re.split(r"[-_]", name))
    return re.sub(r"([a-z0-9])([A-Z])", lambda m: m.group(1) + "_" + m.group(2).lower(), name.replace("-", "_"))


def declared():
    names = set()
    for path in texts(os.path.join(TOP, "crates"), ".antt"):
        for line in read(path).split("\n"):
            line = line.split(" -- ")[0]
            if line.lstrip().startswith("--"):
                continue
            names |= set(re.findall(r" as ([^\s,}]+)", line)) if line.startswith("use ") else set()
            kind, signature = KIND.match(line), SIGNATURE.match(line)
            if kind:
                names.add(kind.group(1))
            elif signature and not re.match(r"(goal|need)\.", signature.group(2)):
                found = signature.group(1).split()
                if not HEADS & set(found):
                    names |= set(found)
    return names


def borrowed():
    """The names that the files take from the library or from what Rattle makes of the code."""
    names = set()
    for path in texts(os.path.join(TOP, "crates"), (".antt", ".rt")):
        for m in re.finditer(r"use ((?:Rattle\.std|borrow|mir|mathlib|Prim|lib|native)\.[\w.]*)\{([^}]*)\}", read(path)):
            names |= {n.strip() for n in m.group(2).split(",")}
    return names


def renaming():
    own, theirs = declared(), borrowed()
    turned = {n: respelled(n) for n in own if re.match(r"[A-Za-z]", n) and respelled(n) != n and n not in theirs}
    taken = {}
    for n in sorted(own):
        new = turned.get(n, n)
        if new in taken and taken[new] != n or new in theirs and n in turned:
            sys.exit(f"respell: {n} and {taken.get(new, 'a name of the library')} would both be {new}")
        taken[new] = n
    return turned


def turn(text, turned, keep=(), roots="goal"):
    """Text with its own names respelled, but for the first step of a path from one of the roots."""
    root = re.compile(r"(?<![\w.'-])(" + roots + r")\.$")

    def word(m):
        w, before = m.group(0), text[max(0, m.start() - 8):m.start()]
        return w if w not in turned or w in keep or root.search(before) else turned[w]

    return WORD.sub(word, text)


def turn_proof(text, turned):
    """A file of specs or proofs. In one that answers goals, c, w and l hold what Rattle has made of the code."""
    keep = set()
    for m in re.finditer(r"\.(?:Goals|Needs|Given)\.\{([^}]*)\}", text):
        keep |= {n.strip() for n in m.group(1).split(",")}
    keep |= {n for m in re.finditer(r"^\s*(?:abbrev )?pub (\S+) : goal\.", text, re.M) for n in [m.group(1)]}
    answers = re.search(r"^use \S+\.(Goals|Needs|Given) as ", text, re.M)
    return turn(text, turned, keep, "goal|c|w|l" if answers else "goal")


def turn_source(text, turned):
    """The clauses, ghost items and imports of a source file, and none of its code, strings or comments."""
    out, at = [], 0
    for m in re.finditer(r"^[ \t]*(?:ghost use [^;]*;|(?:requires|ensures|ghost)\b[^\n{]*\{)", text, re.M):
        if m.start() < at:
            continue
        end = m.end()
        if m.group(0).endswith("{"):
            depth = 1
            while depth and end < len(text):
                depth += {"{": 1, "}": -1}.get(text[end], 0)
                end += 1
        out += [text[at:m.start()], turn(text[m.start():end], turned)]
        at = end
    return "".join(out) + text[at:]


def turn_document(text, turned):
    return re.sub(r"`[^`\n]+`", lambda m: turn(m.group(0), turned), text)


def main():
    turned = renaming()
    for ends, how, folder in ((".antt", turn_proof, "crates"), (".rt", turn_source, "crates"), (".md", turn_document, "docs"), ("README.md", turn_document, "")):
        for path in texts(os.path.join(TOP, folder), ends) if folder else [os.path.join(TOP, ends)]:
            if not os.path.exists(path) or os.path.basename(path).startswith("PORT"):
                continue
            old = read(path)
            new = how(old, turned)
            if new != old:
                with open(path, "w", encoding="utf-8") as f:
                    f.write(new)
    for n in sorted(turned):
        print(f"{n} {turned[n]}")


main()
