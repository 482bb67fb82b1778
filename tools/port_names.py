#!/usr/bin/env python3
"""Brings the repository's own names to the spelling of today's Rattle: words in snake case.

usage: python3 tools/port_names.py [--check]       at the top of the repository, once, after the kit's port.py

A definition, lemma, field, constructor or local of specs/ and proofs/ that has a dash or camel case, as
`uSearch` or `found-steps`, becomes `u_search`, `found_steps`. Types, facts and modules keep their capitals.
What stays: names of src/, names of the kit's libraries, and names that Rattle makes (in the folders of
functions below proofs/, only names that are declared in a file of definitions or lemmas turn).
Where two names would fall together, SPLIT says what the second is called. --check writes nothing and prints
the names that would fall together, each with where it is declared.
"""

import collections
import os
import re
import sys

# Of two names that would fall together, the lemma gets `_lem`, but where the two never meet.
APART = set("along-u along-v turn-of".split())
# Lemmas that have the new name of a definition of their crate already.
TAKEN = {("edges", "in_cell"), ("edges", "on_line"), ("mesh", "plain_cell")}
# The same, of names in APART, in the crate where they do meet.
MEET = {("path", "along-u"), ("path", "along-v")}
# Text of antt that is no name.
TOKEN = re.compile(r"[^\s(){}\[\],;.«»\"`:=λ→×]+")
DECLARED = re.compile(r"^\s*(?:(?:abbrev|unfoldable|pub|data|record) )*([^\s:(){}λ]+) :(?!:)")
LIBRARY = re.compile(r"^\s*(?:pub |ghost |unfoldable )*use (?!Rattle\.)|^\s*(?:pub |ghost )*use Rattle\.(?:std|core)\b")
RESERVED = set("record ruleset data open let in where abbrev pub use module unfolding unfoldable rw at elim as if then else".split())


def snake(name):
    parts = name.split("-")
    turned = []
    for part in parts:
        part = re.sub(r"(?<=[a-z0-9])([A-Z])(?=[A-Z]|$|_|')", lambda m: "_" + m[1].lower(), part)
        part = re.sub(r"(?<=[a-z0-9])([A-Z])", lambda m: "_" + m[1].lower(), part)
        turned.append(part)
    return "_".join(turned)


def is_odd(name):
    """A word with a dash between letters, or camel case that begins small."""
    if not name or not re.match(r"[a-z]", name):
        return False
    return bool(re.search(r"[\w'₀-₉]-[\w₀-₉]", name) or re.match(r"[a-z][a-z0-9]*[A-Z]", name))


def files(root):
    for folder, dirs, names in os.walk(os.path.join(root, "crates")):
        dirs[:] = sorted(d for d in dirs if d not in ("out", ".git"))
        for name in sorted(names):
            if name.endswith((".antt", ".rt", ".edit")):
                yield os.path.join(folder, name)


def read(path):
    with open(path, encoding="utf-8") as f:
        return f.read()


def is_of_function(path):
    """A file in a function's folder below proofs/, where Rattle's own names stand."""
    return path.endswith("/Proof.antt")


def declared(paths):
    found = collections.defaultdict(set)
    for path in paths:
        if not path.endswith(".antt") or is_of_function(path):
            continue
        for line in read(path).split("\n"):
            line = line.split("--")[0] if line.lstrip().startswith("--") else line
            it = DECLARED.match(line)
            if it:
                found[it[1]].add(path)
            for group in re.findall(r"[({]((?:[^\s(){}:]+ )+): ", line):
                for name in group.split():
                    found[name].add(path)
            for group in re.findall(r"λ ([^.]*)\. ", line):
                for name in re.findall(r"[^\s(){}:]+", group):
                    found[name].add(path)
            for name in re.findall(r"\blet ([^\s:=(){}]+)", line):
                found[name].add(path)
            # the parameters on the left side of a clause
            left = re.match(r"^\s*([^\s:=(){}]+(?: [^=]*)?) =(?: |$)", line)
            if left and " : " not in left[1]:
                for name in TOKEN.findall(left[1]):
                    found[name].add(path)
    return found


def of_libraries(text):
    """The names that a file brings from the kit's libraries."""
    found = set()
    for line in text.split("\n"):
        if LIBRARY.match(line):
            group = re.search(r"\{(.*)\}", line)
            if group:
                for it in group[1].split(","):
                    found.add(it.split(" as ")[0].strip())
    return found


def turn_line(line, table, kept):
    def one(m):
        name = m[0]
        if name in kept:
            return name
        # a name that has been turned before is a lemma only where no dot stands before it
        if name in table and "-" not in name and "_" in name and m.start() and line[m.start() - 1] == ".":
            return name
        if name in table:
            return table[name]
        return name

    if LIBRARY.match(line):
        return line
    return TOKEN.sub(one, line)


def turn_text(path, text, table):
    kept = of_libraries(text)
    out = []
    clause = 0
    for line in text.split("\n"):
        if path.endswith(".rt"):
            ghost = re.match(r"\s*ghost\b", line)
            opens = re.match(r"\s*(requires|ensures|invariant)\b", line)
            if ghost or opens or clause:
                out.append(turn_line(line, table, kept))
                clause = max(0, clause + line.count("{") - line.count("}"))
            else:
                out.append(re.sub(r"`[^`]*`", lambda m: turn_line(m[0], table, kept), line) if line.lstrip().startswith("//") else line)
            if not (opens or clause or ghost):
                clause = 0
            continue
        comment = re.match(r"\s*--", line)
        if comment and path.endswith(".antt"):
            out.append(re.sub(r"`[^`]*`", lambda m: turn_line(m[0], table, kept), line))
        else:
            out.append(turn_line(line, table, kept))
    return "\n".join(out)


def main(argv):
    root = os.getcwd()
    paths = list(files(root))
    found = declared(paths)
    table, by_new = {}, collections.defaultdict(set)
    for name in found:
        new = snake(name) if is_odd(name) else name
        by_new[new].add(name)
        if new != name:
            table[name] = new
    fallen = {new: olds for new, olds in by_new.items() if len(olds) > 1}
    for new, olds in fallen.items():
        for old in olds:
            if "-" in old and old not in APART:
                table[old] = new + "_lem"
    for new, olds in sorted(fallen.items()):
        print(f"look: {new}: " + "; ".join(f"{o} of " + ", ".join(sorted({re.sub('.*/crates/', '', p) for p in found[o]})[:4]) for o in sorted(olds)))
    for new in by_new:
        if new in RESERVED and by_new[new] - {new}:
            print(f"look: {new} is a word of the language: {by_new[new]}")
    libs = set()
    for path in paths:
        if path.endswith((".antt", ".rt")):
            libs |= of_libraries(read(path))
    for old, new in sorted(table.items()):
        if new in libs:
            print(f"look: {old} would be the library's {new}")
        if old in libs:
            print(f"look: {old} is also a library's name")
    if "--check" in argv:
        return 0
    n = 0
    for path in paths:
        if path.endswith(".edit"):
            continue
        text = read(path)
        crate = os.path.relpath(path, os.path.join(root, "crates")).split(os.sep)[0]
        own = dict(table)
        for of, old in TAKEN | MEET:
            if of == crate:
                own[old] = snake(old) + "_lem"
        turned = turn_text(path, text, own)
        if turned != text:
            n += 1
            with open(path, "w", encoding="utf-8") as f:
                f.write(turned)
    print(f"port_names: {len(table)} names, {n} files")
    return 0


if __name__ == "__main__":
    raise SystemExit(main(sys.argv[1:]))
