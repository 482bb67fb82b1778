#!/usr/bin/env python3
"""Prints the places in crates/*/src that one of the seven points of the design pass names, and a count for each point.

usage: python3 tools/places.py [POINT]        at the top of the repository

A line is: point, file:line, name, with tabs between. What is found is found by patterns of the text: docs/DESIGN-PLACES.md says what
each place is, which finds are no places, and which places only a reader sees.
"""
import difflib
import glob
import re
import sys
from collections import defaultdict, namedtuple

Fn = namedtuple("Fn", "file line name params result clauses body start text above")
Type = namedtuple("Type", "at kind name fields")
WHOLE = r"(?:u8|u16|u32|u64|usize|i32|i64)"
KIND = r"(?:refusal|kind|code|mark|direction|operation|tag|status)"
KEYWORDS = set("if else match while loop for in let mut return break continue true false as fn self".split())
# A comment that gives numbers or an empty answer a meaning of their own.
STANDS_FOR = r"where there is (?:none|no such)|or zero where|or nothing where|or \d past|becomes 0|\b\d+ (?:for what|for any|for none|where|a|Grid|add)\b|^-?\d "
# Names of functions that compare, order, copy or convert.
BY_HAND = r"""(?:\w+_)?(?:to|from)_c|same_\w+|is_(?:seam|told|answered|refused|reverse|negative|finite)|(?!place|visit|answer)\w+_of
    |(?:read|put|write|zero|of)_\w+|(?:point|param|event)_at|(?:floor|ceil|to)_[a-z]\d\d|to_usize|total_cmp|clamp|max|abs|round|ceil
    |precedes|number|word|wide|float|digit|joined|unjoined|mapping|tolerances|given_seam|put|open_gap|insert_(?:lambda|code)|flatten|opposite|one_more"""


def end_of(text, at):
    """The place after the bracket that closes the one at `at`."""
    depth = 0
    for i in range(at, len(text)):
        depth += (text[i] in "([{") - (text[i] in ")]}")
        if depth == 0:
            return i + 1


def parts(text, mark=",", opens="([{<", shuts=")]}>"):
    """The text cut at each `mark` that stands in no bracket."""
    out, depth = [""], 0
    for c in text:
        depth += (c in opens) - (c in shuts)
        out[-1:] = [out[-1], ""] if c == mark and depth <= 0 else [out[-1] + c]
    return [" ".join(p.split()) for p in out if p.strip()]


def read():
    """The functions and the types, comments and ghost uses left out."""
    fns, types = [], []
    for file in sorted(glob.glob("crates/*/src/**/*.rt", recursive=True)):
        raw = open(file, encoding="utf-8").read()
        text = re.sub(r"//[^\n]*|^ghost use[^\n]*", "", raw, flags=re.M)
        line = lambda at: text.count("\n", 0, at) + 1
        for m in re.finditer(r"^\s*(?:pub )?(struct|enum) (\w+)[^{(;]*[{(]", text, re.M):
            types.append(Type("%s:%d" % (file, line(m.end())), m[1], m[2], parts(re.sub(r"\bpub ", "", text[m.end():end_of(text, m.end() - 1) - 1]))))
        for m in re.finditer(r"^[ \t]*(?:pub(?:\([a-z]+\))? )?(?:const )?(?:extern \"C\" )?fn (\w+)", text, re.M):
            first = text.index("(", m.end())
            at = head = end_of(text, first)
            clauses = []
            while True:
                word = re.compile(r"\[[^\]]*\]|\b(?:requires|ensures)\b[^{]*|[{;]").search(text, at)
                if word.group()[0] in "{;":
                    break
                if word.group()[0] == "[":  # an array's type
                    at = word.end()
                    continue
                at = end_of(text, word.end())
                clauses.append(" ".join(text[word.end() + 1:at - 1].split()))
            result = re.split(r"\b(?:requires|ensures)\b", text[head:word.start()])[0].replace("->", "").strip()
            above = re.search(r"((?:\s*(?://|#\[)[^\n]*\n)*)\Z", "\n".join(raw.split("\n")[:line(m.end()) - 1]) + "\n")[1]
            body = text[word.start():end_of(text, word.start())] if word.group() == "{" else ""
            fns.append(Fn(file, line(m.end()), m[1], parts(text[first + 1:head - 1]), result, clauses, body, word.start(), text, re.sub(r"(?m)^\s*// ?", "", above)))
    return fns, types


def where(fn, at=None):
    """file:line of a function, or of place `at` of its body."""
    return "%s:%d" % (fn.file, fn.line if at is None else fn.text.count("\n", 0, fn.start + at) + 1)


def point1(fns, types):
    """Own Option and Result, flags beside values, numbers for cases, and answers handed on where `?` would do."""
    for t in types:
        bare = [f for f in t.fields if re.fullmatch(r"\w+", f)]
        if t.kind == "enum" and any(re.fullmatch(r"\w+\(Refusal\)", f) for f in t.fields):
            yield t.at, "enum like Result: " + t.name
        elif t.kind == "enum" and len(t.fields) - len(bare) == 1 and bare:
            yield t.at, "enum like Option: " + t.name
        flags = [f for f in t.fields if re.search(r": bool$|\b%s: %s$" % (KIND, WHOLE), f)]
        if t.kind == "struct" and len(t.fields) > 1 and flags:
            yield t.at, "struct with a flag or number: %s {%s}" % (t.name, ", ".join(flags))
    for fn in fns:
        flags = [p for p in fn.params if re.search(r": bool$|\b%s: %s$" % (KIND, WHOLE), p)]
        if flags:
            yield where(fn), "flag or number as a parameter: %s(%s)" % (fn.name, ", ".join(flags))
        if fn.result == "bool" and any("&mut" in p for p in fn.params):
            yield where(fn), "flag beside what is written: " + fn.name
        if re.search(STANDS_FOR, fn.above, re.M) or fn.name in ("code_of", "number") and re.fullmatch(WHOLE, fn.result):
            yield where(fn), "number or empty answer for a case: " + fn.name
        for m in re.finditer(r"(\w+::\w+)\((\w+)\) => (?:\{\s*return )?\w+::(\w+)\(\2\)|if let (\w+::\w+)\((\w+)\) = [^{]*\{\s*return \w+::\w+\(\5\);", fn.body):
            if re.search(r"Failed|Refused|Stop", m.group()):
                yield where(fn, m.start()), "answer handed on by hand: " + fn.name


def tokens(body):
    """A body's words: each name by its first place, all numbers alike."""
    seen = {}
    words = re.findall(r"'?[A-Za-z_]\w*|\d[\w.]*|[^\s\w]", body)
    return ["0" if w[0].isdigit() else w if w in KEYWORDS or not re.match(r"[A-Za-z_]", w) else "n%d" % seen.setdefault(w, len(seen)) for w in words]


def point2(fns, types):
    """Groups of functions and of loops whose bodies are alike, and of types with the same fields."""
    def alike(a, b):
        x, y = a[2], b[2]
        near = min(len(x), len(y)) >= 14 and abs(len(x) - len(y)) <= 0.15 * len(x)
        return near and difflib.SequenceMatcher(None, x, y, autojunk=False).ratio() >= 0.9

    def same(a, b):
        return a[2] == b[2] and len(a[2]) > 1 and (a[1] == b[1] or len(a[2]) > 2 or "(Refusal)" in a[2])

    def groups(items, test):
        out = []
        for item in items:
            near = [g for g in out if any(test(item, other) for other in g)]
            out = [g for g in out if g not in near] + [sum(near, []) + [item]]
        return sorted(sorted(g) for g in out if len(g) > 1)
    loops = [(where(fn, m.start()), "loop in " + fn.name, tokens(fn.body[m.start():end_of(fn.body, m.end() - 1)]))
             for fn in fns for m in re.finditer(r"(?<!: )\b(?:loop|while [^{]*) \{", fn.body)]
    shapes = [(t.at, t.name, [re.sub(r"^\w+(?:: )?", "", f) for f in t.fields]) for t in types]
    bodies = [(where(fn), fn.name, tokens(fn.body)) for fn in fns]
    for g in groups(bodies, alike) + groups(loops, alike) + groups(shapes, same):
        yield g[0][0], "%d twins: %s" % (len(g), ", ".join("%s %s" % (i[1], i[0].split("crates/")[1]) for i in g))


def point3(fns, types):
    """Loops whose body changes a counter."""
    for fn in fns:
        for m in re.finditer(r"\b(while [^{]*|loop) \{", fn.body):
            counters = sorted(set(re.findall(r"\b(\w+) [+-]= ", fn.body[m.end():end_of(fn.body, m.end() - 1)])))
            if counters:
                yield where(fn, m.start()), "%s: %s, by hand: %s" % (fn.name, m[1].strip(), ", ".join(counters))


def point4(fns, types):
    """Comparison, order, copying and conversion by hand, and fields that are copied before they are used."""
    yield from ((t.at, "own enum of std's: " + t.name) for t in types if t.name in ("Ordering", "Option", "Result"))
    for fn in fns:
        if re.fullmatch(BY_HAND, fn.name, re.X):
            yield where(fn), "by its name: " + fn.name
        if re.search(r"if (\w+) < (\w+) \{ (?:\1|\2) \} else \{ (?:\1|\2) \}|\((\w+) < \w+\) \| \(\(\3 == ", fn.body):
            yield where(fn), "order by hand: " + fn.name
        copied = list(re.finditer(r"let (?:mut )?\w+ = ([a-z]\w*\.[a-z]\w*);|let \w+: &[^=]*= (\w+);", fn.body))
        if copied:
            yield where(fn, copied[0].start()), "copied before use: %s in %s" % (", ".join(m[1] or m[2] for m in copied), fn.name)


def point5(fns, types):
    """Facts in the contracts of three or more functions; three parameters side by side in three, or two in six."""
    facts, runs = defaultdict(set), defaultdict(set)
    for fn in fns:
        for fact in (f for clause in fn.clauses for f in parts(clause, "×", "([{", ")]}")):
            fact = fact[1:-1] if fact.startswith("(") and end_of(fact, 0) == len(fact) else fact
            if not re.match(r"result\S* ≡", fact):
                facts[re.sub(r"^([A-Z]\w+) .*", r"\1 ..", fact)].add(where(fn))
        for i in range(len(fn.params)):
            for j in range(i + 2, len(fn.params) + 1):
                runs[tuple(fn.params[i:j])].add(where(fn))
    inside = lambda a, b: len(a) < len(b) and any(b[i:i + len(a)] == a for i in range(len(b)))
    for fact, at in sorted(facts.items(), key=lambda f: (-len(f[1]), f[0])):
        if len(at) >= 3:
            yield min(at), "fact in %d functions: %s" % (len(at), fact)
    for run, at in sorted(runs.items(), key=lambda r: (-len(r[1]), r[0])):
        if len(at) >= (3 if len(run) > 2 else 6) and not any(at == also and inside(run, other) for other, also in runs.items()):
            yield min(at), "parameters of %d functions: %s" % (len(at), ", ".join(run))


def point6(fns, types):
    """Lists with a length beside them, lists that go by one index, records in a list of numbers, own arrays, halving."""
    for fn in fns:
        beside = [p.split(":")[0] for p in fn.params if re.match(r"(?:count|\w+_count|total|start|from|end): usize", p)]
        if beside and any(re.search(r": &(?:'\w )?(?:mut )?\[", p) for p in fn.params):
            yield where(fn), "list and %s: %s" % (", ".join(beside), fn.name)
        lists = defaultdict(set)
        for name, index in re.findall(r"\b(\w+)\[([^\]]+)\]", fn.body):
            lists[index].add(name)
        for together in sorted(set(", ".join(sorted(names)) for names in lists.values() if len(names) > 1)):
            yield where(fn), "lists by one index: %s in %s" % (together, fn.name)
        if re.search(r"\w\[\d \* \w+", fn.body):
            yield where(fn), "records in a list of numbers: " + fn.name
        for m in re.finditer(r"let (?:mut )?(\w+) = \[[^;\]]*; |\) / 2;", fn.body):
            yield where(fn, m.start()), "array: %s in %s" % (m[1], fn.name) if m[1] else "search by halving: " + fn.name


def point7(fns, types):
    """Choice of a step by a number."""
    for fn in fns:
        for m in re.finditer(r"match [^{]*\{", fn.body):
            arms = re.findall(r"^\s*\d+ => ", fn.body[m.end():end_of(fn.body, m.end() - 1)], re.M)
            if len(arms) > 1:
                yield where(fn, m.start()), "match on %d numbers: %s" % (len(arms), fn.name)
        if re.search(r"if (?:\w+|word\([^{]*\)) == \d+ \{\s*(?:return )?\w+(?:::|\()", fn.body):
            yield where(fn), "tests of a number: " + fn.name


def main():
    found = read()
    for point, places in enumerate([point1, point2, point3, point4, point5, point6, point7], 1):
        if sys.argv[1:] in ([], [str(point)]):
            lines = list(dict.fromkeys(places(*found)))
            print("".join("%d\t%s\t%s\n" % (point, at, name) for at, name in lines) + "%d\tcount\t%d" % (point, len(lines)))


main()
