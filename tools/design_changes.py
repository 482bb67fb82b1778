"""Writes docs/DESIGN-CHANGES.md, the list of what the design pass changed, from the commit BASE and the files here:
usage: python3 tools/design_changes.py [COMMIT]. The contracts are read by the kit's contracts.py. What only a reader
knows is in docs/design-changes.tsv: kind, crate, old name, what states it now. Says what has no row there yet."""

import collections
import os
import re
import subprocess
import sys
import tempfile
import textwrap

# The kit's own folder: that of the page that `rt doc` names.
KIT = os.path.dirname(subprocess.run(["rt", "doc"], capture_output=True, text=True, check=True).stdout.strip())
sys.path.insert(0, os.path.join(KIT, "port"))
import contracts  # noqa: E402

BASE = sys.argv[1] if len(sys.argv) > 1 else "186f8010"
DATA, PAGE = "docs/design-changes.tsv", "docs/DESIGN-CHANGES.md"
LIFETIME = re.compile(r"<'\w+>")
LAWLESS = ("Answers.antt", "Invariants.antt")  # what is proved of one place of the code

with open(DATA, encoding="utf-8") as f:
    ROWS = [line.rstrip("\n").split("\t") for line in f if line.strip() and not line.startswith("#")]
NOTES = {tuple(row[:3]): row[3] for row in ROWS if row[0] != "name"}
NAMES = [row[1:] for row in ROWS if row[0] == "name"]
USED, MISSING, OUT = set(), [], []


def note(kind, crate, name):
    key = (kind, crate, name)
    USED.add(key)
    if key not in NOTES:
        MISSING.append(" ".join(key))
    return NOTES.get(key, "**no row yet**")


def renamed(text, crate):
    """The old text with the new constructors and types."""
    for where, old, new in NAMES:
        if where in ("-", crate):
            text = re.sub(old, new, text)
    return contracts.squeeze(text)


def plain(text):
    """For comparing: without the brackets that an application needs and a name does not."""
    return re.sub(r"[()\s]", "", text)


def same_but_names(crate, old, new):
    return sorted(plain(renamed(x, crate)) for x in old) == sorted(plain(x) for x in new)


def say(*lines):
    OUT.extend(lines)


def code(text):
    return "`" + contracts.squeeze(text).replace("|", "\\|") + "`" if text.strip() else ""


def table(heads, rows):
    say("| " + " | ".join(heads) + " |", "|" + "---|" * len(heads))
    say(*("| " + " | ".join(row) + " |" for row in rows), "")


def block(language, olds, news, name=None):
    """Old and new under each other, each equation of a definition and each field on its own line, below 120 columns."""
    n = re.escape(name or "")
    equation = rf"(?<!abbrev)(?<!foldable)(?<!opaque) (?={n} (?:(?!(?<![\w.']){n}\b)[^=→:])*= |pub |unfolding )" if name else "$^"
    comment = "-- " if language == "antt" else ""
    say("```" + language)
    for label, texts in (("old", olds), ("new", news)):
        for text in texts:
            before = f"{comment}{label}:" if name is None else ""
            if name:
                say(f"{comment}{label}")
            for part in re.split(equation, text):
                line = before
                for word in part.split(" "):
                    if len(line) + len(word) > 118:
                        say(line)
                        line = "   "
                    line += (" " if line else "") + word
                say(line)
                before = "  " if re.match("(pub )?record", text) else before
    say("```", "")


def names(rows):
    by = collections.defaultdict(list)
    for crate, name in rows:
        by[crate].append(name)
    say(*(f"- {crate}: " + ", ".join(f"`{name}`" for name in sorted(set(by[crate]))) for crate in sorted(by)), "")


def clauses(f):
    said = {}
    for c in f["requires"] + f["ensures"]:
        said.setdefault(f"{c[0]} {c[1]}".strip(), []).append(c[2])
    return [f"{k} {{ {x} }}" for k, xs in said.items() for x in xs]


def types(root):
    """The text of each struct and enum."""
    out = {}
    for folder, _, files in sorted(os.walk(os.path.join(root, "crates"))):
        for name in sorted(files):
            crate = os.path.relpath(folder, os.path.join(root, "crates")).split(os.sep)[0]
            if name.endswith(".rt") and f"{crate}/src" in folder:
                with open(os.path.join(folder, name), encoding="utf-8") as f:
                    text = re.sub(r"//[^\n]*", "", f.read())
                for m in re.finditer(r"(?:#\[[^\]]*\]\s*)*(?:pub )?(struct|enum) (\w+)[^{;]*\{", text):
                    out[crate, m[2]] = (m[1], contracts.squeeze(text[m.start() : contracts.closing(text, m.end() - 1)]))
    return out


def laws(root):
    """The statement of each definition in proofs/, by crate and name, but for those of one place of the code."""
    out = collections.defaultdict(list)
    for folder, _, files in sorted(os.walk(os.path.join(root, "crates"))):
        crate = os.path.relpath(folder, os.path.join(root, "crates")).split(os.sep)[0]
        for name in sorted(files):
            if name.endswith(".antt") and f"{crate}/proofs" in folder and name not in LAWLESS:
                with open(os.path.join(folder, name), encoding="utf-8") as f:
                    raw = f.read()
                for law, texts in contracts.definitions(raw).items():
                    out[crate, law] += [around(raw, law) + statement(law, t) for t in texts]
    return out


def around(raw, law):
    """The parameters of the modules that a law stands in."""
    here = re.search(rf"^( *)(?:(?:abbrev|opaque|unfoldable|pub|record|data) +)*{re.escape(law)}(?![\w'-])", raw, re.M)
    told, indent = [], len(here[1]) if here else 0
    for m in reversed(list(re.finditer(r"^( *)module _ (.*?)\bwhere$", raw[: here.start()] if here else "", re.M | re.S))):
        if len(m[1]) < indent and not re.search(rf"^ {{0,{len(m[1])}}}[^ \n-]", raw[m.end() + 1 : here.start()], re.M):
            told, indent = [contracts.squeeze(m[2])] + told, len(m[1])
    return "".join(f"module {t} ⊢ " for t in told)


def statement(name, text):
    text = re.sub(r"^(?:(?:abbrev|opaque|unfoldable|pub|instance) +)*", "", text)
    if re.match("(record|data) ", text):
        return text
    m = re.search(r" (?:unfolding [^=]*? )?(?<![\w.'-])" + re.escape(name) + r"(?![\w'-])[^:]*?=", text)
    return (text[: m.start()] if m else text).strip()


def named(root, known):
    """Of these laws, those that the documents name in a paragraph on the proofs of their crate."""
    out = set()
    for folder, _, files in os.walk(root):
        if os.path.basename(folder) in ("crates", ".git") or f"{os.sep}crates{os.sep}" in folder:
            continue
        for file in files:
            if file.endswith(".md") and "PORT" not in file:
                with open(os.path.join(folder, file), encoding="utf-8") as f:
                    for part in re.split(r"\n\s*\n|\n(?=[-*|] |\d+\. )", f.read()):
                        crates = set(re.findall(r"crates/(\w+)/proofs", part))
                        if os.path.basename(folder) == "proofs":
                            crates.add(file[:-3])
                        if re.search("proofs/|law|proof|theorem", part):
                            crates |= set(re.findall(r"`(\w+)`", part))
                        for word in re.findall(r"`([^`\s]+)`", part):
                            word = re.split(r"\.|::", word)[-1]
                            out |= {(c, word) for c in crates if (c, word) in known}
    return out


def find(crate, note_text, functions):
    """The functions that a row names: `Type::name`, `file::name`, `name` or `A for B`, each in its crate."""
    for said in re.findall(r"`([^`]+)`", note_text):
        for (c, path, place, name), fs in functions.items():
            place = LIFETIME.sub("", place)
            file = os.path.basename(path)[:-3]
            ways = {f"{place}::{name}", f"{c}::{place}::{name}"} if place else {name, f"{file}::{name}", f"{c}::{name}"}
            if (c == crate or said.startswith(c + "::")) and (said in ways or " for " in place and said == place):
                yield said, fs[0]


def main():
    with tempfile.TemporaryDirectory() as old:
        tar = subprocess.run(["git", "archive", BASE], stdout=subprocess.PIPE, check=True).stdout
        subprocess.run(["tar", "x", "-C", old], input=tar, check=True)
        r = contracts.compare(old, ".")
        _, old_functions, old_ghosts, old_specs, _, _ = contracts.read(old)
        _, new_functions, new_ghosts, new_specs, _, _ = contracts.read(".")
        old_types, new_types, old_laws, new_laws = types(old), types("."), laws(old), laws(".")
        told = named(old, old_laws)

    say("# What the design pass changed", "")
    say(NOTES.get(("text", "-", "top"), "").replace("\\n", "\n"), "")

    say("## 1. Functions that are gone or renamed", "", NOTES.get(("text", "-", "functions"), ""), "")
    crate_before, shown_new = None, []
    for said in r["functions not found again"]:
        words = said.split(" (requires")[0].split(" ")
        crate, path, place, name = words[0], words[1], " ".join(words[2:-1]), words[-1]
        old = old_functions[crate, path, place, name][0]
        shown = "::".join([os.path.basename(path)[:-3]] * (path != "src/lib.rt") + [p for p in (place, name) if p])
        now = note("function", crate, shown)
        if crate != crate_before:
            say(f"### {crate}", "")
            crate_before = crate
        say(f"`{shown}`{'' if old['pub'] else ' (not public)'}: {now}", "")
        new = []
        for n, f in find(crate, now, new_functions):
            new += [n.split("::")[-1] + f["sign"]] + clauses(f)
            shown_new.append(id(f))
        block("text", [name + old["sign"]] + clauses(old), new)

    say("### Moved, with the clauses as they were", "")
    for key, fs in sorted(old_functions.items()):
        here = " ".join(p for p in key if p)
        if key not in new_functions and not fs[0]["test"] and not any(g.startswith(here + " (") for g in r["functions not found again"]):
            to = [k for k, new in new_functions.items() if k[3] == key[3] and contracts.clauses(new[0]) == contracts.clauses(fs[0])]
            say(f"- `{here}`: " + (f"`{' '.join(p for p in min(to, key=lambda k: k[0] != key[0]) if p)}`" if to else "its clauses are in part 3"))
    say("")

    say("### New functions", "", NOTES.get(("text", "-", "new"), ""), "")
    before = {(key[0], key[3]) for key in old_functions}
    for (crate, path, place, name), fs in sorted(new_functions.items()):
        f = fs[0]
        if (crate, name) not in before and id(f) not in shown_new and not f["test"] and not f["in tests"]:
            where = "::".join([os.path.basename(path)[:-3]] * (path != "src/lib.rt") + [p for p in (LIFETIME.sub("", place), name) if p])
            say(f"- {crate} `{where}`{'' if f['pub'] else ' (not public)'}: " + ", ".join(code(c) for c in [f["sign"]] + clauses(f)))
    say("")

    say("## 2. Signatures that changed", "")
    rows = [(code(n.replace(" src/", " ", 1)), code(a), code(b)) for n, a, b in sorted(r["signatures changed"])]
    table(("function", "old", "new"), rows)

    say("## 3. Clauses that changed", "", NOTES.get(("text", "-", "clauses"), ""), "")
    group = []
    for n, old_r, old_e, new_r, new_e in sorted(r["contracts changed"]):
        crate, name = n.split(" ")[0], " ".join(n.split(" ")[1:]).removeprefix("src/")
        if same_but_names(crate, [c[1] for c in old_r + old_e], [c[1] for c in new_r + new_e]):
            group.append((crate, name))
            continue
        say(f"### {crate} `{name}`", "", note("clause", crate, name), "")
        text = lambda word, cs: [f"{word} {c[0]} {{ {c[1]} }}".replace("  ", " ") for c in cs]  # noqa: E731
        block("text", text("requires", old_r) + text("ensures", old_e), text("requires", new_r) + text("ensures", new_e))
    say("The same but for names (`stated_index` and its like are `stated`, `Passed` is `passed`, and so on):", "")
    names(group)

    say("## 4. Types", "", "### Facts that types keep now", "")
    for key in sorted(set(new_ghosts) - set(old_ghosts)):
        if key[1] != "const":
            say(f"- {key[0]} `{LIFETIME.sub('', key[1])}`, `{key[2]}`: " + ", ".join(code(t) for t in new_ghosts[key]))
    say("", "### Constants", "")
    for key in sorted(set(new_ghosts) ^ set(old_ghosts)):
        if key[1] == "const":
            old, new = old_ghosts.get(key), new_ghosts.get(key)
            say(f"- {key[0]} `{key[2]}`: " + (f"{code(old[0])}, gone: {note('type', key[0], key[2])}" if old else f"new, {code(new[0])}"))
    say("", "### Types that are gone", "")
    table(("crate", "old", "now"), [(c, code(old_types[c, n][1]), note("type", c, n)) for c, n in sorted(set(old_types) - set(new_types))])
    say("### Types that changed", "")
    table(("crate", "old", "new"), [(c, code(old_types[c, n][1]), code(new_types[c, n][1])) for c, n in sorted(set(old_types) & set(new_types)) if old_types[c, n] != new_types[c, n]])
    say("### New types", "")
    table(("crate", "type"), [(c, code(new_types[c, n][1])) for c, n in sorted(set(new_types) - set(old_types))])

    say("## 5. Definitions", "", "### Gone", "")
    gone = [tuple(k) for k in r["definitions"]["gone"]]
    table(("crate", "definition", "now"), [(c, code(" ".join(old_specs[c, n])), note("definition", c, n)) for c, n in gone])
    is_law = lambda text: not re.match(r"(pub )?(abbrev|unfoldable|opaque|record|data)\b", text)  # noqa: E731
    changed, group, spec_laws = [], [], []
    for *key, old, new in r["definitions"]["changed"]:
        where = spec_laws if is_law(old[0]) else changed
        same = same_but_names(key[0], old, new)
        (group if same and where is changed else where).append((*key, old, new, same))
    say("### The same but for names", "")
    names((c, n) for c, n, *_ in group)
    say("### Changed", "")
    for c, n, old, new, _ in changed:
        say(f"#### {c} `{n}`", "", note("definition", c, n), "")
        block("antt", old, new, n)
    moved = {(q, k) for k in set(old_specs) - set(new_specs) for q in set(new_specs) - set(old_specs) if q[1] == k[1] and old_specs[k] == new_specs[q]}
    say("### Moved as they were", "", *(f"- `{k[1]}`: from {k[0]} to {q[0]}" for q, k in sorted(moved)), "")
    say("### New", "")
    for key in sorted(set(new_specs) - set(old_specs) - {q for q, _ in moved}):
        say(f"- {key[0]}: " + ", ".join(code(t) for t in new_specs[key]))

    say("", "## 6. Theorems", "", NOTES.get(("text", "-", "theorems"), ""), "", "### Laws in specs/", "")
    say("The same but for names:", "")
    names((c, n) for c, n, _, _, same in spec_laws if same)
    for c, n, old, new, same in spec_laws:
        if not same:
            say(f"#### {c} `{n}`", "", note("law", c, n), "")
            block("antt", old, new, n)
    say("### Laws in proofs/ that the documents named", "")
    lost = [k for k in sorted(told) if k not in new_laws]
    kept = [k for k in sorted(told) if k in new_laws]
    say("Word for word the same:", "")
    names(k for k in kept if sorted(old_laws[k]) == sorted(new_laws[k]))
    say("The same but for names:", "")
    names(k for k in kept if sorted(old_laws[k]) != sorted(new_laws[k]) and same_but_names(k[0], old_laws[k], new_laws[k]))
    say("Changed:", "")
    for k in kept:
        if not same_but_names(k[0], old_laws[k], new_laws[k]) and sorted(old_laws[k]) != sorted(new_laws[k]):
            say(f"#### {k[0]} `{k[1]}`", "", note("law", *k), "")
            block("antt", old_laws[k], new_laws[k], k[1])
    say("Gone:", "")
    table(("crate", "law", "now"), [(c, code(" ".join(old_laws[c, n])), note("law", c, n)) for c, n in lost])

    fenced = False
    for i, line in enumerate(OUT):
        fenced ^= line.startswith("```")
        if not fenced and line[:1] not in ("|", "#", "`") and not re.search(r" [-+*#>|] | \d+\. ", line[2:]):
            OUT[i] = textwrap.fill(line, 120, subsequent_indent="  " * line.startswith("- "), break_long_words=False, break_on_hyphens=False)
    with open(PAGE, "w", encoding="utf-8") as f:
        f.write(re.sub(r"\n{3,}", "\n\n", "\n".join(OUT)).rstrip() + "\n")
    for line in MISSING:
        print("no row:", line)
    for key in sorted(set(NOTES) - USED):
        if key[0] != "text":
            print("row of nothing:", *key)


main()
