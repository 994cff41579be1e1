#!/usr/bin/env python3
"""Respells the repository's own definitions and lemmas: words in snake case, a dash only between two names.

usage: python3 tools/respell.py [--names]      at the top of the repository; --names prints 'old new' lines and writes nothing

It reads what crates/*/specs and crates/*/proofs declare, and rewrites those names in the .antt and .rt files, the must-fail edits and,
between backticks, the pages. Names of the library, functions of src/, strings and outputs stay. It was run once, on what
the kit's port.py had made of the repository.
"""
import collections
import glob
import re
import sys

WORD = r"[^\s(){}.;,@\"«»\[\]\\`]+"
TOKEN = re.compile(r"\"(?:[^\"\\]|\\.)*\"|" + WORD)
DECLARED = re.compile(r"\s*(?:abbrev |unfoldable |pub |open )*(?:(?:data|record|ruleset) )?(" + WORD + r")(?:\s*:(?!=)| \(.*\) : Type|\s*$)")
HEADED = re.compile(r"\s*(?:abbrev |unfoldable |pub )*(?:data|record|ruleset) (" + WORD + ")")
USED = re.compile(r"^(?:ghost )?use ([^\n{;]*?)(?:\.\{([^}]*)\})?(?: as (\S+?))?;?$", re.M)
# What Rattle made for the older proofs: goals, invariants and measures.
MADE = re.compile(r" : tie\.(Need|InvT|MeasureT|invariant|decreases)")


def read(path):
    with open(path, encoding="utf-8") as f:
        return f.read()


def files(*patterns):
    return sorted(p for pattern in patterns for p in glob.glob(pattern, recursive=True) if "/out/" not in p)


def imported(texts, crates):
    """The names that come from the library."""
    found = set()
    for text in texts:
        for m in USED.finditer(text):
            own = re.match(r"Rattle\.(\w+)\.", m.group(1))
            if not own or own.group(1) not in crates:
                found |= {name.split(" as ")[0].strip() for name in (m.group(2) or "").split(",")}
    return found


def declared(antt):
    """The names that the files of specs/ and proofs/ declare, with how often."""
    found = collections.Counter()
    for path in antt:
        for line in read(path).split("\n"):
            if line.lstrip().startswith("--") or path.endswith("/Proof.antt") and (MADE.search(line) or re.match(r"(pub )?\S+[-_]spec : ", line)):
                continue
            m = HEADED.match(line) or (re.search(r" : |:$", line) and DECLARED.match(line))
            if m:
                found[m.group(1)] += 1
    return found


def snake(name, known):
    """A name in the new spelling. A dash stays between two names that are known."""
    parts = [re.sub(r"(?<=[a-z0-9])([A-Z])", lambda m: "_" + m.group(1).lower(), p) if re.match(r"[a-z]", p) else p for p in name.split("-")]
    out = parts[0]
    for left, right in zip(parts, parts[1:]):
        out += ("-" if left in known and right in known else "_") + right
    return out.replace("′", "'")


def renamed():
    antt = files("crates/*/specs/**/*.antt", "crates/*/proofs/**/*.antt")
    source = files("crates/*/src/**/*.rt")
    crates = {p.split("/")[1] for p in source}
    library = imported([read(p) for p in antt + source], crates)
    names = declared(antt)
    plain = {n for n in list(names) + list(library) if "-" not in n and not re.match(r"[A-Z]", n)}
    known = {snake(n, set()) for n in plain if len(n) > 1}
    table = {}
    for name in sorted(names):
        if name in library or re.match(r"[^\w]", name) or not re.search(r"[a-z]", name):
            continue
        new = snake(name, known)
        if new != name:
            table[name] = new
    return table, antt, source


def seen(antt):
    """The names that the files use as they stand, without those of modules and fields."""
    found = set()
    for path in antt:
        for line in read(path).split("\n"):
            if line.startswith("use "):
                line = line.partition("{")[2]
            if not line.lstrip().startswith("--"):
                found |= set(TOKEN.findall(re.sub(r"(?<=[\w'])\." + WORD, "", line)))
    return found


def apart(table, antt):
    """Where two names would fall together, the lemma gets '_lem', and the definition the plain name."""
    there, count = seen(antt), collections.Counter(table.values())
    for old, new in sorted(table.items()):
        if "-" in old and (new in there or count[new] > 1):
            table[old] = new + "_lem"
        elif new in there:
            table[new] = new + "_lem"


def put(text, table, fields=True):
    """The text with its names respelled; without fields, a name behind a dot that would get '_lem' stays: it is a step of a proof."""

    def name(m):
        new = table.get(m.group(0), m.group(0))
        step = not fields and new.endswith("_lem") and m.start() and text[m.start() - 1] == "."
        return m.group(0) if step else new

    return TOKEN.sub(name, text)


def main():
    table, antt, source = renamed()
    apart(table, antt)
    if "--names" in sys.argv:
        for old, new in sorted(table.items()):
            print(old, new)
        return
    for path in antt + source + files("crates/*/must-fail/*.edit"):
        text = read(path)
        new = put(text, table, "/proofs/" not in path or not path.endswith("/Proof.antt"))
        if new != text:
            with open(path, "w", encoding="utf-8") as f:
                f.write(new)
    for path in files("README.md", "docs/*.md", "tests/**/*.md"):
        text = read(path)
        new = re.sub(r"`[^`\n]+`", lambda m: put(m.group(0), table), text)
        if new != text:
            with open(path, "w", encoding="utf-8") as f:
                f.write(new)


if __name__ == "__main__":
    main()
