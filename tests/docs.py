#!/usr/bin/env python3
"""Holds the documents to what they name: rules, definitions, functions, tables, must-fail edits, files and their lines.

    python3 tests/docs.py            from anywhere; the last line is 'N passed, M failed'
    python3 tests/docs.py --lines    first writes the lines of the believed files, which layout alone may change, to docs/ARCHITECTURE.md
"""
import pathlib
import re
import sys

ROOT = pathlib.Path(__file__).resolve().parent.parent
CRATES = ROOT / "crates"
passed = failed = 0


def check(good, message):
    global passed, failed
    if good:
        passed += 1
    else:
        failed += 1
        print(message)


def text(path):
    return path.read_text(encoding="utf8")


def document(name):
    return text(ROOT / "docs" / name)


def own(pattern):
    """The files of the crates, without those that rt makes in out/."""
    return [p for p in CRATES.rglob(pattern) if p.relative_to(CRATES).parts[1] != "out"]


# Rules: every one that is cited exists, and every one has a row in PROMISES.
specification = document("SPECIFICATION.md")
rules = set(re.findall(r"^\*\*(S\d+\.\d+)\*\*", specification, re.M)) | set(re.findall(r"^## (S\d+) ", specification, re.M))
places = [p for end in ("antt", "rt", "edit") for p in own(f"*.{end}")]
places += [p for folder in ("docs", "tests", "include", "bindings") for p in (ROOT / folder).rglob("*")]
places += [ROOT / "README.md"]
for path in places:
    if path.is_file() and path.suffix in (".antt", ".rt", ".edit", ".md", ".h", ".sh", ".rs", ".py", ".c"):
        for rule in sorted(set(re.findall(r"\bS\d+\.\d+\b", text(path)))):
            check(rule in rules, f"{path.relative_to(ROOT)}: no rule {rule}")
promises = document("PROMISES.md")
for rule in sorted(rules):
    section = rule.split(".")[0]
    check(section in ("S1", rule) or re.search(rf"\b{re.escape(rule)}\b|^\| {section} ", promises, re.M), f"PROMISES.md: no row for {rule}")

# Functions, definitions and must-fail edits that the documents name. A name of more than one word is one of the logic (definitions and laws are in
# snake case, a dash joins two names), of the code, of the tests, or of a crate or an edit.
crates = {p.name for p in CRATES.iterdir()}
sources = {crate: "\n".join(text(p) for p in (CRATES / crate / "src").rglob("*.rt")) for crate in crates}
edits = {str(p.relative_to(CRATES)).replace("/must-fail/", "/")[:-5] for p in CRATES.glob("*/must-fail/*.edit")}
logic = [text(p) for p in own("*.antt")]
others = [text(p) for part in ("tests/model", "tests/compare", "bench/fast", "bindings", "include") for end in ("rs", "py", "h") for p in (ROOT / part).rglob(f"*.{end}")]
known = {word for whole in (*logic, *sources.values(), *others) for word in re.findall(r"[A-Za-z_][\w'-]*", whole)}
known |= crates | {edit.split("/")[1] for edit in edits}
for name in ("../README.md", "PROMISES.md", "DECISIONS.md", "PROVING.md", "ARCHITECTURE.md"):
    for quoted in sorted(set(re.findall(r"`([^`\n]+)`", document(name)))):
        function = re.fullmatch(r"([a-z0-9_]+)::(?:[a-z_]+::)?([A-Za-z_0-9]+)(?:::[a-z_]+)?(?:\(.*\))?", quoted)
        edit = re.fullmatch(r"([a-z0-9_]+)/([a-z_0-9]*)(\.\.)?", quoted)
        if function and function[1] in crates:
            check(re.search(rf"\b((fn|struct|enum|const) |pub use \w+::(\{{[^}}]*)?){function[2]}\b", sources[function[1]]), f"{name}: no {quoted}")
        elif edit and edit[1] in crates and edit[2] not in ("specs", "proofs", "src"):
            start = f"{edit[1]}/{edit[2]}"
            check(start in edits or (edit[3] and any(e.startswith(start) for e in edits)), f"{name}: no edit {quoted}")
        elif re.fullmatch(r"[a-z]+[A-Z][A-Za-z]+|[a-z][a-z0-9']*([_-][a-z0-9']+)+", quoted):
            check(quoted in known, f"{name}: no definition, law or function {quoted}")

    for file in sorted(set(re.findall(r"(?<![\w/])([a-z0-9_]+/(?:specs|proofs)/[A-Za-z]\w*)", document(name)))):
        check((CRATES / f"{file}.antt").is_file() or (CRATES / file).is_dir(), f"{name}: no file {file}")
    for named in re.findall(r"must-fail ((?:`[^`]+`(?:, )?)+)", document(name)):
        for edit in re.findall(r"`([^`/]+)/[^`]+`", named):
            check(edit in crates, f"{name}: no crate {edit}")

# How many wrong programs README says are refused.
check(f"{len(edits)} wrong programs" in document("../README.md"), f"README.md: not '{len(edits)} wrong programs'")

# The campus paths and their answers stand twice: beside the vectors, and where rt ci runs the program.
for one, other in (("campus.paths", "data/campus.paths"), ("campus.expected", "stdout"), ("campus.image", "data/campus.image")):
    same = (ROOT / "tests/vectors" / one).read_bytes() == (CRATES / "rdap_paths" / other).read_bytes()
    check(same, f"tests/vectors/{one} is not crates/rdap_paths/{other}")

# All that knows a rule: the tables, and the functions of the tests in Rust.
folders = {"model": "tests/model/src", "fast": "bench/fast/src", "generator": "tests/model/src/generate"}
rust = {column: "\n".join(text(p) for p in (ROOT / folder).rglob("*.rs")) for column, folder in folders.items()}
heads, _, *rows = promises.split("## All that knows a rule")[1].split("\n| Rules ")[1].split("\n\n")[0].rstrip().split("\n")
heads = [head.strip() for head in heads.split("|")]
for row in rows:
    for head, cell in zip(heads, row.split("|")[1:]):
        for name in re.findall(r"[a-z0-9_]+/specs/[A-Z]\w+", cell):
            check((CRATES / f"{name}.antt").is_file(), f"PROMISES.md: no table {name}")
        for name in re.findall(r"`(\w+)`", cell):
            check(re.search(rf"\bfn {name}\b", rust.get(head, "")), f"PROMISES.md: no {name} in {folders.get(head)}")

# The files that a reader must believe: their lines, and that they use no others.
table = document("ARCHITECTURE.md").split("| What | Files (lines) |")[1].split("\n\n")[0]
believed = {}
for row in table.split("\n")[2:]:
    crate = None
    for part in re.split("[;,]", row.split("|")[2]):
        named = re.match(r"\s*(?:([a-z0-9_]+)/specs: )?(\w+) \((\d+)\)", part)
        crate = named[1] or crate
        believed[crate, named[2]] = int(named[3])
if "--lines" in sys.argv[1:]:
    for crate, name in believed:
        believed[crate, name] = text(CRATES / crate / "specs" / f"{name}.antt").count("\n")
    rows = []
    for row in table.split("\n"):
        parts = re.split(r"(\w+/specs: )?(\w+) \(\d+\)", row)
        for at in range(1, len(parts), 3):
            crate = parts[at][:-8] if parts[at] else crate
            parts[at : at + 2] = [parts[at] or "", f"{parts[at + 1]} ({believed[crate, parts[at + 1]]})"]
        rows.append("".join(parts))
    page = document("ARCHITECTURE.md").replace(table, "\n".join(rows))
    (ROOT / "docs/ARCHITECTURE.md").write_text(re.sub(r"[\d,]+ lines in all", f"{sum(believed.values()):,} lines in all", page), encoding="utf8")
for (crate, name), lines in believed.items():
    file = CRATES / crate / "specs" / f"{name}.antt"
    check(file.is_file(), f"ARCHITECTURE.md: no {crate}/specs/{name}")
    whole = text(file) if file.is_file() else ""
    check(whole.count("\n") == lines, f"ARCHITECTURE.md: {crate}/specs/{name} has {whole.count(chr(10))} lines, not {lines}")
    for used in re.findall(r"^(?:pub )?use Rattle\.(\w+)\.specs\.(\w+)", whole, re.M):
        check(used[0] not in crates or used[1] == "declared" or used in believed, f"ARCHITECTURE.md: {crate}/specs/{name} uses {used[0]}/specs/{used[1]}")
total = f"{sum(believed.values()):,} lines in all"
check(total in document("ARCHITECTURE.md"), f"ARCHITECTURE.md: not '{total}'")

print(f"{passed} passed, {failed} failed")
sys.exit(failed != 0)
