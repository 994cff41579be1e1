#!/usr/bin/env python3
"""Builds the archive, crates/rdap_c/out/librdap_c.a.

    python3 tests/archive.py        from anywhere

`rt lib` builds it over what `rt check` keeps in a checkout, and where nothing is kept it proves every crate below anew. After `rt ci` the libraries that
the run left are taken instead: rdap_c alone is proved once more, and compiled by the kit's `rattle build`, in seconds.
"""
import os
import pathlib
import subprocess
import sys

ROOT = pathlib.Path(__file__).resolve().parent.parent
CRATES = ROOT / "crates"
NAME = "rdap_c"
RT = os.environ.get("RT", "rt")


def listed():
    """The libraries that each crate names, by crates.txt."""
    found = {}
    for line in (ROOT / "crates.txt").read_text(encoding="utf8").split("\n"):
        head, colon, names = line.partition("#")[0].partition(":")
        if colon:
            found[head.split()[0]] = names.split()
    return found


def below(name, crates, found):
    """All of the repository that the crate stands on."""
    for other in crates[name]:
        if other in crates and other not in found:
            found.append(other)
            below(other, crates, found)
    return found


def is_left_by_ci(name):
    """Whether the library is one that `rt ci` built, of the sources as they are: `rt check` and `rt lib` put a stamp beside theirs."""
    out = CRATES / name / "out"
    if not (out / "rlib" / f"{name}.rlib" / "format").is_file() or (out / "rlib" / "stamp").exists():
        return False
    sources = [file for part in ("src", "specs", "proofs") for file in (CRATES / name / part).rglob("*")]
    return all(file.stat().st_mtime <= out.stat().st_mtime for file in [ROOT / "crates.txt", *sources])


def build(crates, libraries):
    """Proves and compiles rdap_c over these libraries, with the words that `rt lib` gives to rattle."""
    kit = pathlib.Path(subprocess.run([RT, "doc"], stdout=subprocess.PIPE, text=True, check=True).stdout.strip()).parent
    words = [kit / "bin/rattle", "build", "--crate-name", NAME, "src/lib.rt", "--crate-type", "staticlib", "--links", f"{NAME}="]
    words += ["--extern", f"std={kit}/rlibs/std.rlib", "-L", f"dependency={kit}/rlibs"]
    for name in libraries:
        folder = CRATES / name / "out/rlib"
        words += ["--extern", f"{name}={folder}/{name}.rlib"] * (name in crates[NAME]) + ["-L", f"dependency={folder}"]
    words += ["--antt-project", kit / "rattle/logic/antt-project.json", "--logic-built", kit / "logic_built", "--jobs", "2"]
    words += ["--toolchain", kit / "toolchain", "--backend", "llvm", "-o", f"out/lib{NAME}.a"]
    return subprocess.run(words, cwd=CRATES / NAME).returncode


def main():
    crates = listed()
    libraries = below(NAME, crates, [])
    (CRATES / NAME / "out").mkdir(exist_ok=True)
    if all(map(is_left_by_ci, libraries)) and build(crates, libraries) == 0:
        return 0
    return subprocess.run([RT, "lib"], cwd=CRATES / NAME).returncode


sys.exit(main())
