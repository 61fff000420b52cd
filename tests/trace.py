#!/usr/bin/env python3
"""Checks that everything docs/TRACE.md cites exists: definitions and laws, functions, must-fail edits, parts of tests, files.

Prints what does not, and then exits with 1. Run at the repository's top: tests/trace.py
"""
import glob
import os
import re
import sys


def read(path):
    with open(path, encoding="utf-8") as f:
        return f.read()


def file_of(crate, name):
    """Where crate/NAME stands: a definition in specs/, a law, Laws/NAME, in proofs/."""
    return f"crates/{crate}/{'proofs' if name.startswith('Laws/') else 'specs'}/{name}.antt"


def is_said(crate, name, word):
    """A definition, law, record, field or constructor `word` of the file."""
    path = file_of(crate, name)
    declared = r"(?m)^\s*(?:(?:unfoldable|abbrev|pub|record|data)\s+)*" + re.escape(word) + r"(?=[\s:({]|$)"
    return os.path.exists(path) and re.search(declared, read(path))


def in_source(crate, word):
    return any(re.search(r"\bfn " + re.escape(word) + r"[(<]", read(p)) for p in glob.glob(f"crates/{crate}/src/*.rt"))


def missing(text):
    for crate, name, word in re.findall(r"`(\w+)/((?:Laws/)?\w+): ([^`\s]+)`", text):
        if crate != "crate" and not is_said(crate, name, word):
            yield f"{crate}/{name}: {word}"
    # fields, constructors or clauses, named behind the file that has them
    for crate, name, words in re.findall(r"`(\w+)/((?:Laws/)?\w+): [^`]+` \((`[^`\s]+`(?:, `[^`\s]+`)*)", text):
        for word in re.findall(r"`([^`]+)`", words):
            path = file_of(crate, name)
            if os.path.exists(path) and not re.search(r"(?<![\w-])" + re.escape(word) + r"(?![\w-])", read(path)):
                yield f"{crate}/{name}: {word}"
    for crate, word in re.findall(r"`(\w+)::(\w+)`", text):
        if crate != "crate" and not (in_source(crate, word) or crate in ("u64",)):
            yield f"{crate}::{word}"
    for crate, word in re.findall(r"`(\w+)!(\w+)`", text):
        if crate != "crate" and not os.path.exists(f"crates/{crate}/must-fail/{word}.edit"):
            yield f"{crate}!{word}"
    for name, word in re.findall(r"`(\w+\.py): (\w+)`", text):
        if name != "file.py" and not re.search(r"(?m)^(?:def )?" + word + r"\b", read(f"tests/{name}")):
            yield f"{name}: {word}"
    for path, words in re.findall(r"(tests/\w+\.c) \((`\w+`(?:, `\w+`)*)\)", text):
        for word in re.findall(r"\w+", words):
            if not (os.path.exists(path) and re.search(r"(?m)^static .*\b" + word + r"\(", read(path))) and word != "name":
                yield f"{path}: {word}"
    for path in re.findall(r"(?<![\w/])((?:crates|docs|tests|tools|include|examples|bench)/[\w./]*\w)", text):
        if not os.path.exists(path) and not path.startswith(("crates/crate", "tests/file")):
            yield path


if __name__ == "__main__":
    faults = sorted(set(missing(read("docs/TRACE.md"))))
    for fault in faults:
        print("docs/TRACE.md cites what is not there:", fault)
    print("trace: ok" if not faults else f"trace: {len(faults)} missing")
    sys.exit(bool(faults))
