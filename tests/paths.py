#!/usr/bin/env python3
"""Checks that no path in a proof goes by more than eight names, as c.loop-k.invariant.size does by three, outside a `let` that names the place, as
`let start = c.match.keys.rest`.

A line of imports, and the path of a module, which begins with a capital letter or `lib`, are no such paths. Prints each path that is longer, and then exits
with 1. Run at the repository's top: tests/paths.py
"""
import glob
import re
import sys

LONGEST = 8
NAMED = re.compile(r"\blet\s+[^\s:=()]+\s*(?::[^=]*)?=\s*$")
# a name and what is taken of it; a space may stand in front of a dot, as in the spelling of before
PATH = re.compile(r"(?<![^\s(\[{,;λ])(?P<from>[^\s(){}\[\].,;@\"]+)(?P<names>(?:\s*\.(?!\.)[^\s(){}\[\].,;@\"]+)+)")
IMPORT = re.compile(r"(?m)^(?:pub )?use .*$|--.*$")


def read(path):
    with open(path, encoding="utf-8") as f:
        return f.read()


def long_paths(text):
    """The line and the length of each path that is too long and has no name."""
    text = IMPORT.sub("", text)
    for found in PATH.finditer(text):
        length = found.group("names").count(".")
        is_module = found.group("from")[0].isupper() or found.group("from") == "lib"
        if length > LONGEST and not is_module and not NAMED.search(text, 0, found.start()):
            yield text.count("\n", 0, found.start()) + 1, length


def main():
    paths = sorted(glob.glob("crates/*/proofs/**/*.antt", recursive=True))
    faults = [f"{path}:{line}: a path of {length} names" for path in paths for line, length in long_paths(read(path))]
    for fault in faults:
        print("paths:", fault)
    print(f"paths: {len(paths)} proof files" + (f", {len(faults)} faults" if faults else ""))
    sys.exit(bool(faults))


if __name__ == "__main__":
    main()
