#!/usr/bin/env python3
"""The files that a reader of the entry points' contracts has to believe: their list in docs/ARCHITECTURE.md, with the lines of each.

They are the contracts of the exports with the answers in numbers, the statements of the demands and of the print (ROOTS), and every definition file that one of these
cites, directly or through another: all that `use Rattle.CRATE.specs.FILE` reaches, and `use Rattle.CRATE.proofs.FILE`, should one cite what stands among
the laws. The list there is a table of `| path | lines |`, with the sum in its last row.

Run at the repository's top. tools/believed.py prints the rows as they ought to be, and tools/believed.py --write puts them in place of
those that stand there. tools/believed.py --check says where they differ (a file that is not listed, one too many, another number of lines),
and then exits with 1.
"""
import os
import re
import sys

LIST = "docs/ARCHITECTURE.md"
ROOTS = [
    "crates/desk_c/src/lib.rt",
    "crates/desk/src/lib.rt",
    "crates/demands/specs/Demand1.antt",
    "crates/demands/specs/Demands.antt",
    "crates/demands/specs/Through.antt",
    "crates/demands/specs/Job.antt",
    "crates/demands/specs/Rounds.antt",
    "crates/demands/specs/Chain.antt",
    "crates/demands/specs/Editions.antt",
    "crates/job_text/specs/Text.antt",
]


def read(path):
    with open(path, encoding="utf-8") as f:
        return f.read()


def cited(path):
    """The definition files of the repository that a file cites, and the other files of a crate's code. `declared` is no file: it is what src/ declares, as an enum."""
    for name in re.findall(r"(?m)^(?:pub(?:\(crate\))? )?mod (\w+);", read(path)) if path.endswith("lib.rt") else ():
        yield os.path.join(os.path.dirname(path), f"{name}.rt")
    for crate, folder, rest in re.findall(r"(?m)^(?:pub )?(?:ghost )?use Rattle\.(\w+)\.(specs|proofs)\.([\w.]+)", read(path)):
        parts = rest.rstrip(".").split(".")
        if parts[0] != "declared" and os.path.isdir(f"crates/{crate}"):
            yield f"crates/{crate}/{folder}/{'/'.join(parts)}.antt"


def believed():
    found, todo = set(), list(ROOTS)
    while todo:
        path = todo.pop()
        if path not in found:
            found.add(path)
            todo += cited(path)
    return sorted(found)


def lines(path):
    return read(path).count("\n")


def table(paths):
    rows = [f"| {path} | {lines(path)} |" for path in paths]
    return rows + [f"| all {len(paths)} | {sum(map(lines, paths)):,} |"]


def check(due, stands):
    faults = [f"{LIST} lacks: {line}" for line in due if line not in stands]
    faults += [f"{LIST} has, and should not: {line}" for line in stands if line not in due]
    for fault in faults:
        print("believed:", fault)
    print("believed: ok" if not faults else f"believed: {len(faults)} faults")
    return bool(faults)


def main(words):
    due, text = table(believed()), read(LIST)
    stands = re.findall(r"(?m)^\| (?:crates/\S+|all \d+) \| [\d,]+ \|$", text)
    if words == ["--check"]:
        return check(due, stands)
    if words == ["--write"]:
        with open(LIST, "w", encoding="utf-8") as f:
            f.write(text.replace("\n".join(stands), "\n".join(due)))
        return 0
    print("\n".join(due))
    return 0


if __name__ == "__main__":
    sys.exit(main(sys.argv[1:]))
