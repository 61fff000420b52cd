#!/usr/bin/env python3
"""Checks that every public function and method with a contract has two must-fail edits, and that every edit says what it guards.

The first line of an edit is `guards: NAME, NAME, ..`. A NAME is a public function with a contract, of the edit's crate or, as
`crate::function`, of a crate above it; a method of the edit's crate, as `Type::method`, or as `method` where it is the only one of
that name; or a definition of the edit's crate, as `specs/File: definition`. Each `old:` text occurs exactly once in its file, as rt
requires.

Prints how many there are, or what is missing, and then exits with 1. Run at the repository's top: tests/edits.py
"""
import glob
import os
import re
import sys

WANTED = 2


def read(path):
    with open(path, encoding="utf-8") as f:
        return f.read()


# ---- what there is to guard

def public_functions(crate):
    """The public functions of a crate that have an `ensures`."""
    for path in sorted(glob.glob(f"crates/{crate}/src/*.rt")):
        for whole in re.findall(r'(?ms)^pub (?:extern "C" )?fn .*?^}', read(path)):
            head = whole.split("\n{\n")[0]
            if head != whole and "ensures" in head:
                yield re.search(r"fn (\w+)", head).group(1)


def methods(crate):
    """The public methods of a crate that have an `ensures`, and the methods of its impls of traits, as `Type::method`."""
    for path in sorted(glob.glob(f"crates/{crate}/src/*.rt")):
        for header, body in re.findall(r"(?ms)^impl(?:<[^\n]*?>)? ([^{\n]*?) \{\n(.*?)^\}", read(path)):
            of_trait = " for " in header
            kind = re.match(r"\w+", header.split(" for ")[-1]).group(0)
            for whole in re.findall(r"(?ms)^    (?:pub |pub\(crate\) )?fn .*?^    \}", body):
                head = whole.split("\n    {\n")[0]
                if of_trait or (whole.startswith("    pub fn") and head != whole and "ensures" in head):
                    yield kind + "::" + re.search(r"fn (\w+)", head).group(1)


def is_defined(crate, file, word):
    path = f"crates/{crate}/{file}.antt"
    declared = r"(?m)^(?:(?:unfoldable|abbrev|pub) )*(?:(?:record|data) )?" + re.escape(word) + r"(?=[\s:({])"
    return os.path.exists(path) and re.search(declared, read(path))


def depends():
    """For each crate all the crates below it."""
    direct = {}
    for line in read("crates.txt").split("\n"):
        name, colon, rest = line.split("#")[0].partition(":")
        if colon:
            direct[name.split()[0]] = rest.split()
    below = {}
    for name in direct:
        todo, below[name] = [name], set()
        while todo:
            new = set(direct.get(todo.pop(), ())) - below[name]
            below[name] |= new
            todo += new
    return below


# ---- the edits

def misfit(crate, text):
    """Why rt could not make the edit; None where it can."""
    files, file, old = {}, None, None
    for line in text.split("\n"):
        if line.startswith("file: "):
            file = f"crates/{crate}/{line[len('file: '):]}"
            if not os.path.exists(file):
                return f"there is no {file}"
            files.setdefault(file, read(file))
        elif line.startswith("old: "):
            old = line[len("old: "):]
            count = files[file].count(old) if file else 0
            if count != 1:
                return f"an `old:` text stands {count} times in {file}: {old.strip()}"
        elif line.startswith("new:") and old is not None:
            files[file] = files[file].replace(old, re.sub("^new: ?", "", line))
            old = None
    return None if files else "it has no `file:` line"


def guarded(text):
    """The names of the first line."""
    first = text.split("\n")[0]
    return [name.strip() for name in first[len("guards:"):].split(",")] if first.startswith("guards: ") else []


def resolve(crate, name, functions, below):
    """The function or method that a name means, as a pair; None for a definition. Fails where there is neither."""
    if name.startswith("specs/") and ": " in name:
        if not is_defined(crate, *name.split(": ", 1)):
            raise LookupError(f"there is no {name}")
        return None
    if name in functions[crate]:
        return crate, name
    named = [method for method in functions[crate] if method.endswith(f"::{name}")]
    if len(named) == 1:
        return crate, named[0]
    other, _, function = name.rpartition("::")
    if other and crate not in below.get(other, ()):
        raise LookupError(f"{other} is not above {crate}")
    if function not in functions.get(other or crate, ()):
        raise LookupError(f"{name} is no public function with a contract")
    return other or crate, function


def check_edit(path, functions, below, counts):
    """Counts what the edit guards, and gives its faults."""
    crate, text = path.split("/")[1], read(path)
    names, fault = guarded(text), misfit(crate, text)
    if fault:
        yield f"{path}: {fault}"
    if not names:
        yield f"{path}: its first line is not `guards: NAME, ..`"
    for name in names:
        try:
            meant = resolve(crate, name, functions, below)
            counts[meant] = counts.get(meant, 0) + 1
        except LookupError as e:
            yield f"{path}: {e}"


def main():
    edits, below, counts = sorted(glob.glob("crates/*/must-fail/*.edit")), depends(), {}
    functions = {crate: list(public_functions(crate)) + list(methods(crate)) for crate in sorted(os.listdir("crates"))}
    faults = [fault for path in edits for fault in check_edit(path, functions, below, counts)]
    due = [(crate, function) for crate in functions for function in functions[crate]]
    for crate, function in due:
        count = counts.get((crate, function), 0)
        if count < WANTED:
            faults.append(f"{crate}::{function} has too few must-fail edits: {count}")
    for fault in faults:
        print("edits:", fault)
    print(f"edits: {len(edits)} must-fail edits, {len(due)} public functions and methods with a contract" + (f", {len(faults)} faults" if faults else ""))
    sys.exit(bool(faults))


if __name__ == "__main__":
    main()
