#!/usr/bin/env python3
"""Says why each must-fail edit was refused, from what `rt ci`, `rt must-fail` or the gate printed, and which of them show nothing.

    .ci/run | tee OUTPUT; tools/first_errors.py OUTPUT [CRATE ..]

An edit shows something where a fact no longer holds. It shows nothing where it only made the proof file unfit for the code (a goal that
cannot be named), where a name or the text itself is at fault, or where the prover gave up at a limit. Those that show nothing are printed, and all of the
crates that are named.

A reason that begins with a `note:` on the code says only that a goal was left open: nothing there, or its answer could not be named any more. Such an edit is
printed with `look:`. It is honest if `rt check`, with the edit applied, prints no line `error:` with "that can be named" or "has no field".
"""
import re
import sys

NOTHING = ["that can be named", "is not in scope", "unexpected", "expected a", "is not declared", "no such", "has no field"]
EDIT = re.compile(r"^rt: must-fail (\w+)/(\w+)\.edit: (.*)$")
REFUSED = "refused, as it must be: "
LEFT_OPEN = re.compile(r"note: (?:\./)?src/")


def main(output, *crates):
    with open(output, encoding="utf-8", errors="replace") as f:
        edits = {m.group(1, 2): m.group(3) for m in map(EDIT.match, f) if m}
    weak = open_goals = 0
    for (crate, label), said in sorted(edits.items()):
        if crates and crate not in crates:
            continue
        why = said[len(REFUSED):] if said.startswith(REFUSED) else said
        shows_nothing = why is said or any(word in why for word in NOTHING)
        look = not shows_nothing and bool(LEFT_OPEN.match(why))
        weak += shows_nothing
        open_goals += look
        if shows_nothing or look or crates:
            print(f"{'look: ' if look else ''}{crate}/{label}: {why[:220]}")
    print(f"{len(edits)} edits, {weak} that show nothing, {open_goals} to be looked at")


if __name__ == "__main__":
    main(*sys.argv[1:])
