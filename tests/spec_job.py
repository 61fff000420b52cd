#!/usr/bin/env python3
"""Compares docs/SPEC.md with what is stored and with include/desk.h.

- The worked job: its blocks of bytes against crates/job/stdin and stdout, and against the answers to the same job in crates/test_changes and
  crates/test_jobs; the print of the second uplink against the latter.
- The blocks of rewriting and the edits' own conditions: the tables of SPEC are read and carried out on every condition and sheet of
  crates/test_changes, in its edition.
- The offsets of a site's parts, the length of the trailer and the numbers of kinds, operations and reasons against the header's constants.

Prints what differs, and then exits with 1. Run at the repository's top: tests/spec_job.py
"""
import re
import sys

sys.dont_write_bytecode = True  # the gate leaves nothing beside the scripts
from changes import show_table
from pieces import table as as_bytes

NODE_BYTES, EDIT_BYTES, TABLE_NODES, NUMBER_BYTES, TRAILER_BYTES = 6, 4, 2048, 4, 16
FUNCTIONAL = range(4, 8)  # the links that are written f
faults = []


def compare(what, written, stored):
    if written != stored:
        faults.append(f"{what}: {written!r} in docs/SPEC.md, {stored!r} stored")


def read(path):
    with open(path, encoding="utf-8") as f:
        return f.read()


# ---- the worked job

def block(spec, name):
    """The lines of the fenced block with this name."""
    return re.search(rf"(?ms)^```{name}\n(.*?)^```$", spec).group(1)


def put_bytes(text, data):
    """Writes a block's bytes over `data`: offset, bytes, perhaps xN for the last one N times; a comment behind `;`."""
    for line in text.splitlines():
        offset, *words = line.split(";")[0].split()
        values = []
        for word in words:
            values += [values.pop()] * int(word[1:]) if word[0] == "x" else [int(word, 16)]
        at = int(offset)
        if at + len(values) > len(data):
            faults.append(f"bytes past the end: {line}")
        data[at:at + len(values)] = values
    return data


def listed(text):
    data = put_bytes(text, bytearray(32))
    return f"{sum(bin(b).count('1') for b in data)} {data.hex()}"


def worked_job(spec, cases):
    with open("crates/job/stdin", "rb") as f:
        stored = f.read()
    file = put_bytes(block(spec, "job-file"), bytearray(len(stored)))
    compare("the job file", file.hex(), stored.hex())
    compare("the print", block(spec, "print"), read("crates/job/stdout"))
    end = len(file) - TRAILER_BYTES
    near, middle, far, edition = (number_at(file, end + k) for k in range(0, TRAILER_BYTES, NUMBER_BYTES))
    pieces = [bytes(file[end - far:end - middle]), bytes(file[end - middle:end - near]), bytes(file[end - near:end])]
    answers = [answer for case, answer in cases if case == [*pieces, edition]]
    if not answers:
        faults.append("the worked job is no case of crates/test_changes")
        return
    applied, table, after = answers[0][:3]
    site = put_bytes(block(spec, "site-after"), bytearray(pieces[0]))
    changed = "".join(f" {k}:{b}" for k, b in enumerate(site) if b != pieces[0][k])
    compare("the site after", "applied" + changed, applied)
    text = block(spec, "rewritten-table")
    count = len(text.splitlines())
    compare("the rewritten table", f"{count} nodes {put_bytes(text, bytearray(NODE_BYTES * count)).hex()}", table)
    compare("the list after", "after " + listed(block(spec, "after")), after)
    numbers, jobs = put_bytes(block(spec, "classes"), bytearray(256)).hex(), read("crates/test_jobs/stdout")
    compare("the class numbers", numbers, jobs.splitlines()[4].split()[-1])
    printed = re.search(r"(?m)^    after \d.*\n    today .*\n    nodes .*\n    classes .*\n", spec).group().replace("    ", "")
    compare("the print of the second uplink is that of a stored job", True, printed in jobs)


# ---- the stored cases of crates/test_changes

def number_at(data, at, length=NUMBER_BYTES):
    return int.from_bytes(data[at:at + length], "little")


def stored_piece(data, at):
    """A piece, and where the next begins: it is a kind, its length and how many bytes are not 0 (2 bytes each), then each such byte as its place and
    its value."""
    piece, end = bytearray(number_at(data, at + 1, 2)), at + 5 + 3 * number_at(data, at + 3, 2)
    for k in range(at + 5, end, 3):
        piece[number_at(data, k, 2)] = data[k + 2]
    return bytes(piece), end


def stored_inputs():
    """Site, condition, sheet and edition."""
    with open("crates/test_changes/stdin", "rb") as f:
        data = f.read()
    at = 0
    while at < len(data):
        four = []
        for _ in range(3):
            piece, at = stored_piece(data, at)
            four.append(piece)
        yield [*four, number_at(data, at)]
        at += NUMBER_BYTES


def stored_cases():
    """The inputs, with the lines of their answer: applying, rewriting, and both lists where neither was refused; then the condition for going through
    and, where it was not refused, its list."""
    lines, at = read("crates/test_changes/stdout").splitlines(), 0
    for four in stored_inputs():
        end = next(n for n in range(at, len(lines)) if lines[n].startswith("through ")) + 1
        end += end < len(lines) and lines[end].startswith("works ")
        yield four, lines[at:end]
        at = end


# ---- rewriting, by the tables of the specification

def rows(spec, section=None):
    """The rows of the tables in a section, or in all, as lists of cells."""
    text = re.search(rf"(?ms)^## \d+\. {section}\n(.*?)(?=^## |\Z)", spec).group(1) if section else spec
    for line in text.splitlines():
        if line.startswith("|"):
            yield [cell.strip().replace("\\|", "|") for cell in re.split(r"(?<!\\)\|", line)[1:-1]]


def kinds_of(spec):
    return {row[1]: int(row[0]) for row in rows(spec, "The condition") if row[0].isdigit() and len(row) == 5}


def operations_of(spec):
    return {row[1].split()[0]: (int(row[0]), row[1].split()[1:]) for row in rows(spec, "The sheet") if row[0].isdigit()}


def head_of(cell, operations):
    """What the first cell of a row on an edit says: the operation, what its operands are called, the links and the edition; None: any."""
    name, operands, edition, first, last = re.match(r"(\w+) (.*?)(?: in edition (\d+))?(?:, m from (\d) to (\d))?$", cell).groups()
    links = range(int(first), int(last) + 1) if first else None
    return operations[name][0], operands.split(), links, edition and int(edition)


def letters(head, edit, edition):
    """What the letters of a row stand for, if it is about such an edit."""
    number, operands, links, own = head
    known = dict(zip(operands, edit[1:]))
    fits = number == edit[0] and own in (None, edition) and known.get("f", FUNCTIONAL[0]) in FUNCTIONAL
    if not fits or links and known["m"] not in links:
        return None
    for link in "mf":
        if link in known:
            known[link + "-"] = known[link] + 8
    return known


def rows_for(rows, edit, edition):
    """The rows about an edit, each with its letters. Those that name the edition stand in the place of the others."""
    found = [(head, letters(head, edit, edition), *rest) for head, *rest in rows]
    found = [row for row in found if row[1] is not None]
    return [row[1:] for row in found if row[0][3]] or [row[1:] for row in found]


def blocks_of(spec, operations):
    """The rows of an edit, an old node and its block, as words."""
    blocks, head = [], None
    for row in rows(spec, "Rewriting"):
        if len(row) != 4 or not row[3].isdigit():
            continue
        head = head_of(row[0], operations) if row[0] else head
        words = row[2].strip("`").split()
        compare(f"the nodes of {row[2]}", row[3], str(sum(word != "T" for word in words)))
        blocks.append((head, row[1].split(",")[0].split(), words))
    return blocks


def number_of(word, known):
    return {"E": 16, "nil": 0}.get(word, known[word[0] + "-"] if word.endswith("-") else known.get(word))


def block_for(blocks, node, kinds):
    """Of the rows about an edit, the words of a node's block and what their letters stand for; None where the node is copied."""
    for known, old, words in blocks:
        if kinds[old[0]] != node[0]:
            continue
        own = old[1] if len(old) > 1 else None
        if own is None or number_of(own, known) == node[1]:
            return words, known
        # "any p", "any y but 0", "any way w but E"
        if own not in known and not (own == "y" and node[1] == 0) and not (own == "w" and node[1] == 16):
            return words, {**known, own: node[1]}
    return None


def put_block(words, known, image, kinds, out):
    stack = []
    leaves = {"t": "true", "h": "here", "p": "label", "k": "slot"}
    for word in words:
        if word == "T":
            stack.append(image)
            continue
        if word in "&|":
            right, left = stack.pop(), stack.pop()
            node = (kinds["and" if word == "&" else "or"], 0, left, right)
        elif word == "!":
            node = (kinds["not"], 0, stack.pop(), 0)
        elif word[0] in "<[":
            node = (kinds["diamond" if word[0] == "<" else "box"], number_of(word[1:-1], known), stack.pop(), 0)
        else:
            node = (kinds[leaves.get(word, "name")], 0 if word in "th" else number_of(word, known), 0, 0)
        stack.append(len(out))
        out.append(node)


def rewritten_once(blocks, kinds, table):
    two, one = {kinds["or"], kinds["and"]}, {kinds[k] for k in ("not", "diamond", "box", "mu", "nu")}
    out, images = [], []
    for kind, param, left, right in table:
        found = block_for(blocks, (kind, param), kinds)
        if found:
            put_block(*found, images[left] if kind in one else None, kinds, out)
        else:
            out.append((kind, param, images[left] if kind in one | two else 0, images[right] if kind in two else 0))
        images.append(len(out) - 1)
    return out


def table_line(table, sheet, step):
    """What is printed of the table that the steps make, the last edit first."""
    for at in range(len(sheet) - EDIT_BYTES, -1, -EDIT_BYTES):
        table = step(table, sheet[at:at + EDIT_BYTES])
        if len(table) > TABLE_NODES:
            return "refused 14 0"
    return show_table(as_bytes(*table))


def owns_of(spec, operations):
    """The rows of an edit and its own condition, as words."""
    owns = []
    for row in rows(spec, "The condition for going through"):
        if len(row) != 3 or not row[2].isdigit() or not row[1].startswith("`"):
            continue
        words = row[1].strip("`").split()
        compare(f"the nodes of {row[1]}", row[2], str(len(words)))
        owns.append((head_of(row[0], operations), words))
    if not owns:
        faults.append("docs/SPEC.md has no table of the edits' own conditions")
    return owns


def put_own(owns, kinds, table):
    """The edit's own condition and an "and" behind the table, which becomes the left operand."""
    older = len(table) - 1
    for known, words in owns:
        put_block(words, known, None, kinds, table)
        table.append((kinds["and"], 0, older, len(table) - 1))
    return table


def refused_before(line):
    return line.startswith("refused") and line != "refused 14 0"


def rewriting(spec, cases):
    kinds, operations = kinds_of(spec), operations_of(spec)
    blocks, owns = blocks_of(spec, operations), owns_of(spec, operations)
    for number, ((_, condition, sheet, edition), answer) in enumerate(cases):
        def rewrite(table, edit):
            return rewritten_once(rows_for(blocks, edit, edition), kinds, table)

        def through(table, edit):
            return put_own(rows_for(owns, edit, edition), kinds, rewrite(table, edit))

        if not refused_before(answer[1]):
            table = [(*condition[k:k + 2], number_at(condition, k + 2, 2), number_at(condition, k + 4, 2)) for k in range(0, len(condition), NODE_BYTES)]
            compare(f"case {number} of crates/test_changes, rewritten", table_line(table, sheet, rewrite), answer[1])
        own = next(line for line in answer if line.startswith("through "))[len("through "):]
        if not refused_before(own):
            compare(f"case {number} of crates/test_changes, through", table_line([(kinds["true"], 0, 0, 0)], sheet, through), own)


# ---- the header

def plain(text):
    return int(text.split()[0].replace(",", ""))


def value(name, macros):
    """The number of a macro without parameters."""
    text = re.sub(r"DESK_\w+", lambda m: str(value(m.group(), macros)), macros[name])
    return int(eval(text.replace("/", "//")))


def header(spec):
    macros = dict(re.findall(r"(?m)^#define (DESK_\w+) (.*?)\s*(?:/\*.*)?$", read("include/desk.h")))
    for row in rows(spec, "The site"):
        found = re.match(r"`(\w+)` = (.*)", row[3])
        if found:
            compare(f"{found.group(1)} in include/desk.h", plain(row[0]), value(found.group(1), macros))
            compare(f"the sum {found.group(2)}", plain(row[0]), eval(found.group(2).replace(",", "").replace("·", "*")))
    compare("the trailer in include/desk.h", re.search(r"The trailer is (\d+) bytes", spec).group(1), str(value("DESK_TRAILER_BYTES", macros)))
    constants = dict(re.findall(r"(?m)^ +(DESK_\w+) = (\d+)", read("include/desk.h")))
    for name, number in kinds_of(spec).items():
        compare(f"kind {name} in include/desk.h", str(number), constants.get("DESK_KIND_" + name.upper()))
    for name, (number, _) in operations_of(spec).items():
        compare(f"operation {name} in include/desk.h", str(number), constants.get("DESK_OP_" + name))
    for row in rows(spec, "Reasons"):
        if row[0].isdigit():
            compare(f"{row[1]} in include/desk.h", row[0], constants.get(row[1].strip("`")))


def main():
    spec, cases = read("docs/SPEC.md"), list(stored_cases())
    header(spec)
    worked_job(spec, cases)
    rewriting(spec, cases)
    for fault in faults:
        print("spec:", fault[:500])
    print("spec: ok" if not faults else f"spec: {len(faults)} faults")
    return bool(faults)


if __name__ == "__main__":
    sys.exit(main())
