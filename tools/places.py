#!/usr/bin/env python3
"""Counts the places of the design pass in crates/*/src: `tools/places.py [FOLDER]` prints a count for each pattern, `--list NAME` the places.

A pattern is a regular expression for a line of code; comments are left out. docs/DESIGN-PASS.md says what each stands for."""
import pathlib
import re
import sys

PATTERNS = {
    # 1: own enums, flags with a value beside, numbers for kinds, none and refusals
    "1 refusals by number": r"Refused\(\d+,",
    "1 arms that pass a refusal on": r"Refused\((item|i), \w+\) => \w+::Refused\(",
    "1 own enums of the shape of Result": r"^pub enum (Verdict|Rewriting|Listing|Chaining|Classing|Job)\b",
    "1 numbers for kinds of node": r"\b(TRUE|HERE|LABEL|NAME|VAR|NOT|OR|AND|DIA|BOX|MU|NU|SLOT|KINDS)\b",
    "1 ways and links by number": r"\b(way|w|m|f): (u8|usize|u32)\b|\bwhere_?way: u",
    "1 links split by number": r"\b\w+ < (site::)?GENERAL_LINKS\b",
    "1 block rows by number": r"\brow: u8\b|\b[A-Z0-9]+_(WAYS|NAME|LABEL|HERE|DIA|BOX): u8\b",
    "1 editions by number": r"\bedition: u32\b",
    "1 a number for none": r"== SET_SLOTS\b|^\s+(256|SET_SLOTS)$|\bEMITTED\b|rounds > limit",
    "1 flags": r"\bown: bool\b|\bmet: bool\b|\bfits: bool\b",
    # 2: twins
    "2 refusing and judging": r"^(pub )?fn (judge\w*|refuse\w*|refused|verdict|reason|fault|found|nodes|count|steps)\(",
    "2 zero arrays by function": r"^(pub )?fn (no_\w+|all_slots|zero_\w+)\(",
    "2 set operations by function": r"^pub (extern \"C\" )?fn (union_with|meet_with|complement|equal|subset|meets|set_\w+)\(|^fn (invert|unite|meet)\(",
    "2 little-endian by hand": r"^(pub )?fn (get_two|get_four|get|put_two|put_four|put|word|number|quad|read_number|low|high)\(",
    "2 widening by hand": r"^(pub )?fn (wide|widen|narrow|number|slot)\(|: usize = limits::\w+ as usize",
    "2 zero and copy by hand": r"^(pub )?fn (zero|copy|clear|clear_from)\(",
    "2 row addresses": r"ROWS_AT \+|TARGETS_AT \+|SET_SLOTS \* \w+ \+|32 \* \w+ \+ ",
    # 3: loops that count an index
    "3 while": r"^\s*while\b",
    "3 for over an index": r"^\s*for \w+ in (0|\w+)\.\.",
    "3 for over values": r"^\s*for .+ in (?!(0|\w+)\.\.)",
    "3 iterator chains": r"\.(iter|iter_mut|into_iter|map|filter|zip|all|any|sum|enumerate|position|find|copied)\(",
    # 4: equality, order, copies, conversions and printing by hand
    "4 derives": r"#\[derive\(",
    "4 impls of std's traits": r"^impl.* (From|TryFrom|Display|PartialEq|BitOr|BitAnd|Sub|Not|Iterator|IntoIterator)\b.* for ",
    "4 `as` conversions": r"\bas (u8|u16|u32|u64|usize)\b",
    "4 printing by hand": r"^(pub )?fn (print\w*|put_number|put_bytes|put_count|put_list|digit|say\w*)\b",
    # 5: facts and travelling parameters
    "5 length of a site": r"length site\.\w+ ≡ site_bytes",
    "5 length of a set": r"length \w+\.\w+ ≡ set_bytes",
    "5 slot bounds": r"\b[a-z] < set_slots",
    "5 link and way bounds": r"\b\w+ < (links|general_links|every_way)\b|general_links ≤",
    "5 node bounds": r"6 \* \w+ \+ 6 ≤ length",
    "5 other lengths": r"length \w+\.\w+ ≡ (rows_bytes|ways_bytes|work_bytes|memo_bytes|table_bytes|table_nodes|set_slots)",
    "5 legal": r"legal \(edit_of",
    "5 seven parameters or more": None,
    # 6: buffers with a length beside, parallel arrays, packed arrays
    "6 table with a count": r"\b(table|out): &(mut )?\[u8(; \w+)?\], n: |^\s+n: usize,$",
    "6 text with a position": r"\btext: &mut \[u8\], at: usize",
    "6 hex tables": r"0x[0-9a-f]{4}",
    # 7: switches on which step to run
    "7 switches": r"\bif own\b|match row \{|=> TEXT_",
}


def code_lines(path):
    for number, line in enumerate(path.read_text().splitlines(), 1):
        if not line.lstrip().startswith("//"):
            yield number, line


def many_parameters(path):
    text = path.read_text()
    for found in re.finditer(r"^\s*(?:pub )?(?:extern \"C\" )?fn \w+[^(]*\(([^)]*)\)", text, re.M):
        if len([p for p in found.group(1).split(",") if ":" in p or "self" in p]) >= 7:
            yield text[: found.start()].count("\n") + 1, found.group(0).split("(")[0].strip()


def places(folder, pattern):
    for path in sorted(pathlib.Path(folder).glob("crates/*/src/**/*.rt")):
        if pattern is None:
            hits = many_parameters(path)
        else:
            hits = ((n, line) for n, line in code_lines(path) if re.search(pattern, line))
        for number, line in hits:
            yield f"{path.relative_to(folder)}:{number}: {line.strip()}"


def main():
    arguments = sys.argv[1:]
    if arguments[:1] == ["--list"]:
        folder = arguments[2] if len(arguments) > 2 else "."
        for place in places(folder, PATTERNS[arguments[1]]):
            print(place)
        return
    folder = arguments[0] if arguments else "."
    for name, pattern in PATTERNS.items():
        print(f"{sum(1 for _ in places(folder, pattern)):5}  {name}")


main()
