#!/usr/bin/env python3
"""Passes on what a run of the gate prints and says at the end where its time went: the slowest crates, and the crates by the time of their must-fail edits.

    .ci/run | tools/slowest.py [HOW_MANY]

`rt ci` prints no times, so they are taken from when its lines come. A crate's is from when the last crate below it was proved. What each edit came to is
printed once all were tried, so the time of a crate's edits is from when the first of them was begun to when those of another crate were: `rt ci` begins them
crate by crate. Crates and edits run side by side and wait for a processor, so each takes longer than it would alone, and the sums of the crates are longer
than the run: compare the times of one run with each other. What an earlier run on the machine has proved is kept, and takes no time.
"""
import re
import sys
import time

PROVED = re.compile(r"^rt: (\w+) (?:proved$|is kept: )")
BEGUN = re.compile(r"^rt: (\w+): trying its must-fail edits \((\d+)\)$")
TRIED = re.compile(r"^rt: must-fail (\w+)/(\w+)\.edit: ")


def crates_below():
    """The crates that each stands on."""
    direct = {}
    with open("crates.txt", encoding="utf-8") as f:
        for line in f:
            name, colon, rest = line.split("#")[0].partition(":")
            if colon:
                direct[name.split()[0]] = rest.split()
    return direct


def show(title, rows, most):
    print(title)
    for seconds, what in sorted(rows, reverse=True)[:most]:
        print(f"{seconds:7.0f} s  {what}")


def main():
    most, below = int(sys.argv[1]) if len(sys.argv) > 1 else 10, crates_below()
    began, proved, edits, end = time.time(), {}, [], None
    for line in sys.stdin:
        print(line, end="", flush=True)
        crate, begun = PROVED.match(line), BEGUN.match(line)
        if crate:
            proved.setdefault(crate.group(1), time.time())
        elif begun:
            edits.append((time.time(), *begun.groups()))
        elif TRIED.match(line) and end is None:
            end = time.time()
    took = {crate: at - max([began] + [proved[x] for x in below.get(crate, ()) if x in proved]) for crate, at in proved.items()}
    ends = [at for at, _, _ in edits[1:]] + [end or time.time()]
    tried = [(max(0, until - at), f"{crate}, {number} edits") for (at, crate, number), until in zip(edits, ends)]
    show("the slowest crates", [(s, crate) for crate, s in took.items()], most)
    show("must-fail edits", tried, most)
    print(f"{sum(took.values()):.0f} s for {len(took)} crates, {sum(s for s, _ in tried):.0f} s for {sum(int(number) for _, _, number in edits)} edits")


if __name__ == "__main__":
    main()
