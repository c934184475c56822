#!/usr/bin/env python3
"""Says which must-fail edits can't be applied any more: those whose `old:` line doesn't stand exactly once in their file.

It ends with 1 where there is one. That an edit still compiles only a try of it says (tools/more_edits.sh).
"""
import glob
import os
import sys

ROOT = os.path.dirname(os.path.dirname(os.path.abspath(__file__)))


def faults(path):
    """Yields what is wrong with an edit."""
    text = ""
    for line in open(path, encoding="utf-8").read().splitlines():
        word, _, rest = line.partition(": ")
        if word == "file":
            place = os.path.join(os.path.dirname(os.path.dirname(path)), rest.strip())
            if not os.path.exists(place):
                yield f"no file {rest}"
                return
            text = open(place, encoding="utf-8").read()
        elif word == "old" and text.count(rest) != 1:
            yield f"{text.count(rest)} times: {rest.strip()}"


def main():
    paths = sorted(glob.glob(f"{ROOT}/crates/*/must-fail*/*.edit"))
    wrong = 0
    for path in paths:
        for fault in faults(path):
            print(f"{os.path.relpath(path, ROOT)}: {fault}")
            wrong += 1
    print(f"{len(paths)} edits, {wrong} lines that don't stand once")
    sys.exit(1 if wrong else 0)


main()
