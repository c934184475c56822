#!/usr/bin/env python3
"""Prints what is in each file of a crate: the first sentence of its first comment. `tools/files.py` goes over all crates, `tools/files.py WORD..` over
those whose crate, path or sentence has one of these words. Definitions (specs/) come behind the code."""
import glob
import os
import re
import sys

ROOT = os.path.dirname(os.path.dirname(os.path.abspath(__file__)))


def subject_of(path):
    """Returns the first sentence of the comment that a file begins with, or nothing where it begins with none."""
    said = []
    with open(path, encoding="utf-8") as text:
        for line in text:
            comment = re.match(r"(?://!|--) ?(.*)", line.strip())
            if not comment or not comment[1]:
                break
            said.append(comment[1])
    return re.split(r"(?<=\.) ", " ".join(said))[0]


def main(words):
    for crate in sorted(glob.glob(f"{ROOT}/crates/*")):
        name = os.path.basename(crate)
        files = sorted(glob.glob(f"{crate}/src/**/*.rt", recursive=True)) + sorted(glob.glob(f"{crate}/specs/*.antt"))
        lines = [f"  {os.path.relpath(it, crate):<28} {subject_of(it)}" for it in files]
        found = [it for it in lines if not words or any(word.lower() in f"{name} {it}".lower() for word in words)]
        if found:
            print(name, *found, sep="\n")


if __name__ == "__main__":
    main(sys.argv[1:])
