#!/usr/bin/env python3
"""Says which lines of contracts and laws, as documents quote them, stand in no source any more.

A quote is a line of docs/STATEMENT.md or docs/LAWS.md that begins with four spaces. Its words have to stand in a file of src/ or specs/, one
after another; how the lines are broken plays no part. It ends with 1 where one doesn't.
"""
import glob
import os
import re
import sys

ROOT = os.path.dirname(os.path.dirname(os.path.abspath(__file__)))


def words_of(text):
    """Returns a text with one space between its words."""
    return re.sub(r"\s+", " ", text).strip()


def sources():
    """Returns the text of all code and definitions."""
    paths = glob.glob(f"{ROOT}/crates/*/src/**/*.rt", recursive=True) + glob.glob(f"{ROOT}/crates/*/specs/*.antt")
    return "\n".join(words_of(open(it, encoding="utf-8").read()) for it in sorted(paths))


def main():
    whole, missing = sources(), 0
    for name in ("STATEMENT.md", "LAWS.md"):
        with open(f"{ROOT}/docs/{name}", encoding="utf-8") as lines:
            for number, line in enumerate(lines, 1):
                if line.startswith("    ") and words_of(line) not in whole:
                    missing += 1
                    print(f"docs/{name}:{number}: {line.strip()}")
    sys.exit(1 if missing else 0)


if __name__ == "__main__":
    main()
