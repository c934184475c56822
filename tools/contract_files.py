#!/usr/bin/env python3
"""Which files of definitions and of types does a contract need?

contract_files.py CRATE FILE FUNCTION: lists the files in which the definitions and the types stand that the contract of that function cites,
directly or through other definitions. FILE is below the crate's src. Those of the standard library and of ported crates are left out.
"""
import re
import sys
from pathlib import Path

ROOT = Path(__file__).resolve().parent.parent
MADE = re.compile(r"^(\s{0,2})(?:abbrev pub|abbrev|unfoldable pub|pub record|pub data|pub abbrev|record|data|pub) +(?:record |data )?([A-Za-z_]\w*)")
WORD = re.compile(r"[A-Za-z_]\w*(?:\.[A-Za-z_]\w*)?")


class Imports:
    """What the `use` lines of a text bring in."""

    def __init__(self, lines):
        self.names, self.modules = {}, {}
        for line in lines:
            if group := re.match(r"([\w.+]+)\.\{([^}]*)\}", line):
                for name in filter(None, (it.strip() for it in group[2].split(","))):
                    its, _, here = name.partition(" as ")
                    self.names[here or its] = (group[1], its)
            elif alias := re.match(r"([\w.+]+) as (\w+)", line):
                self.modules[alias[2]] = alias[1]


class Module:
    """The definitions of one file of `specs`, by their names."""

    def __init__(self, path):
        text = re.sub(r"--[^\n]*", "", path.read_text())
        self.imports = Imports(re.findall(r"^use Rattle\.(.*)$", text, re.M))
        self.texts, name, record = {}, None, False
        for line in text.split("\n"):
            if line.startswith("use "):
                continue
            made = MADE.match(line)
            if made and not (made[1] and record):
                name, record = made[2], "record " in line or "data " in line
            if name:
                self.texts[name] = self.texts.get(name, "") + line + "\n"

    def of(self, name):
        """The definition of that name, or the one that has a constructor or a field of that name."""
        if name in self.texts:
            return self.texts[name]
        return next((text for text in self.texts.values() if re.search(rf"\b{re.escape(name)}\b", text)), None)


class Reader:
    """Follows names from definition to definition."""

    def __init__(self):
        self.modules, self.seen, self.definitions, self.types = {}, set(), set(), set()

    def follow(self, path, name):
        crate, kind, *rest = path.split(".")
        if not crate.startswith("eu_") or kind != "specs":
            return
        if rest[0] in ("declared", "contracts"):
            self.types.add(f"crates/{crate}/src/{rest[1]}.rt")
            return
        file = ROOT / "crates" / crate / "specs" / ("/".join(rest) + ".antt")
        if (path, name) in self.seen or not file.exists():
            return
        self.seen.add((path, name))
        module = self.modules.setdefault(path, None) or Module(file)
        self.modules[path] = module
        if text := module.of(name):
            self.definitions.add(str(file.relative_to(ROOT)))
            self.read(text, module.imports, path, module.texts)

    def read(self, text, imports, path=None, here=()):
        for word in set(WORD.findall(text)):
            first, _, second = word.partition(".")
            if second and first in imports.modules:
                self.follow(imports.modules[first], second)
            elif first in here:
                self.follow(path, first)
            elif first in imports.names:
                self.follow(*imports.names[first])


def contract_of(text, function):
    """The clauses between a function's name and its body."""
    start = re.search(rf"\bfn {function}\b", text).start()
    body = re.search(r"\n(?:    )?\{", text[start:]).start()
    return "\n".join(line for line in text[start : start + body].split("\n") if re.match(r"\s*(ensures|requires|\()", line))


def main():
    crate, file, function = sys.argv[1:4]
    text = (ROOT / "crates" / crate / "src" / file).read_text()
    reader = Reader()
    reader.read(contract_of(text, function), Imports(re.findall(r"ghost use Rattle\.(.*?);", text)))
    for path in sorted(reader.definitions) + sorted(reader.types):
        print(path)
    print(f"{function}: {len(reader.definitions)} files of definitions, {len(reader.types)} of types")


main()
