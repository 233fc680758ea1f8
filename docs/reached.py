#!/usr/bin/env python3
"""What a contract rests on: the definitions of specs/ that it reaches.

    docs/reached.py crate/src/file.rt:function ..   the definitions, file by file
    docs/reached.py --check                         docs/REVIEW.md against the contracts that it lists

A name in a contract or a definition is looked up in its file and in the file's imports, by its spelling alone, so that too
much may be reached, and not too little. The toolchain's libraries, and the types that the code declares, are not followed,
nor are laws. A path crate/proofs/File.antt stands for the statements of its public theorems. With --check every file that a
contract of REVIEW.md reaches must stand in one of its tables, and no other may."""
import os
import re
import sys

ROOT = os.path.join(os.path.dirname(os.path.abspath(__file__)), "..")
CRATES = os.path.join(ROOT, "crates")
WORD = re.compile(r"[^\s(){}\[\];,.|⌜⌝]+")
IMPORT = re.compile(r"^(?:pub |ghost )?use Rattle\.([a-z_0-9]+?)\.(specs|proofs)\.([^{;]+?)(?:\.\{([^}]*)\})?(?: as (\w+))?;?$")
DEFINED = re.compile(r"^ *(?:(?:unfoldable|abbrev|pub) )+(record |data )?(\S+?)(?= |$)")
LAWS = "-- LAWS"


def words(text):
    """The words of a text, an operator `◌+q◌` also as it is written, `+q`."""
    return set(WORD.findall(re.sub(r"--.*", "", text)))


def is_in(name, found):
    return name in found or (name.startswith("◌") and name.strip("◌") in found)


class File:
    """A file of specs/: its definitions in their order, each with its text, and its imports."""

    def __init__(self, crate, name):
        self.path = f"{crate}/specs/{name}.antt"
        self.text = open(os.path.join(CRATES, self.path), encoding="utf8").read()
        self.definitions, self.imports = {}, imports(self.text)
        current, record = None, False
        for line in self.text.split("\n"):
            start = DEFINED.match(line)
            field = record and re.match(r"^  pub \S+ :", line)
            if start and not field and not line.lstrip().startswith("pub mod") and not IMPORT.match(line):
                current, record = start.group(2), start.group(1) == "record "
                self.definitions[current] = ""
            if current and not IMPORT.match(line):
                self.definitions[current] += line + "\n"


def imports(text):
    """What the lines `use` of a file bring from specs/: (crate, file, name) by the name here, and whole files by their alias."""
    names, whole = {}, {}
    for line in text.split("\n"):
        m = IMPORT.match(line)
        if not m or m.group(2) != "specs" or m.group(3).startswith("declared") or not os.path.isdir(os.path.join(CRATES, m.group(1))):
            continue
        crate, path = m.group(1), m.group(3).split(".")
        for word in (m.group(4) or "").split(","):
            if word.strip():
                there, _, here = word.strip().partition(" as ")
                # a constructor stands in the text of its data type
                names[here or there] = (crate, path[0], path[1] if len(path) > 1 else there)
        if m.group(5):
            whole[m.group(5)] = (crate, path[0])
    return names, whole


FILES = {}


def file_of(crate, name):
    if (crate, name) not in FILES:
        FILES[crate, name] = File(crate, name)
    return FILES[crate, name]


def follow(text, own, brought, todo):
    """Adds what a text names, in its own file (crate, name, definitions) or through imports."""
    found = words(text)
    if own:
        todo += [(own[0], own[1], d) for d in own[2] if is_in(d, found)]
    names, whole = brought
    todo += [there for here, there in names.items() if is_in(here, found)]
    for alias, (crate, name) in whole.items():
        if alias in found:
            todo += [(crate, name, d) for d in file_of(crate, name).definitions if is_in(d, found)]


def statement(entry):
    """The contract of a function, or the statements of a file of theorems, with the file's imports."""
    path, _, function = entry.partition(":")
    text = open(os.path.join(CRATES, path), encoding="utf8").read()
    if not function.strip():
        claims = re.findall(r"^ *pub (\S+ : (?:.|\n)*?)(?=\n *(?:unfolding|\S+ [^:\n]*=|pub |--))", text, re.M)
        return "\n".join(claims), imports(text)
    m = re.search(rf"^.*\bfn {re.escape(function.strip())}\b(?:.|\n)*?^{{$", text, re.M)
    if not m:
        sys.exit(f"{path} has no function {function.strip()}")
    return m.group(0), imports(text)


def reached(entries):
    todo, seen = [], set()
    for entry in entries:
        text, brought = statement(entry)
        follow(text, None, brought, todo)
    while todo:
        crate, name, definition = todo.pop()
        f = file_of(crate, name)
        if definition not in f.definitions:
            todo += [f.imports[0][definition]] if definition in f.imports[0] else []
            continue
        if (f.path, definition) in seen:
            continue
        seen.add((f.path, definition))
        if not f.text.startswith(LAWS):
            follow(f.definitions[definition], (crate, name, f.definitions), f.imports, todo)
    return seen


def check():
    """REVIEW.md: its contracts are `PATH: NAME` or a file of theorems in a row of a table; its files, a row each with a count."""
    text = open(os.path.join(ROOT, "docs", "REVIEW.md"), encoding="utf8").read()
    listed = set(re.findall(r"^\| `([^`]*/specs/[^`]*)` \| \d", text, re.M))
    entries = re.findall(r"^\| `([^`]*/(?:src/[^`]*\.rt: \w+|proofs/[^`]*\.antt))` \|", text, re.M)
    found = reached(entries)
    need = {p for p, _ in found if not open(os.path.join(CRATES, p), encoding="utf8").read().startswith(LAWS)}
    for path in sorted(need - listed):
        print(f"docs/REVIEW.md: a contract reaches {path} ({', '.join(sorted(d for p, d in found if p == path))}), which no table has")
    for path in sorted(listed - need):
        print(f"docs/REVIEW.md: no contract reaches {path}")
    if need != listed:
        sys.exit(1)
    print(f"docs/REVIEW.md: {len(entries)} contracts reach {len(found)} definitions in {len(need)} files, all in its tables")


def main(arguments):
    if not arguments:
        sys.exit(__doc__)
    if arguments == ["--check"]:
        return check()
    found = reached(arguments)
    for path in sorted({p for p, _ in found}):
        crate, _, name = path.split("/")
        order = list(file_of(crate, name[:-5]).definitions)
        there = [d for d in order if (path, d) in found]
        print(f"{path}: {'all' if len(there) == len(order) else ', '.join(there)}")


main(sys.argv[1:])
