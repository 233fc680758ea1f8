#!/usr/bin/env python3
"""Counts the places in crates/*/src that docs/DESIGN-PASS.md speaks of, point by point.

usage: tools/places.py [--list]     at the top of the repository

--list prints each place. A place is what a rule below finds; whether it is to change is told by the page or by a line beside the place.
"""
import glob
import os
import re
import sys

LIST = "--list" in sys.argv
FN = re.compile(r"(?ms)^[ \t]*(?:pub(?:\(crate\))? )?(?:const )?(?:unsafe )?(?:extern \"C\" )?fn (\w+)(?:<[^>]*>)?\((.*?)\)\s*(?:-> ([^\n{]*?))?"
                r"(?:\s*where[^\n]*)?(?=\n\s*(?:requires|ensures|\{)|\s*\{)")
STRUCT = re.compile(r"(?ms)^(?:pub(?:\(crate\))? )?struct (\w+)[^{;]*\{\n(.*?)^\}")
ENUM = re.compile(r"(?ms)^(?:pub(?:\(crate\))? )?enum (\w+)[^{;]*\{\n(.*?)^\}")
FIELD = re.compile(r"(?m)^    (?:pub(?:\(crate\))? )?(?:ghost )?(\w+): ([^\n]*?),?$")
CASE = re.compile(r"(?m)^    (\w+)")
# A case that says that all went well, or that nothing was found: the enum is an Option or a Result under another name.
ENDED = {"Done", "Nothing", "None", "Accepted", "Written", "Read", "Ordered", "Known", "Case", "Number", "Four", "Three", "Figure", "OutsideAt"}
# A number that stands for a kind or a refusal.
CODE = re.compile(r"\b(number|kind|status|spacing|refusal): (usize|u64|u8|u32)\b")
# A helper that the standard library has.
BY_HAND = {"larger", "smaller", "down", "both", "either", "saturating_sub", "least", "greatest", "choose", "row_length", "column_end"}


def code(path):
    with open(path, encoding="utf-8") as f:
        return re.sub(r"(?m)[ \t]*//.*$", "", f.read())


def body(text, at):
    """The block that begins at or after `at`, behind the clauses."""
    m = re.compile(r"(?m)^([ \t]*)\{$|[^\n]*\{$").search(text, at)
    if not m:
        return ""
    end = text.find("\n" + re.match(r"[ \t]*", m[0])[0] + "}", m.end())
    return text[m.end():end] if end >= 0 else ""


def split(params):
    out, depth, last = [], 0, 0
    for i, c in enumerate(params):
        depth += (c in "([{<") - (c in ")]}" or (c == ">" and params[i - 1] != "-"))
        if c == "," and depth == 0:
            out.append(params[last:i])
            last = i + 1
    out.append(params[last:])
    return [" ".join(p.split()) for p in out if p.strip()]


def shape(block):
    """The block with its names and numbers taken out: twins have one shape."""
    words = re.findall(r"[A-Za-z_]\w*|\d[\w.]*|[^\s\w]+", block)
    keep = {"while", "for", "in", "if", "else", "match", "let", "mut", "return", "as", "true", "false", "self"}
    return " ".join(w if w in keep or not re.match(r"\w", w) else "_" for w in words)


rows = {}


def row(name, place):
    rows.setdefault(name, []).append(place)


NAMES = ["1 own Option or Result", "1 flag beside a value", "1 number for a kind or refusal", "2 functions of one shape", "3 loops by while",
         "4 by hand what the library has", "5 seven parameters or more", "6 struct around one array", "6 array with a length beside it",
         "7 flag or kind that chooses a step"]
shapes = {}
for path in sorted(glob.glob("crates/*/src/*.rt")):
    text = code(path)
    crate = path.split("/")[1]
    where = crate + "/" + os.path.basename(path)
    for m in ENUM.finditer(text):
        if ENDED & set(CASE.findall(m[2])):
            row(NAMES[0], f"{where}: enum {m[1]}")
        if re.search(r"\((usize|u64)\)", m[2]) and re.search(r"Refused\((usize|u64)\)", m[2]):
            row(NAMES[2], f"{where}: enum {m[1]}")
    for m in STRUCT.finditer(text):
        fields = FIELD.findall(m[2])
        for name, kind in fields:
            if kind == "bool" and len(fields) > 1:
                row(NAMES[1], f"{where}: {m[1]}.{name}")
            if CODE.search(f"{name}: {kind}"):
                row(NAMES[2], f"{where}: {m[1]}.{name}")
        arrays = [n for n, k in fields if k.startswith("[")]
        if len(fields) == 1 and arrays:
            row(NAMES[7], f"{where}: {m[1]}")
        if arrays and any(n in ("count", "len", "k") for n, k in fields):
            row(NAMES[8], f"{where}: {m[1]}")
    for m in FN.finditer(text):
        name, params, result = m[1], split(m[2]), (m[3] or "").strip()
        for p in params:
            if CODE.search(p):
                row(NAMES[2], f"{where}: fn {name}({p})")
            if re.search(r": (bool|Side|Rule)$", p):
                row(NAMES[9], f"{where}: fn {name}({p})")
        if re.search(r"refusal", name) and result in ("usize", "u64"):
            row(NAMES[2], f"{where}: fn {name} -> {result}")
        if len(params) >= 7:
            row(NAMES[6], f"{where}: fn {name}, {len(params)}")
        if name in BY_HAND and crate != "bspline":
            row(NAMES[5], f"{where}: fn {name}")
        b = body(text, m.end())
        if len([x for x in b.split("\n") if x.strip()]) >= 5:
            shapes.setdefault(shape(b), []).append(f"{where}: fn {name}")
    for m in re.finditer(r"(?m)^\s*while ", text):
        before = [n for n in FN.finditer(text) if n.start() < m.start()]
        row(NAMES[4], f"{where}: fn {before[-1][1] if before else '?'}")
for names in shapes.values():
    for n in names[1:]:
        row(NAMES[3], f"{n} ~ {names[0]}")
for name in NAMES:
    places = rows.get(name, [])
    print(f"{name}: {len(places)}")
    if LIST:
        for p in places:
            print("    " + p)
walks = glob.glob("crates/*/proofs/**/Proof.antt", recursive=True)
lines = sum(1 for p in walks for _ in open(p, encoding="utf-8"))
answers = len(glob.glob("crates/*/proofs/**/Answers.antt", recursive=True)) + len(glob.glob("crates/*/proofs/**/Invariants.antt", recursive=True))
print(f"8 proofs that walk the code by hand: {len(walks)}, {lines} lines; files of answers and invariants: {answers}")
