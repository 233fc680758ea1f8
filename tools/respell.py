#!/usr/bin/env python3
"""Spells the names that this repository's specs/ and proofs/ declare in snake case: `fitOf` as `fit_of`, `first-le` as `first_le`.

usage: tools/respell.py [--list]     at the top of the repository, once, on what the toolchain's port.py made

Functions of src/, strings, exported names, inputs and outputs stay. A name that a file imports from the toolchain's library stays in that
file. Where a definition and a law about it would have one name, the law's ends in _law. --list prints the rows and writes nothing.
"""
import os
import re
import sys

WORD = r'[^\s(){}.;,@"«»\[\]|`]+'
DECLARED = re.compile(r"(?m)^ *(?:pub |abbrev |unfoldable |ruleset |data |record )*((?:%s)(?: %s)*?) :(?= |$)" % (WORD, WORD))
IMPORT = re.compile(r"\buse (Rattle\.\w+|[\w.]+)[^\s;{]*\.\{([^}]*)\}")


def snake(name):
    words = re.sub(r"(?<=[a-z0-9])([A-Z])", lambda m: "_" + m[1].lower(), name)
    return words.replace("-", "_")


def files(top, ends):
    for folder, dirs, names in os.walk(top):
        dirs[:] = sorted(d for d in dirs if d not in ("out", "target", ".git"))
        for n in sorted(names):
            if n.endswith(ends):
                yield os.path.join(folder, n)


def read(p):
    with open(p, encoding="utf-8") as f:
        return f.read()


def own_crates():
    return set(os.listdir("crates"))


def is_walk(p):
    return os.path.basename(p) in ("Proof.antt", "Answers.antt", "Invariants.antt") and os.path.basename(os.path.dirname(p)) != "proofs"


def bare(text):
    """The text without comments."""
    return re.sub(r"(?m)(?<![^\s(])--.*$", "", text)


def declared(texts):
    found = set()
    for p, t in texts.items():
        if not p.endswith(".antt"):
            continue
        for m in DECLARED.finditer(bare(t)):
            rest = t[m.end():m.end() + 12].strip()
            if rest.startswith(("tie.", "goal.")):
                continue
            for n in m[1].split():
                if re.match(r"[a-z]", n) and "◌" not in n:
                    found.add(n)
                elif re.match(r"[A-Z]", n) and "-" in n:
                    found.add(n)
    return found


def library_names(text, crates):
    """What the file imports from the toolchain's library."""
    out = set()
    for m in IMPORT.finditer(text):
        head = m[1].split(".")
        if head[0] == "Rattle" and head[1] in crates:
            continue
        out |= {w.split(" as ")[-1].strip() for w in m[2].split(",")}
    return out


def fields(texts):
    """The fields of the records that specs/ and the lemma files declare."""
    found = set()
    for p, t in texts.items():
        if p.endswith(".antt") and not is_walk(p):
            for m in re.finditer(r"(?m)^(?:pub )?record .*(?:\n(?: +.*|))*", bare(t)):
                found |= set(re.findall(r"(?m)^ +(?:pub )?(%s) :(?= |$)" % WORD, m[0]))
    return found


def main(argv):
    crates = own_crates()
    texts = {p: read(p) for p in files("crates", (".antt", ".rt"))}
    for p, words in FIRST.items():
        for old, new in words.items():
            texts[p] = re.sub(r"(?<![\w.-])%s(?![\w-])" % old, new, texts[p])
    names = declared({p: t for p, t in texts.items() if not is_walk(p)})
    rows = {n: LAW.get(n) or snake(n) for n in names if snake(n) != n}
    by_new = {}
    for old, new in rows.items():
        by_new.setdefault(new, []).append(old)
    for new, olds in by_new.items():
        # a definition and a law about it: the law's name ends in _law
        if len(olds) > 1 and new not in FIELDS_ALIKE:
            for old in olds:
                if "-" in old:
                    rows[old] = new + "_law"
    own_fields = fields(texts) - MADE
    names = "|".join(sorted(map(re.escape, rows), key=len, reverse=True))
    pattern = re.compile(r'(?<![^\s(){}.;,@"«»\[\]|`?◌])(%s)(?![^\s(){}.;,@"«»\[\]|`◌])' % names)
    spoken = re.compile(r'(?<![\w.\'-])(%s)(?![\w-])' % names)
    parts = re.compile(r'(?P<quoted>b?"(?:\\.|[^"\\\n])*")|(?P<comment>(?<![^\s(])--(?= |$).*|//.*)', re.M)
    changed = 0
    for p, t in texts.items():
        stays = library_names(t, crates)

        def code(t):
            def one(m):
                w = m[1]
                if w in stays or is_walk(p) and t[m.start() - 1:m.start()] == "." and w not in own_fields:
                    return w
                return rows[w]

            return pattern.sub(one, t)

        def comment(t):
            one = lambda m: rows[m[1]] if re.search("[A-Z]", m[1]) and m[1] not in stays else m[1]
            span = lambda m: pattern.sub(lambda w: rows[w[1]] if w[1] not in stays else w[1], m[0])
            return spoken.sub(one, re.sub(r"`[^`]*`", span, t))

        out, at = [], 0
        for m in parts.finditer(t):
            out += [code(t[at:m.start()]), m[0] if m["quoted"] else comment(m[0])]
            at = m.end()
        new = "".join(out) + code(t[at:])
        if p.endswith(".antt"):  # the variables too
            new = re.sub(r"(?<![\w.'])[a-z]\w*[a-z0-9][A-Z]\w*", lambda m: m[0] if m[0] in stays else snake(m[0]), new)
        # an operator of the toolchain's library has this sign, and ours is another
        if re.search(r"Rattle\.fraction\.specs\.Integer\.\{[^}]*◌≤ℤ◌", new) or p == "crates/fraction/specs/Integer.antt":
            new = re.sub(r"(?<![^\s(){};,])(◌?)≤ℤ(◌?)(?![^\s(){};,])", r"\1≤z\2", new)
        if new != read(p):
            changed += 1
            if "--list" not in argv:
                with open(p, "w", encoding="utf-8") as f:
                    f.write(new)
    if "--list" in argv:
        for old in sorted(rows):
            print(old, rows[old])
    print(len(rows), "names respelled in", changed, "files")
    return 0


# what would fall together in one file is told apart first
FIRST = {
    "crates/book/proofs/WholePowers.antt": {"power_in": "power_in_law"},
    "crates/estimate/proofs/Close.antt": {"next_up": "next_up_law", "next_down": "next_down_law"},
    "crates/lane_file/proofs/Answers.antt": {"too_short": "too_short_law"},
    "crates/lane_file/proofs/entry/write/Proof.antt": {"too_short": "too_short_law"},
}
LAW = {"is-nan": "is_nan_law", "refusedAt": "refused_place", "left-half": "left_half_law", "right-half": "right_half_law",
       "of-Format": "of_format"}
# fields of different records
FIELDS_ALIKE = {"other_breaks", "other_coefficients", "turned_away"}
# fields that the check makes
MADE = {"well-formed"}

if __name__ == "__main__":
    raise SystemExit(main(sys.argv[1:]))
