#!/bin/sh
# Makes what documents have from other files: docs/generate.sh [--check]
# docs/LAYERS.md is drawn from crates.txt; the lines in the tables of docs/REVIEW.md are counted. With --check
# nothing is written, and the status is 1 where a document is not what would be made.
set -eu
export LC_ALL=C
cd "$(dirname "$0")/.."
mode=${1:-}
made=$(mktemp)
trap 'rm -f "$made"' EXIT
status=0

settle() { # DOCUMENT: takes over what was made, or says that it differs
    cmp -s "$made" "$1" && return
    if [ "$mode" = --check ]; then
        echo "$1 is not up to date: run docs/generate.sh" >&2
        status=1
    else
        cat "$made" > "$1"
        echo "$1 written"
    fi
}

# ---- the layers
programs=$(for f in crates/*/src/main.rt; do echo "${f%/src/main.rt}"; done | sed 's|crates/||')
bare=$(for c in crates/*; do cat "$c"/src/*.rt | grep -q 'fn ' || echo "${c#crates/}"; done)
{
    cat << 'END'
# The layers

Made from `crates.txt` by `docs/generate.sh`. [ARCHITECTURE.md](ARCHITECTURE.md) says what each crate holds. A box is a layer: its crates
need nothing of each other, and are proved side by side. Beside a crate stand the crates that it rests on directly: those of its line in
`crates.txt` that no other crate of that line uses. Libraries of the toolchain are left out. `*` is a program, `-` has definitions and laws
and no function.

END
    echo '```'
    PROGRAMS=$(echo $programs) BARE=$(echo $bare) awk '
        function level_of(n,    dep, m, k, l) {
            if (n in level) return level[n]
            m = split(uses[n], dep, " ")
            for (k = 1; k <= m; k++) if (dep[k] in uses && level_of(dep[k]) + 1 > l) l = level_of(dep[k]) + 1
            if (l > top) top = l
            return level[n] = l + 0
        }
        # below[n, d]: n uses d, itself or through others
        function reach(n,    dep, m, k, j) {
            if (n in reached) return
            reached[n] = 1
            m = split(uses[n], dep, " ")
            for (k = 1; k <= m; k++) if (dep[k] in uses) {
                reach(dep[k]); below[n, dep[k]] = 1
                for (j = 1; j <= count; j++) if ((dep[k], list[j]) in below) below[n, list[j]] = 1
            }
        }
        function direct(n,    dep, m, k, j, through, s) {
            m = split(uses[n], dep, " ")
            for (k = 1; k <= m; k++) {
                if (!(dep[k] in uses)) continue
                through = 0
                for (j = 1; j <= m; j++) if ((dep[j], dep[k]) in below) through = 1
                if (!through) s = s (s == "" ? "" : ", ") dep[k]
            }
            return s
        }
        function rule(n,    s) { s = n == "" ? "+" : "+-- " n " "; while (length(s) < width + 25) s = s "-"; return s "+" }
        { sub(/#.*/, "") }
        /:/ { n = substr($0, 1, index($0, ":") - 1); sub(/ .*/, "", n); uses[n] = substr($0, index($0, ":") + 1); list[++count] = n }
        END {
            m = split(ENVIRON["PROGRAMS"], word, " "); for (k = 1; k <= m; k++) mark[word[k]] = "*"
            m = split(ENVIRON["BARE"], word, " "); for (k = 1; k <= m; k++) mark[word[k]] = "-"
            for (i = 1; i <= count; i++) { level_of(list[i]); reach(list[i]) }
            for (i = 1; i <= count; i++) if (length(direct(list[i])) > width) width = length(direct(list[i]))
            for (l = top; l >= 0; l--) {
                print rule(l)
                for (i = 1; i <= count; i++) if (level[list[i]] == l) printf "| %1s %-18s  %-" width "s |\n", mark[list[i]], list[i], direct(list[i])
            }
            print rule("")
        }' crates.txt
    echo '```'
} > "$made"
settle docs/LAYERS.md

# ---- the counts of lines in REVIEW.md: the second cell of a row that begins with a file, and the sum of a table
awk '
    function lines(path,    f, s, n, got) {
        f = "crates/" path
        got = (getline s < f)
        if (got < 0) { f = path; got = (getline s < f) }
        if (got < 0) { print "docs/REVIEW.md: no file " path > "/dev/stderr"; return 0 }
        while (got > 0) { n++; got = (getline s < f) }
        close(f)
        return n + 0
    }
    /^\|---/ { sum = 0 }
    /^\| `[^`]*` \| *[0-9?]* *\|/ {
        split($0, cell, "|"); split(cell[2], part, "`")
        n = lines(part[2]); sum += n; total += n
        sub(/^\| `[^`]*` \| *[0-9?]* *\|/, "| `" part[2] "` | " n " |")
    }
    /^\| all \| *[0-9?]* *\|/ { sub(/^\| all \| *[0-9?]* *\|/, "| all | " sum " |") }
    /^\| all parts \| *[0-9?]* *\|/ { sub(/^\| all parts \| *[0-9?]* *\|/, "| all parts | " total " |") }
    { print }' docs/REVIEW.md > "$made"
settle docs/REVIEW.md
exit $status
