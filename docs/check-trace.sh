#!/bin/sh
# Checks docs/TRACE.md and the tables of docs/BAD-BUILDS.md: docs/check-trace.sh [PAPERS]
# Each `PATH` or `PATH: NAME, NAME` of a row must be there: the file, below crates/ or at the top, and each name
# as a declaration in it (a line's first word in a .txt, a heading in an .md). The numbers of document 01's
# sentences are 1 to N, each once, and the counts at the top are those of the rows; a row of document 02 is
# REQUEST.SENTENCE. Where the folder of the papers is at hand, beside the checkout or as the argument, each row must
# begin as its sentence does, and a request with rows must have all. The functions of the Rust bindings that have an
# `unsafe` block are those of docs/REVIEW.md. One line for each wrong row; status 1.
set -eu
export LC_ALL=C
cd "$(dirname "$0")/.."
papers=${1:-../shared/docs}
scope=$papers/01-scope.md requests=$papers/02-change-requests.md
[ -f "$scope" ] || scope=''
[ -f "$requests" ] || requests=''
there=$(mktemp) told=$(mktemp)
trap 'rm -f "$there" "$told"' EXIT

status=0
if [ -d bindings/rust/src ]; then
    # the function around each block, and the rows of the table
    find bindings/rust/src -name '*.rs' | sort | while read -r file; do
        awk -v file="$file" '
            match($0, /fn [a-z_0-9]+/) { name = substr($0, RSTART + 3, RLENGTH - 3) }
            /unsafe \{/ && !/^ *\/\// { print file ": " name }' "$file"
    done > "$there"
    sed -n 's/^| `\(bindings\/rust\/[^`]*\)` .*/\1/p' docs/REVIEW.md > "$told"
    sort -o "$there" "$there"
    sort -o "$told" "$told"
    comm -23 "$there" "$told" | sed 's/^/docs\/REVIEW.md: no row for the unsafe block of /'
    comm -13 "$there" "$told" | sed 's/^/docs\/REVIEW.md: there is no unsafe block in /'
    cmp -s "$there" "$told" || status=1
fi

awk -v scope="$scope" -v requests="$requests" -v trace=docs/TRACE.md -v builds=docs/BAD-BUILDS.md '
    # the first word of s, up to a blank or a sign that cannot be in a name
    function word(s) { sub(/[ \t(){}<>,;=:].*/, "", s); return s }

    # what a line declares, by the kind of its file; "" for nothing
    function declared(s, kind) {
        if (kind == "md") { if (s !~ /^#+ /) return ""; sub(/^#+ /, "", s); return s }
        if (kind == "txt") return word(s)
        if (kind == "h") { if (!match(s, /[A-Za-z_0-9]+\(/)) return ""; return substr(s, RSTART, RLENGTH - 1) }
        sub(/^[ \t]+/, "", s)
        if (kind == "py" || kind == "sh") {
            if (s ~ /^def /) { sub(/^def /, "", s); return word(s) }
            if (s ~ /^[a-z_]+\(\)/) return word(s)
            return ""
        }
        if (kind == "antt") {
            while (s ~ /^(unfoldable|abbrev|pub) /) sub(/^[a-z]+ /, "", s)
            if (s ~ /^(record|data) /) { sub(/^[a-z]+ /, "", s); return word(s) }
            if (index(s, " : ") && index(s, " : ") == index(s, " ")) return substr(s, 1, index(s, " ") - 1)
            return ""
        }
        # Rattle and Rust
        sub(/^pub\([a-z]+\) /, "", s)
        while (s ~ /^(pub|unsafe|const|extern "C"|extern) (fn|unsafe|const|extern|struct|enum|trait|type|mod)/) sub(/^(pub|unsafe|const|extern "C"|extern) /, "", s)
        sub(/^pub /, "", s)
        if (s ~ /^(fn|struct|enum|const|trait|type|mod) /) { sub(/^[a-z]+ /, "", s); return word(s) }
        if (s ~ /^[A-Z][A-Za-z0-9]*[,(]/) return word(s)
        return ""
    }

    # reads the names of a file, once; 0 where there is none
    function load(path,    f, line, before, got, n, part, kind, name) {
        if (path in found) return found[path]
        f = "crates/" path
        got = (getline line < f)
        if (got < 0) { f = path; got = (getline line < f) }
        found[path] = (got >= 0)
        n = split(path, part, "."); kind = part[n]
        before = ""
        while (got > 0) {
            name = declared(line, kind)
            # in a file of tests a name is that of a test
            if (name != "" && (path !~ /tests\.rs$/ || before ~ /#\[test\]/)) names[path, name] = 1
            before = line
            got = (getline line < f)
        }
        close(f)
        return found[path]
    }

    # the references of a cell; what is wrong with them is added to `wrong`
    function references(cell,    n, part, i, at, path, m, name, j) {
        n = split(cell, part, "`")
        for (i = 2; i <= n; i += 2) {
            count++; used++
            at = index(part[i], ": ")
            path = at ? substr(part[i], 1, at - 1) : part[i]
            if (!load(path)) { wrong = wrong "; no file " path; continue }
            if (!at) continue
            m = split(substr(part[i], at + 2), name, ", ")
            for (j = 1; j <= m; j++) if (!((path, name[j]) in names)) wrong = wrong "; " path " has no " name[j]
        }
    }

    function trim(s) { sub(/^ +/, "", s); sub(/ +$/, "", s); return s }

    # the sentences of a text, each up to a full stop before a capital, as told[prefix 1], told[prefix 2], ..
    function split_text(s, prefix, from) {
        while (match(s, /\. +[A-Z`"]/)) {
            told[prefix (++from)] = substr(s, 1, RSTART)
            s = substr(s, RSTART + RLENGTH - 1)
        }
        told[prefix (++from)] = s
        return from
    }

    # document 01: items of lists and lines of examples are sentences too
    function read_scope(    s) {
        while ((getline s < scope) > 0) {
            if (s ~ /^#/ || s ~ /^[ \t]*$/) continue
            sub(/^- /, "", s); sub(/^[0-9]+\. /, "", s); sub(/^\\\* /, "", s)
            if (s ~ /^    /) { sub(/^ +/, "", s); told["" (++all)] = s } else all = split_text(s, "", all)
        }
    }

    # document 02: request by request, without their titles
    function read_requests(    s, r) {
        while ((getline s < requests) > 0) {
            if (s !~ /^[0-9]+\. \*\*/) continue
            r = s + 0
            sub(/^[0-9]+\. \*\*[^*]*\*\* /, "", s)
            many[r] = split_text(s, r ".", 0)
        }
    }

    function report(file, row) {
        if (wrong == "") return
        printf "%s:%d: %s: %s\n", file, line, row, substr(wrong, 3)
        bad = 1
    }

    BEGIN {
        if (scope != "") read_scope()
        if (requests != "") read_requests()
        while ((getline row < trace) > 0) {
            line++
            if (row ~ /^[0-9]+ sentences: /) stated = row
            if (row ~ /^#/) { silent = (row ~ /ask for nothing/); second = (row ~ /Document 02/); if (silent || second) last = 0 }
            if (row !~ /^\| *[0-9.]+ *\|/) continue
            wrong = ""; used = 0
            n = split(row, cell, "|")
            number = trim(cell[2])
            place_of = number + 0
            if (second) { split(number, part, "."); place_of = part[1] * 1000 + part[2]; landed[part[1] + 0] = 1 }
            if (n != (silent ? 5 : 6)) wrong = wrong "; not " (silent ? 3 : 4) " cells"
            if (number in seen) wrong = wrong "; it stands there twice"
            if (place_of <= last) wrong = wrong "; not in the order of the paper"
            seen[number] = 1; last = place_of
            if (!second && place_of > highest) highest = place_of
            words = trim(cell[3])
            if ((second ? requests : scope) != "" && (!(number in told) || index(told[number], words) != 1)) wrong = wrong "; the paper has no such words there"
            if (silent) { nothing++; references(cell[4]) }
            else {
                place = trim(cell[4])
                if (second) more++
                else {
                    rows++
                    if (place ~ /^gap/) gaps++
                    if (place ~ /^later/) later++
                }
                references(cell[4])
                if (!used && place !~ /^(gap|later|nothing)/) wrong = wrong "; no place"
                used = 0
                references(cell[5])
                if (!used && place !~ /^(gap|later|nothing)/) wrong = wrong "; nothing catches its loss"
            }
            report(trace, "sentence " number)
        }
        line = 0
        while ((getline row < builds) > 0) {
            line++
            if (row !~ /\.edit`/ || row !~ /^\|/) continue
            wrong = ""
            if (split(row, cell, "|") != 7) wrong = "; not 5 cells"
            references(cell[3]); references(cell[5]); edits++
            report(builds, trim(cell[2]))
        }
        if (scope == "") all = highest
        for (i = 1; i <= all; i++) if (!((i "") in seen)) { printf "%s: sentence %d of document 01 has no row: %s\n", trace, i, told["" i]; bad = 1 }
        for (r in landed) for (i = 1; i <= many[r]; i++) if (!((r "." i) in seen)) { printf "%s: sentence %d of request %d has no row: %s\n", trace, i, r, told[r "." i]; bad = 1 }
        right = all " sentences: " rows " rows, of which " later + 0 " come later and " gaps + 0 " are gaps, and " nothing + 0 " that ask for nothing."
        if (stated != right) { printf "%s: the counts are: %s\n", trace, right; bad = 1 }
        if (!bad) printf "%s: %s Document 02: %d rows. %s: %d edits. %d references, all there%s\n", trace, right, more, builds, edits, count, scope == "" ? "; the papers are not at hand" : ""
        exit bad
    }' < /dev/null || status=1
exit $status
