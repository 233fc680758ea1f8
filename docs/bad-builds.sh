#!/bin/sh
# Fills the last column of docs/BAD-BUILDS.md: docs/bad-builds.sh LOG
# LOG is what the gate printed, ./test.sh 2>&1 | tee LOG, or rt must-fail CRATE: for each edit it has the first error that the check met,
# cut after some 160 characters. A row without an error in it stays as it is.
set -eu
export LC_ALL=C
log=$(cd "$(dirname "${1:?the log of a run of test.sh}")" && pwd)/$(basename "$1")
cd "$(dirname "$0")"
made=$(mktemp)
trap 'rm -f "$made"' EXIT

awk -v log_file="$log" '
    BEGIN {
        says = ": refused, as it must be: "
        while ((getline s < log_file) > 0) {
            at = index(s, says)
            if (s !~ /^rt: must-fail / || !at) continue
            name = substr(s, 15, at - 15); sub(/\.edit$/, "", name)
            s = substr(s, at + length(says))
            sub(/^note: /, "", s); sub(/^\.\//, "", s); sub(/:[0-9]+:[0-9]+: error: /, ": ", s); sub(/:[0-9]+:[0-9]+: /, ": ", s)
            gsub(/`/, "\047", s); gsub(/\|/, "/", s)
            sub(/ +$/, "", s); sub(/[\300-\377][\200-\277]*$/, "", s)
            error[name] = s
        }
    }
    /^\| .*must-fail\/.*\.edit/ {
        n = split($0, cell, "|")
        match($0, /[a-z_0-9]+\/must-fail\/[a-z_0-9]+\.edit/)
        name = substr($0, RSTART, RLENGTH); sub(/\/must-fail/, "", name); sub(/\.edit$/, "", name)
        if (name in error) { filled++; cell[n - 1] = " `" error[name] " ..` "; row = cell[1]; for (i = 2; i <= n; i++) row = row "|" cell[i]; $0 = row }
        else { left++; print "no error of " name > "/dev/stderr" }
    }
    { print }
    END { printf "%d errors filled in, %d rows left as they were\n", filled, left > "/dev/stderr" }' BAD-BUILDS.md > "$made"
cat "$made" > BAD-BUILDS.md
