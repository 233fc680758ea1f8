#!/usr/bin/env bash
# The table of docs/GATE.md from a log of the gate: ./test.sh 2>&1 | tee LOG; ./gate-table.sh LOG
# A crate's seconds, how many must-fail edits it has, and their seconds together; what ran beside it counts too.
set -euo pipefail
awk '
    /^rt: [a-z_]+ proved \([0-9]+ s\)/ {
        if (!($2 in seen)) { seen[$2] = 1; order[++crates] = $2 }
        match($0, /\([0-9]+ s/); proof[$2] = substr($0, RSTART + 1, RLENGTH - 3) + 0; proofs += proof[$2]
    }
    /^rt: must-fail [a-z_]+\/.*: refused/ {
        split($3, part, "/")
        match($0, /[0-9]+ s\)$/); s = substr($0, RSTART, RLENGTH - 3) + 0
        edits[part[1]]++; cost[part[1]] += s; count++; total += s
    }
    /^== seconds:/ { wall = $3 }
    / passed, [0-9]+ failed$/ { verdict = $0 }
    END {
        print "| crate | proved in, s | must-fail edits | their time, s |"
        print "|---|---|---|---|"
        for (i = 1; i <= crates; i++) {
            c = order[i]
            printf "| `%s` | %d | %s | %s |\n", c, proof[c], c in edits ? edits[c] : "", c in cost ? cost[c] : ""
        }
        printf "| all | %d | %d | %d |\n", proofs, count, total
        printf "\nThe whole gate: %s s; its last line: `%s`.\n", wall == "" ? "?" : wall, verdict
    }' "${1:?the log of a run of test.sh}"
