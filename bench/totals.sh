#!/usr/bin/env bash
# The speed of the program `totals` beside plain C (totals.c) and beside reading alone (cat), on seasons that seasons.py makes in a
# temporary folder; and whether all print the same six lines.
#     totals.sh PROGRAM [MEGABYTES [REPEATS]]
# Each reads so many megabytes (300) from a file, in turn, REPEATS (5) times. Printed are megabytes a second, the best and the
# median, and the time that PROGRAM takes over that of C, of the best and of the median: once by the time that went by, and once
# by processor time, for which other work on the machine matters less.
set -euo pipefail
export LC_ALL=C TIMEFORMAT='%R %U %S'

program=$(realpath "${1:?usage: totals.sh PROGRAM [MEGABYTES [REPEATS]]}")
megabytes=${2:-300}
repeats=${3:-5}
cd "$(dirname "$0")"
scratch=$(mktemp -d)
trap 'rm -rf "$scratch"' EXIT

names=()
for compiler in "gcc -O2" "gcc -O3" "clang -O3"; do
    command -v "${compiler% *}" > /dev/null || continue
    $compiler -Wall -Wextra -Werror -ffp-contract=off totals.c -o "$scratch/$compiler" -lm
    names+=("$compiler")
done
ln -s "$program" "$scratch/totals"
ln -s "$(command -v cat)" "$scratch/cat"

# run NAME OUTPUT: the season through this program, again and again until the megabytes are read; the milliseconds that went by
# and those of the processor are added to its lists.
run() {
    { time for ((j = 0; j < turns; j++)); do "$scratch/$1" < "$scratch/season" > "$2"; done; } 2> "$scratch/seconds"
    awk '{ print 1000 * $1 }' "$scratch/seconds" >> "$scratch/$1.elapsed"
    awk '{ print 1000 * ($2 + $3) }' "$scratch/seconds" >> "$scratch/$1.processor"
}

# times NAME KIND: the best and the median of a list.
times() {
    sort -n "$scratch/$1.$2" | awk '{ all[NR] = $1 } END { print all[1], all[int((NR + 1) / 2)] }'
}

# speed NAME KIND: megabytes a second.
speed() {
    times "$1" "$2" | awk -v bytes=$((bytes * turns)) '{ printf "%.1f, %.1f", bytes / 1000 / $1, bytes / 1000 / $2 }'
}

# ratio NAME KIND: what `totals` takes of its time.
ratio() {
    echo "$(times totals "$2") $(times "$1" "$2")" | awk '{ printf "%.2f, %.2f", $1 / $3, $2 / $4 }'
}

head="| season, time | cat | totals |" line="|---|---|---|"
for name in "${names[@]}"; do
    head+=" $name | ratio |" line+="---|---|"
done
echo "$head"
echo "$line"
for season in one_axis three_axes other_axes one_segment; do
    python3 seasons.py "$season" "$megabytes" > "$scratch/season"
    bytes=$(wc -c < "$scratch/season")
    turns=$((megabytes * 1000000 / bytes))
    rm -f "$scratch"/*.elapsed "$scratch"/*.processor
    for ((i = 0; i < repeats; i++)); do
        run cat /dev/null
        run totals "$scratch/printed"
        for name in "${names[@]}"; do
            run "$name" "$scratch/lines"
            cmp "$scratch/printed" "$scratch/lines" || {
                echo "totals.sh: $name prints other lines of $season" >&2
                exit 1
            }
        done
    done
    for kind in elapsed processor; do
        row="| $season, $kind | $(speed cat $kind) | $(speed totals $kind) |"
        for name in "${names[@]}"; do
            row+=" $(speed "$name" $kind) | $(ratio "$name" $kind) |"
        done
        echo "$row"
    done
done
