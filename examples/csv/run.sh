#!/usr/bin/env bash
# Runs `smooth` on the examples of the file `cases`, here and in ../lane_files, and compares what it prints, its status and the
# files it writes with those stored beside.
#     run.sh BIN           status 1 if anything differs
#     run.sh BIN --store   stores them anew
set -euo pipefail

smooth=$(realpath "${1:?usage: run.sh BIN [--store]}")
store=${2:-}
cd "$(dirname "$0")"
scratch=$(mktemp -d)
trap 'rm -rf "$scratch"' EXIT
mkdir "$scratch/out"

# Where a written file is stored: the pictures of the CSV files are in the documents.
stored() {
    case $folder/$1 in
        csv/*.svg) echo "../../docs/$1" ;;
        *) echo "$1" ;;
    esac
}

count=0
failed=0
# compare MADE STORED
compare() {
    count=$((count + 1))
    if [ "$store" = --store ]; then
        cp "$1" "$2"
    elif ! diff -u "$2" "$1"; then
        failed=$((failed + 1))
    fi
}

for folder in csv lane_files; do
    cd "../$folder"
    while IFS='|' read -r name arguments; do
        case $name in '#'* | '') continue ;; esac
        name=${name// /}
        status=0
        eval "\"\$smooth\" ${arguments//@/\$scratch/out}" > "$scratch/printed" 2>&1 < /dev/null || status=$?
        sed "s|$scratch/out|@|" "$scratch/printed" > "$scratch/text"
        echo "status $status" >> "$scratch/text"
        compare "$scratch/text" "$name.txt"
        for file in "$scratch"/out/*; do
            [ -e "$file" ] || continue
            compare "$file" "$(stored "$(basename "$file")")"
            rm "$file"
        done
    done < cases
done

if [ "$failed" -gt 0 ]; then
    echo "run.sh: $failed of $count texts and files differ" >&2
    exit 1
fi
echo "$count texts and files of the examples for smooth are as stored"
