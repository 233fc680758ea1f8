#!/usr/bin/env bash
# store.sh [FOLDER]: makes the stored lists, that of `replay` from lists.txt and that of `replay_builds` from builds.txt:
# stdin, the program's input, and stdout, its expected output. A list ends in a case that is cut off, which the program
# must report with the place of its first byte. The lists go into the programs' folders below FOLDER, which is that of
# the crates unless another is named.
set -euo pipefail
folder=$(realpath "${1:-$(dirname "$0")/../crates}")
cd "$(dirname "$0")"
cargo build --release --offline --quiet

store() {
    mkdir -p "$folder/$2"
    target/release/oracle list "$1" > "$folder/$2/stdin"
    target/release/oracle answer < "$folder/$2/stdin" > "$folder/$2/stdout"
    echo "damaged at byte $(wc -c < "$folder/$2/stdin")" >> "$folder/$2/stdout"
    printf '\001\001' >> "$folder/$2/stdin"
}

store lists.txt replay
store builds.txt replay_builds
