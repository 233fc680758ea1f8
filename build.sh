#!/usr/bin/env bash
# Proves and builds what is used outside the gate: the programs `lane` and `totals` into target/bin, and the archive of the library into
# target/staticlib. What was proved before is taken over. ./build.sh [CRATE ..]; with no name: lane, totals and pamitoye.
set -euo pipefail
cd "$(dirname "$0")"
mkdir -p target/bin target/staticlib
said=$(mktemp)
trap 'rm -f "$said"' EXIT
[ $# -gt 0 ] || set -- lane totals pamitoye
for name in "$@"; do
    if grep -q "^$name staticlib:" crates.txt; then
        (cd "crates/$name" && rt lib) > "$said" 2>&1 || { cat "$said" >&2; exit 1; }
        cp "crates/$name/out/lib$name.a" target/staticlib/
    else
        # the program runs once, on its own input
        (cd "crates/$name" && rt run < stdin) > "$said" 2>&1 || { cat "$said" >&2; exit 1; }
        cp "crates/$name/out/$name" target/bin/
    fi
    echo "built $name"
done
