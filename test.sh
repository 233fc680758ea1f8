#!/usr/bin/env bash
# All tests: the documents, the unchanged Rust with the stored lists of its answers, the toolchain's
# gate, the examples through the programs `lane` and `totals` that the gate built, season totals by a second
# computation, and the library through programs in C, a second writer and reader of lane files, a second computation
# of heights, and the crate for Rust. The gate's last line, `N passed, 0 failed`, is the last line here too.
set -euo pipefail
cd "$(dirname "$0")"

fail() {
    echo "test.sh: $1" >&2
    exit 1
}

# A program, or the library as a shared object, against a second computation, oracle/NAME.py: its stored list, and so
# many turns of drawn cases.
compare_second() { # NAME FILE TURNS
    python3 "oracle/$1.py" store | cmp - "oracle/$1.txt" || fail "oracle/$1.txt is not what 'oracle/$1.py store' prints"
    python3 "oracle/$1.py" replay "$2" "oracle/$1.txt" || fail "${2##*/} differs from oracle/$1.txt"
    python3 "oracle/$1.py" compare "$2" "$3" > "$scratch/log" || {
        cat "$scratch/log" >&2
        fail "${2##*/} differs from oracle/$1.py"
    }
    tail -n 1 "$scratch/log"
}

SECONDS=0
scratch=$(mktemp -d)
trap 'rm -rf "$scratch"' EXIT

command -v rt > /dev/null || fail "rt, the command of the Rattle toolchain, is not on the path"

echo "== documents: every name that they cite, the layers, the counts"
docs/check-trace.sh || fail "a document cites what is not there"
docs/generate.sh --check || fail "a document is not up to date: run docs/generate.sh"
if command -v python3 > /dev/null; then
    docs/reached.py --check || fail "the reading order of docs/REVIEW.md is not what the contracts reach"
fi

echo "== the unchanged Rust, and the stored lists of its answers"
source=${SMOOTHING_RS:-../shared/docs/src/path/smoothing.rs}
if command -v cargo > /dev/null && [ -f "$source" ]; then
    SMOOTHING_RS=$(realpath "$source")
    export SMOOTHING_RS
    (cd oracle && cargo test --release --offline --quiet > "$scratch/log" 2>&1) || {
        cat "$scratch/log" >&2
        fail "the oracle's own tests fail"
    }
    oracle/store.sh "$scratch" || fail "the oracle does not make the lists of oracle/lists.txt and oracle/builds.txt"
    for name in replay/stdin replay/stdout replay_builds/stdin replay_builds/stdout; do
        cmp "$scratch/$name" "crates/$name" ||
            fail "crates/$name is not what the oracle makes of its recipe: run oracle/store.sh"
    done
    lines=$(cat crates/replay/stdout crates/replay_builds/stdout | wc -l)
    echo "the oracle's tests pass, and the stored lists are the oracle's: $lines lines"
    for job in examples/*.job; do
        oracle/target/release/oracle job < "$job" | cmp - "${job%.job}.txt" ||
            fail "${job%.job}.txt is not what the oracle prints for its job"
    done
    echo "the texts of the examples are the oracle's"
    if command -v python3 > /dev/null; then
        grep '^certify' oracle/lists.txt > "$scratch/recipe"
        oracle/target/release/oracle list "$scratch/recipe" > "$scratch/list"
        oracle/target/release/oracle answer < "$scratch/list" > "$scratch/answers"
        python3 oracle/distance.py "$scratch/list" "$scratch/answers" > "$scratch/log" || {
            cat "$scratch/log" >&2
            fail "a certified figure differs from its second computation, or a distance lies above it"
        }
        echo "the certified figures are those of the second computation, and no exact distance lies above them"
    else
        echo "skipped: python3 is not at hand; the certified figures are not computed a second time"
    fi
else
    echo "skipped: cargo or $source is not at hand; the stored lists are replayed as they are"
fi

echo "== proofs, must-fail edits and programs"
rt ci | tee "$scratch/gate" || fail "the gate fails"
if grep -q '^rt: ok.*, [0-9][0-9]* bad' "$scratch/gate"; then
    fail "a must-fail edit cannot be read or applied: see the lines BAD EDIT above"
fi

echo "== the programs and the archive of the library"
# Every crate is taken as it was proved.
./build.sh

echo "== the examples, through the programs that were built, and season totals by a second computation"
for job in examples/*.job; do
    target/bin/lane < "$job" > "$scratch/printed" || fail "lane does not end well on $job"
    cmp "$scratch/printed" "${job%.job}.txt" || fail "lane does not print ${job%.job}.txt"
done
echo "$(ls examples/*.job | wc -l) examples print what they must"
if [ -n "${SMOOTHING_RS:-}" ] && [ -x oracle/target/release/oracle ]; then
    oracle/target/release/oracle lane target/bin/lane 3 2000 || fail "lane differs from the Rust"
fi
for season in examples/seasons/*.season; do
    target/bin/totals < "$season" > "$scratch/printed" || fail "totals does not end well on $season"
    cmp "$scratch/printed" "${season%.season}.txt" || fail "totals does not print ${season%.season}.txt"
done
echo "$(ls examples/seasons/*.season | wc -l) seasons print what they must"
if command -v python3 > /dev/null; then
    compare_second totals target/bin/totals 1500
else
    echo "skipped: python3 is not at hand; season totals are not computed a second time"
fi
echo "== the library: its archive, the examples in C, lane files and heights by a second computation"
if command -v nm > /dev/null; then
    # docs/DECISIONS.md, "The library for C": these two and nothing else.
    needed=$(nm -u target/staticlib/libpamitoye.a | awk '$1 == "U" { print $2 }' | sort -u | tr '\n' ' ')
    [ "$needed" = "memcpy memset " ] || fail "the archive is to need memcpy and memset alone, and needs: $needed"
else
    echo "skipped: nm is not at hand; what the archive needs from outside is not looked at"
fi
if command -v cc > /dev/null && [ "$(uname -m)" = x86_64 ]; then
    for program in examples/c/*.c; do
        cc -std=c11 -Wall -Wextra -Werror -Iinclude "$program" target/staticlib/libpamitoye.a -o "$scratch/program" ||
            fail "$program does not compile and link"
        "$scratch/program" > "$scratch/printed" || fail "$program does not end well"
        cmp "$scratch/printed" "${program%.c}.txt" || fail "$program does not print ${program%.c}.txt"
    done
    echo "$(ls examples/c/*.c | wc -l) examples in C print what they must"
else
    echo "skipped: cc for x86-64 is not at hand; the examples in C are not compiled"
fi
if command -v cc > /dev/null && command -v python3 > /dev/null && [ "$(uname -m)" = x86_64 ]; then
    cc -shared -o "$scratch/pamitoye.so" -Wl,--whole-archive target/staticlib/libpamitoye.a -Wl,--no-whole-archive ||
        fail "the archive does not become a shared object"
    compare_second lane_files "$scratch/pamitoye.so" 1500
    compare_second heights "$scratch/pamitoye.so" 400
else
    echo "skipped: cc for x86-64 or python3 is not at hand; lane files and heights are not computed a second time"
fi

echo "== the crate for Rust, and the program smooth"
if command -v cargo > /dev/null; then
    (cd bindings/rust && cargo test --release --offline && cargo build --release --offline) > "$scratch/log" 2>&1 || {
        cat "$scratch/log" >&2
        fail "the tests of bindings/rust fail"
    }
    grep -m 1 -o 'skipped: .*' "$scratch/log" || true
    echo "$(grep -c '^test .* ok$' "$scratch/log") tests of bindings/rust pass"
    examples/csv/run.sh bindings/rust/target/release/smooth ||
        fail "smooth does not print or write what is stored in examples/csv, examples/lane_files and docs/lane.svg"
else
    echo "skipped: cargo is not at hand; bindings/rust is not tested"
fi
echo "== seconds: $SECONDS in all"
tail -n 1 "$scratch/gate"
