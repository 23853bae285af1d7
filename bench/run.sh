#!/usr/bin/env bash
# Compares the proved cover with the plain bitset program on the same networks: seconds of each, and their ratio.
# Both must print the same counts. Run it on a quiet machine: bench/run.sh [SEED]
set -eu
cd "$(dirname "$0")/.."
seed=${1:-1}
work=$(mktemp -d)
trap 'rm -rf "$work"' EXIT
(cd crates/cover_bench && rt run -- sparse 512 1) > "$work/check.log" 2>&1 || { tail -n 3 "$work/check.log"; exit 1; }
g++ -O3 -o "$work/plain" bench/cover.cpp

# the least of three runs; counts to the file that is named
seconds() {
    out=$1
    shift
    for _ in 1 2 3; do "$@" 2>&1 > "$out"; done | sort -n | head -n 1
}

printf '%-10s %6s %10s %10s %6s\n' network n proved plain ratio
for kind in sparse timetable dense; do
    for n in 512 1024 4096; do
        proved=$(seconds "$work/a" crates/cover_bench/out/cover_bench "$kind" "$n" "$seed")
        plain=$(seconds "$work/b" "$work/plain" "$kind" "$n" "$seed")
        cmp -s "$work/a" "$work/b" || { echo "$kind $n: the counts differ"; diff "$work/a" "$work/b"; exit 1; }
        printf '%-10s %6s %10s %10s %6s\n' "$kind" "$n" "$proved" "$plain" "$(awk "BEGIN { printf \"%.2f\", $proved / ($plain > 0 ? $plain : 0.001) }")"
    done
done
