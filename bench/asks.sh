#!/usr/bin/env bash
# Times the asks of 1, 2 and 4 threads over a shared book, beside a plain Rust program of the same steps over std's Mutex.
set -euo pipefail
top=$(cd "$(dirname "${BASH_SOURCE[0]}")/.." && pwd)
work=$(mktemp -d)
trap 'rm -rf "$work"' EXIT
rustc --edition 2021 -O -o "$work/plain" "$top/bench/asks_plain.rs"
bench="$top/crates/eu_bench/out/eu_bench"
(cd "$top/crates/eu_bench" && rt run -- listing 0) < /dev/null > "$work/build" 2>&1 || { cat "$work/build"; exit 1; }

# wall time and processor time of a run, in seconds
timed() {
    local TIMEFORMAT='%R %U %S'
    { time "$@" > "$work/out"; } 2>&1 | awk '{ print $1, $2 + $3 }'
}

# each run takes 20 books of 65,536 steps
for threads in 1 2 4; do
    for run in 1 2 3; do
        proved=$(timed "$bench" asks "$threads")
        cp "$work/out" "$work/proved"
        plain=$(timed "$work/plain" "$threads" 20)
        echo "$threads threads, $(cat "$work/proved"): $proved s, plain $plain s (wall, processor)"
    done
done
