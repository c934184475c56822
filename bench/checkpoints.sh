#!/usr/bin/env bash
# Times a checkpoint of a book: its journal begins anew, and what it was is let go. Prints milliseconds of
# processor time for each, five times, less the time in which the leases are registered.
set -euo pipefail
top=$(cd "$(dirname "${BASH_SOURCE[0]}")/.." && pwd)
bench="$top/crates/eu_bench/out/eu_bench"
(cd "$top/crates/eu_bench" && rt run -- listing 0) < /dev/null > /dev/null

# processor time of a run, in seconds
timed() {
    local TIMEFORMAT='%U %S'
    { time "$@" > /dev/null; } 2>&1 | awk '{ print $1 + $2 }'
}

for leases in 0 1000 10000 60000; do
    for _ in 1 2 3 4 5; do
        echo "$(timed "$bench" checkpoints "$leases") $(timed "$bench" leases "$leases")"
    done | awk -v leases="$leases" '{ printf " %.1f", ($1 - $2) / 20 * 1e3 } BEGIN { printf "a checkpoint of %d leases:", leases } END { print " ms" }'
done
