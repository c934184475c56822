#!/usr/bin/env bash
# Times scripts over 50 and over 50,000 leases, beside a plain Rust program of the same lines.
set -euo pipefail
top=$(cd "$(dirname "${BASH_SOURCE[0]}")/.." && pwd)
work=$(mktemp -d)
trap 'rm -rf "$work"' EXIT
rustc --edition 2021 -O -o "$work/plain" "$top/bench/plain.rs"
"$top/eureka" script < /dev/null

# so many leases, and then so many lines of that kind over them
script() {
    awk -v leases="$1" -v lines="$2" -v kind="$3" 'BEGIN {
        print "open 1"
        for (i = 0; i < leases; i++) printf "register 0 A%d host-%d 90 UP UNKNOWN 0 c\n", i % 100, i
        for (n = 0; n < lines; n++) {
            i = (n * 7919) % leases
            if (kind == "renew") printf "renew %d A%d host-%d - - c\n", n, i % 100, i
            if (kind == "register") printf "register %d A%d host-%d 90 UP UNKNOWN - c\n", n, i % 100, i
            if (kind == "cancel") {
                printf "cancel %d A%d host-%d c\n", n, i % 100, i
                printf "register %d A%d host-%d 90 UP UNKNOWN - c\n", n, i % 100, i
            }
        }
    }'
}

# processor time of five runs, in seconds
timed() {
    local TIMEFORMAT='%U %S'
    { time for _ in {1..5}; do "$@" < "$work/script" > "$work/out"; done 2> /dev/null; } 2>&1 | awk '{ print $1 + $2 }'
}

for kind in renew register cancel; do
    for leases in 50 50000; do
        lines=200000
        if [ "$kind" = cancel ]; then lines=$((lines / 2)); fi
        script "$leases" "$lines" "$kind" > "$work/script"
        for run in 1 2 3; do
            proved=$(timed "$top/crates/eureka/out/eureka" script)
            cp "$work/out" "$work/proved"
            plain=$(timed "$work/plain")
            cmp "$work/out" "$work/proved"
            echo "$kind over $leases leases, $lines lines, 5 runs: $proved s, plain $plain s"
        done
    done
done
