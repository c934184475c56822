#!/usr/bin/env bash
# Lines a second of a script of 16 MB of `counts` lines, and of a quarter of it, to see that time is linear.
set -euo pipefail
top=$(cd "$(dirname "${BASH_SOURCE[0]}")/.." && pwd)
program=$top/crates/eureka/out/eureka
"$top/eureka" script < /dev/null
text=$(mktemp)
trap 'rm -f "$text"' EXIT
for lines in 466033 1864134; do
    awk -v n="$lines" 'BEGIN { print "open 1"; for (i = 0; i < n; i++) print "counts 0" }' > "$text"
    for _ in 1 2 3; do
        TIMEFORMAT="$lines lines: %R s, %U s of processor time"
        time "$program" script < "$text" > /dev/null
    done
done
