#!/usr/bin/env bash
# Times the leases by themselves: renewals of drawn leases, snapshots, and looks for the expired ones, each less the time in which the leases
# are put. Prints nanoseconds of processor time for each. BEFORE may name another build of the program, which is timed in turn with it.
set -euo pipefail
top=$(cd "$(dirname "${BASH_SOURCE[0]}")/.." && pwd)
cd "$top/crates/eu_store_bench"
rt run -- expired 1 0 1 > /dev/null

# processor time of a run, in seconds
timed() {
    local TIMEFORMAT='%U %S'
    { time "$@" > /dev/null; } 2>&1 | awk '{ print $1 + $2 }'
}

programs=("$PWD/out/eu_store_bench" ${BEFORE:+"$BEFORE"})

# one turn of a task, by each program in turn, eleven times: so many turns that they take half a second, since times come in milliseconds.
# Prints of each program the median, the least and the most
each() {
    local turns=1
    while awk -v all="$(timed "${programs[0]}" "$@" "$turns")" -v none="$(timed "${programs[0]}" "$@" 0)" 'BEGIN { exit all - none > 0.5 }'; do
        turns=$((turns * 8))
    done
    for _ in {1..11}; do
        for place in "${!programs[@]}"; do
            echo "$place $(timed "${programs[place]}" "$@" "$turns") $(timed "${programs[place]}" "$@" 0)"
        done
    done | awk -v turns="$turns" '{ print $1, ($2 - $3) / turns * 1e9 }' | sort -k1,1n -k2,2n |
        awk '{ all[$1, ++count[$1]] = $2 }
            END { for (place = 0; place in count; place++) printf "%s %.1f ns (%.1f to %.1f)", place ? ", before" : "", all[place, 6], all[place, 1], all[place, 11]; print "" }'
}

for count in 50 1000 10000 60000; do
    echo "renewal of one of $count:$(each renew "$count")"
done
for count in 1000 20000 60000; do
    echo "snapshot of $count:$(each snapshot "$count")"
done
for task in "1000 0" "60000 0" "60000 10" "60000 100" "60000 1000" "60000 10000" "60000 60000"; do
    read -r count expired <<< "$task"
    echo "look over $count, of which $expired have expired:$(each expired "$count" "$expired")"
done
