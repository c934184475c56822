#!/usr/bin/env bash
# Entries a second of the auditor: 65,536 by the processor time of `eureka audit` less that of `eureka script` over the same lines, for journals
# that have 65,536 entries of one kind over so many leases, and for turns of a peer's queue. The first word may name the program; else it is
# this repository's.
set -euo pipefail
top=$(cd "$(dirname "${BASH_SOURCE[0]}")/.." && pwd)
if [ $# -eq 0 ]; then
    "$top/eureka" script < /dev/null
fi
program=${1:-$top/crates/eureka/out/eureka}
work=$(mktemp -d)
trap 'rm -rf "$work"' EXIT

# So many leases, and lines of that kind up to 131,072 commands: where the journal is full, the next command begins it anew, so that it has
# the last 65,536 of them. The leases last for 24 days, but where evictions are forbidden: then for a second each, and end one after the other.
script() {
    awk -v leases="$1" -v kind="$2" 'BEGIN {
        print "open 1"
        secs = kind == "forbidden" ? 1 : 2147483
        for (i = 0; i < leases; i++) printf "register %d A%d host-%d %d UP UNKNOWN 0 c\n", i, i % 100, i, secs
        for (n = leases; n < 131072; n++) {
            i = (n * 7919) % leases
            if (kind == "renewals") printf "renew %d A%d host-%d - - c\n", n, i % 100, i
            if (kind == "registrations") printf "register %d A%d host-%d 2147483 UP UNKNOWN - c\n", n, i % 100, i
            if (kind == "idle" || kind == "forbidden") printf "evict %d\n", 200000 + n
            if (kind == "taking" && n % 2 == 0) printf "register %d B short-%d 1 UP UNKNOWN - c\n", n * 1000, n
            if (kind == "taking" && n % 2 == 1) printf "evict %d\n", n * 1000 + 1
        }
    }'
}

# processor time of three runs, in seconds
timed() {
    local TIMEFORMAT='%U %S'
    { time for _ in {1..3}; do "$program" "$@" < "$work/script" > "$work/out"; done 2> /dev/null; } 2>&1 | awk '{ print $1 + $2 }'
}

# entries a second: the median of five turns, the least and the most
rate() {
    for _ in {1..5}; do
        echo "$(timed script "$@") $(timed audit "$@")"
        [ "$(cat "$work/out")" = "audit yes 65536" ]
    done | awk '{ print 3 * 65536 / ($2 - $1) / 1000 }' | sort -n |
        awk '{ all[NR] = $1 } END { printf "%.0f thousand entries a second (%.0f to %.0f)\n", all[3], all[1], all[5] }'
}

for leases in 1000 65000; do
    for kind in renewals registrations forbidden; do
        script "$leases" "$kind" > "$work/script"
        found=$(rate)
        echo "$kind over $leases leases: $found"
    done
    # evictions that find nobody, and those of which each takes the lease that came before it
    for kind in idle taking; do
        script "$leases" "$kind" > "$work/script"
        found=$(rate --preservation off --percent 0)
        echo "$kind evictions over $leases leases: $found"
    done
done

# Turns of a peer's queue: 10,000 tasks wait, or 1,000, and a batch of 250 goes in flight and is lost, until the journal has 65,536 entries.
for tasks in 1000 10000; do
    awk -v tasks="$tasks" 'BEGIN {
        print "open 1 1"
        for (i = 0; i < tasks; i++) printf "register 0 A%d host-%d 2147483 UP UNKNOWN 0 c\n", i % 100, i
        for (n = tasks; n < 131072; n += 2) print "drain 1 0\nlost 1 0"
    }' > "$work/script"
    found=$(rate)
    echo "turns of a queue of $tasks tasks: $found"
done

# The same where at each turn one task has grown too old: 10,000 wait that were queued later, and each third command puts one that the next drain
# drops. So many registrations leave a multiple of three for the turns.
awk 'BEGIN {
    print "open 1 1"
    for (i = 0; i < 10001; i++) printf "register 100000 A%d host-%d 2147483 UP UNKNOWN 0 c\n", i % 100, i
    for (n = 10001; n < 131072; n += 3) print "register 0 B late 2147483 UP UNKNOWN - c\ndrain 30001 0\nlost 30001 0"
}' > "$work/script"
found=$(rate)
echo "turns of a queue of 10000 tasks, of which one is too old at each turn: $found"
