#!/usr/bin/env bash
# Counts, by callgrind, how often a command looks a key up in the table of leases: renewals, registrations of new keys and of held ones, cancels, and statuses that are set.
# No override row is held but for the last kind, so each look-up is one of a lease; a status that is set also looks its row up. Wants valgrind. The program is built
# before its proof (tools/build_unproved.sh, some minutes), since in the proved one a look-up is no function of its own; PROGRAM may name one that was built so.
set -euo pipefail
top=$(cd "$(dirname "${BASH_SOURCE[0]}")/.." && pwd)
work=$(mktemp -d)
trap 'rm -rf "$work"' EXIT
program=${PROGRAM:-$work/eureka}
[ -x "$program" ] || "$top/tools/build_unproved.sh" eureka "$program"

# 500 leases, and then so many lines of that kind
script() {
    awk -v lines="$1" -v kind="$2" 'BEGIN {
        print "open 1"
        for (i = 0; i < 500; i++) printf "register 0 A host-%d 90 UP UNKNOWN 0 c\n", i
        for (n = 0; n < lines; n++) {
            if (kind == "renew") printf "renew 1 A host-%d - - c\n", n
            if (kind == "register anew") printf "register 1 B host-%d 90 UP UNKNOWN 0 c\n", n
            if (kind == "register again") printf "register 1 A host-%d 90 UP UNKNOWN 0 c\n", n
            if (kind == "cancel") printf "cancel 1 A host-%d c\n", n
            if (kind == "set") printf "set 1 A host-%d DOWN - c\n", n
        }
    }'
}

# how often a hash table is looked through for a key
lookups() {
    valgrind --tool=callgrind --callgrind-out-file="$work/profile" "$program" script > /dev/null 2> "$work/said"
    awk '
        /^c?fn=/ {
            called = /^cfn=/
            id = $0; sub(/^c?fn=/, "", id); name = id; sub(/\).*/, ")", id); sub(/^\([0-9]*\) ?/, "", name)
            if (name != "") names[id] = name
            if (called) callee = names[id]
        }
        /^calls=/ && callee ~ /IndexMap::find/ { split($1, parts, "="); all += parts[2] }
        END { print all + 0 }' "$work/profile"
}

for kind in renew "register anew" "register again" cancel set; do
    none=$(script 0 "$kind" | lookups)
    some=$(script 400 "$kind" | lookups)
    awk -v kind="$kind" -v n="$((some - none))" 'BEGIN { printf "%s: %.2f look-ups a command\n", kind, n / 400 }'
done
