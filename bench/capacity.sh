#!/usr/bin/env bash
# How much a server carries, for docs/OPERATING.md. Clients with two connections each renew a lease each 30 s, and fetch the listing of all each 30 s, as Eureka's do.
# For each number of clients, prints: the part of one processor that the server took, the megabytes a second of the listings, the memory in MiB and the descriptors at the end,
# and what the load saw: heartbeats a second, their percentiles in microseconds, how many requests failed.
#
# bench/capacity.sh [CLIENTS ..]: 100, 500, 1,000, 2,000 and 5,000 where none is named, with two loops each. PROGRAM names the server; SECONDS_EACH (120) is how long. It wants 11,000 descriptors.
set -euo pipefail
top=$(cd "$(dirname "${BASH_SOURCE[0]}")/.." && pwd)
program=${PROGRAM:-$top/crates/eureka/out/eureka}
work=$(mktemp -d)
started=
port=${PORT:-18961}
seconds=${SECONDS_EACH:-120}
stop() { if [ -n "$started" ]; then kill "$started" 2> /dev/null || true; wait "$started" 2> /dev/null || true; fi; started=; }
trap 'stop; rm -rf "$work"' EXIT
rustc --edition 2021 -O -o "$work/load" "$top/bench/fleet_load.rs"
ulimit -n "$(ulimit -Hn)"

# The processor time that the server took so far, in clock ticks of 10 ms.
ticks() { awk '{ print $14 + $15 }' "/proc/$started/stat"; }

[ $# -gt 0 ] || set -- 100 500 1000 2000 5000
for clients in "$@"; do
    port=$((port + 1))
    "$program" serve --port "$port" --sessions 4000000000 --workers 2 --connections 20000 > /dev/null 2> "$work/told" &
    started=$!
    for _ in $(seq 100); do
        if (exec 3<> "/dev/tcp/127.0.0.1/$port") 2> /dev/null; then break; fi
        sleep 0.05
    done
    "$work/load" register "$port" "$clients"
    before=$(ticks)
    "$work/load" fleet "$port" "$clients" "$seconds" 30 1 > "$work/said" &
    load=$!
    sleep $((seconds - 5))
    memory=$(awk '/^VmRSS/ { printf "%.0f", $2 / 1024 }' "/proc/$started/status")
    descriptors=$(find "/proc/$started/fd" -mindepth 1 | wc -l)
    wait "$load"
    awk -v clients="$clients" -v ticks=$(($(ticks) - before)) -v seconds="$seconds" -v memory="$memory" -v descriptors="$descriptors" '
        /^rate/ { beats = $0 }
        /^listings/ { bytes = $4 }
        END { printf "%d clients: %.2f%% of a processor, %.1f MB a second, %d MiB, %d descriptors; %s\n", clients, ticks / seconds, bytes / seconds / 1e6, memory, descriptors, beats }' "$work/said"
    stop
done
