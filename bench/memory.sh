#!/usr/bin/env bash
# A server under a limit of its memory that is too small for its clients: `eureka serve` (or the program that PROGRAM names) under `ulimit -v`, which is
# ROOM MiB (16 if it isn't set) more than the server takes while nobody is registered. Clients register until they are refused by 503 and {"fault":3},
# then go on renewing and registering for HOLD seconds (30), and cancel all; then one registers again. Shows what was answered in each part, that each lease was
# renewed, that the server didn't end before its last connection, and that it tells their exact number.
set -euo pipefail
top=$(cd "$(dirname "${BASH_SOURCE[0]}")/.." && pwd)
program=${PROGRAM:-$top/crates/eureka/out/eureka}
work=$(mktemp -d)
started=
stop() { if [ -n "$started" ]; then kill "$started" 2> /dev/null || true; wait "$started" 2> /dev/null || true; fi; started=; }
trap 'stop; rm -rf "$work"' EXIT
if [ -z "${PROGRAM:-}" ]; then "$top/eureka" --help > "$work/help"; fi
room=${ROOM:-16}
seconds=${HOLD:-30}
sessions=${SESSIONS:-150000}
port=${PORT:-18861}

# Waits until the server has told that it listens.
await() {
    for _ in $(seq 100); do
        if grep -q "^listening on" "$work/told"; then return; fi
        sleep 0.05
    done
    echo "nobody listens on $port" >&2
    exit 1
}

# A server with so many sessions, under a limit of so many KiB.
serve() {
    (ulimit -v "$2"; exec "$program" serve --port "$port" --sessions "$1" --workers 4 > "$work/served" 2> "$work/told") &
    started=$!
    await
}

size() { sed -n "s/^$1:[[:space:]]*\([0-9]*\) kB/\1/p" "/proc/$started/status"; }

serve 1 unlimited
sleep 0.5
idle=$(size VmSize)
stop
limit=$((idle + room * 1024))
echo "idle: $((idle / 1024)) MiB of address space; limit: $((limit / 1024)) MiB"
port=$((port + 1))
serve "$sessions" "$limit"
timeout 300 python3 "$top/bench/memory_load.py" "$port" "$sessions" "$seconds"
timeout 60 tail --pid="$started" -f /dev/null || { echo "the server doesn't end after its last connection" >&2; exit 1; }
status=0
wait "$started" || status=$?
started=
cat "$work/told" "$work/served"
echo "status $status"
[ "$status" -eq 0 ]
grep -qx "served $sessions" "$work/served"
