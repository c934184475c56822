#!/usr/bin/env bash
# What a server carries that a fleet uses, with 4 workers: heartbeats of a few clients that keep their connections, alone, beside idle connections, and
# beside slow ones; many clients at once; heartbeats beside clients that fetch listings without pause; a fleet whose clients renew each 2 s and
# fetch each 10 s; and a body in chunks of one byte. PROGRAM and BASELINE name the server and the one to compare it with (each is called as `serve --port N
# --sessions N --workers 4`; OPTIONS are further words for PROGRAM, such as `--connections 20000`). Prints heartbeats a second, percentiles in microseconds,
# and the server's processor time a heartbeat.
#
# bench/fleet.sh [WORD ..]: `few`, `idle`, `slow`, `many`, `lists`, `fleet`, `chunks`, `rest`; all where none is named. It wants 25,000 descriptors for all of it;
# IDLE (10,000), CLIENTS (2,000) and SECONDS_EACH (10) make it smaller or longer.
set -euo pipefail
top=$(cd "$(dirname "${BASH_SOURCE[0]}")/.." && pwd)
program=${PROGRAM:-$top/crates/eureka/out/eureka}
work=$(mktemp -d)
started=
port=${PORT:-18861}
seconds=${SECONDS_EACH:-10}
idle=${IDLE:-10000}
clients=${CLIENTS:-2000}
stop() { if [ -n "$started" ]; then kill "$started" 2> /dev/null || true; wait "$started" 2> /dev/null || true; fi; started=; }
trap 'stop; rm -rf "$work"' EXIT
rustc --edition 2021 -O -o "$work/load" "$top/bench/fleet_load.rs"
ulimit -n "$(ulimit -Hn)"

# Starts a server, and waits until it listens.
serve() {
    port=$((port + 1))
    local words=()
    if [ "$1" = "$program" ]; then read -ra words <<< "${OPTIONS:-}"; fi
    "$1" serve --port "$port" --sessions 4000000000 --workers 4 "${words[@]}" > /dev/null 2> "$work/told" &
    started=$!
    for _ in $(seq 100); do
        if (exec 3<> "/dev/tcp/127.0.0.1/$port") 2> /dev/null; then return; fi
        sleep 0.05
    done
    echo "nobody listens on $port" >&2
    exit 1
}

# The processor time that the server took so far, in clock ticks of 10 ms.
ticks() { awk '{ print $14 + $15 }' "/proc/$started/stat"; }

# Runs a load, and tells what processor time the server took for a heartbeat of it.
measured() {
    local before after line
    before=$(ticks)
    line=$("$work/load" "$@")
    after=$(ticks)
    echo "$line"
    echo "$line" | awk -v ticks=$((after - before)) -v seconds="$seconds" '$1 == "rate" && $2 > 0 { printf "processor time %.1f us a heartbeat\n", ticks * 10000 / ($2 * seconds) }'
}

wanted() { [ "$#" -eq 1 ] || case " ${*:2} " in *" $1 "*) ;; *) return 1 ;; esac }

for server in "$program" ${BASELINE:+"$BASELINE"}; do
    echo "== $server"
    serve "$server"
    "$work/load" register "$port" 256
    if wanted few "$@"; then echo "-- 4 clients"; measured beats "$port" 4 "$seconds" 0; fi
    if wanted many "$@"; then echo "-- 256 clients"; measured beats "$port" 256 "$seconds" 0; fi
    if wanted idle "$@"; then
        echo "-- 4 clients beside $idle idle connections"
        "$work/load" idle "$port" "$idle" $((seconds * 2 + 5)) > "$work/idle" &
        while ! grep -q ready "$work/idle"; do sleep 0.2; done
        measured beats "$port" 4 "$seconds" 0
        before=$(ticks)
        sleep "$seconds"
        echo "while all are idle: $(awk -v ticks=$(($(ticks) - before)) -v seconds="$seconds" 'BEGIN { printf "%.2f%% of a processor", ticks / seconds }')"
        wait %% 2> /dev/null || true
        while ! grep -q answered "$work/idle"; do sleep 0.5; done
        tail -n 1 "$work/idle"
    fi
    if wanted slow "$@"; then
        echo "-- 4 clients beside 400 that send a byte each 300 ms"
        "$work/load" slow "$port" 400 $((seconds + 3)) 300 > "$work/slow" &
        sleep 2
        measured beats "$port" 4 "$seconds" 0
        sleep 3
        cat "$work/slow"
    fi
    if wanted chunks "$@"; then
        for bytes in 50000 100000 200000 400000; do "$work/load" chunks "$port" "$bytes" 64; done
    fi
    stop
    if wanted lists "$@"; then
        serve "$server"
        "$work/load" register "$port" 10000
        for load in "4 0" "64 2"; do
            read -r count pause <<< "$load"
            echo "-- $count clients at 10,000 leases, with a pause of $pause ms"
            measured beats "$port" "$count" "$seconds" "$pause"
            echo "-- beside 6 that fetch all without pause"
            "$work/load" lists "$port" 6 $((seconds + 2)) > "$work/lists" &
            sleep 1
            "$work/load" beats "$port" "$count" "$seconds" "$pause"
            sleep 3
            cat "$work/lists"
        done
        stop
    fi
    if wanted fleet "$@"; then
        serve "$server"
        "$work/load" register "$port" "$clients"
        echo "-- a fleet of $clients"
        "$work/load" fleet "$port" "$clients" "${FLEET_SECONDS:-120}"
        stop
    fi
done
