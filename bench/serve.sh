#!/usr/bin/env bash
# Times heartbeats over connections of 100 each, with 4 workers: the server, a plain Rust server (bench/serve_plain.rs, or the program that
# BASELINE names), and a server that answers without looking (the loopback's own speed). Then a million heartbeats (MILLIONS of them) of 1,
# 1,000 and 60,000 leases, in which the journal begins anew every 65,536 steps. Then one client renews its lease while 60,000 others register, and
# while one eviction takes all of them out. Then a soak: more clients than workers, connections that are
# cut anywhere, and garbage (EACH connections of each client, 2,500 if it isn't set). Prints heartbeats a second, the median, the 99th and the
# 99.9th percentile and the longest time in microseconds, and what memory the server had.
set -euo pipefail
top=$(cd "$(dirname "${BASH_SOURCE[0]}")/.." && pwd)
program=$top/crates/eureka/out/eureka
work=$(mktemp -d)
started=
stop() { if [ -n "$started" ]; then kill "$started" 2> /dev/null || true; wait "$started" 2> /dev/null || true; fi; started=; }
trap 'stop; rm -rf "$work"' EXIT
"$top/eureka" --help > "$work/help"
rustc --edition 2021 -O -o "$work/load" "$top/bench/serve_load.rs"
rustc --edition 2021 -O -o "$work/plain" "$top/bench/serve_plain.rs"
plain=${BASELINE:-$work/plain}
connections=${CONNECTIONS:-4}
sessions=${SESSIONS:-50}
millions=${MILLIONS:-1}
port=18761

# Waits until somebody listens on the port.
await() {
    for _ in $(seq 100); do
        if (exec 3<> "/dev/tcp/127.0.0.1/$port") 2> /dev/null; then return; fi
        sleep 0.05
    done
    echo "nobody listens on $port" >&2
    exit 1
}

# A server with so many sessions.
serve() {
    local server=$1
    shift
    port=$((port + 1))
    case $server in
        echo) "$work/load" echo "$port" 4 & ;;
        *) "$server" serve --port "$port" --sessions "$1" --workers 4 "${@:2}" > "$work/served" 2> "$work/told" & ;;
    esac
    started=$!
    await
}

# The server ends by itself, with so many sessions served.
ended() {
    wait "$started"
    started=
    grep -qx "served $1" "$work/served"
}

# One run of a server that stands, over so many leases. The connection of `await` is a session too.
beats() {
    local server=$1 sessions=$2 leases=$3
    local total=$((connections * sessions + 1 + (leases + 99) / 100))
    serve "$server" "$total"
    "$work/load" beats "$port" "$connections" "$sessions" "$leases"
    if [ "$server" != echo ]; then ended "$total"; fi
    stop
}

# What memory the server has, while it runs, and in the end the most of it in each eighth of that time.
watch() {
    (while ps -o rss= -p "$started"; do sleep 0.2; done) > "$work/memory" &
}
memory() {
    awk '{ kib[NR] = $1 } END { printf "most memory in MiB in each eighth of the time:"
        for (row = part = 1; part <= 8; part++) { for (most = 0; row <= NR * part / 8; row++) if (kib[row] > most) most = kib[row]; printf " %d", most / 1024 }
        print "" }' "$work/memory"
}

for run in 1 2 3; do
    echo "eureka: $(beats "$program" "$sessions" 1)"
    echo "plain: $(beats "$plain" "$sessions" 1)"
    echo "echo: $(beats echo "$sessions" 1)"
done

for leases in 1 1000 60000; do
    total=$((4 * 2500 * millions + 1 + (leases + 99) / 100))
    serve "$program" "$total"
    watch
    echo "$millions million of $leases: $("$work/load" beats "$port" 4 $((2500 * millions)) "$leases")"
    ended "$total"
    memory
done

serve "$program" 1000000 --preservation off --evict-ms 10000
echo "a client's longest times beside 60,000 others, of a registration, of a renewal while they register, and of one while they go: $("$work/load" others "$port" 60000 12)"
stop

clients=16 each=${EACH:-2500}
total=$((clients * each + 3))
serve "$program" "$total" --evict-ms 100
watch
"$work/load" soak "$port" "$clients" "$each" "${SEED:-1}" | tee "$work/soaked"
ended "$total"
cat "$work/told" "$work/served"
grep -q " and 0 refused" "$work/soaked"
memory
