#!/usr/bin/env bash
# Times the reading and routing of heartbeats from memory, beside a plain Rust program over upstream httparse; the listing of
# many instances; and requests that come in small pieces, at full and at half size. HTTPARSE names the folder with httparse's
# source, if it isn't where Debian's librust-httparse-dev puts it.
set -euo pipefail
top=$(cd "$(dirname "${BASH_SOURCE[0]}")/.." && pwd)
httparse=${HTTPARSE:-$(ls -d /usr/share/cargo/registry/httparse-*)}
proved=$top/crates/eu_bench/out/eu_bench
work=$(mktemp -d)
trap 'rm -rf "$work"' EXIT
rustc --edition 2018 -O --crate-type lib --crate-name httparse --cfg 'feature="std"' --cfg httparse_simd --cap-lints allow \
    -o "$work/libhttparse.rlib" "$httparse/src/lib.rs"
rustc --edition 2021 -O --extern httparse="$work/libhttparse.rlib" -o "$work/plain" "$top/bench/http_plain.rs"
(cd "$top/crates/eu_bench" && rt run -- listing 0) < /dev/null > "$work/build" 2>&1 || { cat "$work/build"; exit 1; }

# processor time of one run over $work/in, in seconds; what it prints is in $work/out
timed() {
    local TIMEFORMAT='%U %S'
    { time "$@" > "$work/out" 2> /dev/null; } 2>&1 < "$work/in" | awk '{ printf "%.3f\n", $1 + $2 }'
}

# so many heartbeats
heartbeats() {
    for ((i = 0; i < $1; i++)); do
        printf '%s\r\n' 'PUT /eureka/v2/apps/A/host-1?lastDirtyTimestamp=5 HTTP/1.1' 'Host: eureka.example.org:8761' \
            'User-Agent: Java-EurekaClient/v1.10' 'Accept: application/json' 'x-netflix-discovery-replication: true' ''
    done
}

# so many requests, each with a head of so many bytes
heads() {
    awk -v count="$1" -v len="$2" 'BEGIN {
        head = "GET /eureka/v2/apps HTTP/1.1\r\nHost: x\r\nx: "
        fill = sprintf("%" (len - length(head) - 4) "s", "")
        gsub(/ /, "x", fill)
        for (i = 0; i < count; i++) printf "%s%s\r\n\r\n", head, fill
    }'
}

# a request in chunks, of which so many have one byte each
chunks() {
    printf 'POST /eureka/v2/apps/A HTTP/1.1\r\nHost: x\r\nTransfer-Encoding: chunked\r\n\r\n'
    awk -v count="$1" 'BEGIN { for (i = 0; i < count; i++) printf "1\r\na\r\n" }'
    printf '0\r\n\r\n'
}

# a request in chunks, whose first chunk line has an extension of so many bytes
extension() {
    printf 'POST /eureka/v2/apps/A HTTP/1.1\r\nHost: x\r\nTransfer-Encoding: chunked\r\n\r\n1;'
    head -c "$1" /dev/zero | tr '\0' x
    printf '\r\na\r\n0\r\n\r\n'
}

for held in 1 100; do
    heartbeats "$held" > "$work/in"
    rounds=$((1000000 / held))
    for run in 1 2 3; do
        ours=$(timed "$proved" heartbeats "$rounds")
        cp "$work/out" "$work/proved"
        plain=$(timed "$work/plain" "$rounds")
        cmp "$work/out" "$work/proved"
        awk -v held="$held" -v bytes="$(wc -c < "$work/in")" -v ours="$ours" -v plain="$plain" 'BEGIN {
            printf "%d heartbeats a session, %d bytes each: %.2f million a second, plain %.2f, speed to plain %.2f\n",
                held, bytes / held, 1 / ours, 1 / plain, plain / ours }'
    done
done

: > "$work/in"
for count in 2500 10000 40000; do
    for run in 1 2 3; do
        echo "listing of $count: $(timed "$proved" listing "$count") s, $(cat "$work/out")"
    done
done

# the time of a request that comes in pieces of so many bytes at most
pieces() {
    for run in 1 2 3; do
        echo "$2: $(timed "$proved" pieces "$1") s, $(cat "$work/out")"
    done
}

for size in 4000 8000; do
    heads 500 "$size" > "$work/in"
    pieces 1 "500 heads of $size bytes, a byte at a time"
done
for size in 2090000 4180000; do
    extension "$size" > "$work/in"
    pieces 16 "a chunk line of $size bytes, 16 at a time"
done
for count in 300000 600000; do
    chunks "$count" > "$work/in"
    pieces 16 "$count chunks of a byte, 16 bytes at a time"
    pieces 4096 "$count chunks of a byte, 4,096 bytes at a time"
done
