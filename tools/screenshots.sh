#!/usr/bin/env bash
# Makes the pictures of the operators' pages, docs/pictures/admin.png and admin-app.png, by a headless Chromium.
#
# tools/screenshots.sh PROGRAM
#
# PROGRAM is the built program (crates/eureka/out/eureka). It is started with ports that the system chooses; six instances register, and some send heartbeats for a
# minute, so that the last one has some. It wants curl and Chromium.
set -euo pipefail
[ $# -eq 1 ] || { echo "usage: tools/screenshots.sh PROGRAM" >&2; exit 2; }
program=$(realpath "$1")
pictures=$(realpath "$(dirname "${BASH_SOURCE[0]}")/../docs/pictures")
browser=$(command -v chromium || command -v chromium-browser || command -v google-chrome) || { echo "no Chromium is on the path" >&2; exit 2; }
work=$(mktemp -d)
trap 'kill "$server" 2> /dev/null || true; rm -rf "$work"' EXIT

"$program" serve --port 0 --admin-port 0 --forever > "$work/out" 2> "$work/told" &
server=$!
for _ in $(seq 50); do
    grep -q '^admin on ' "$work/told" && break
    sleep 0.1
done
registry=http://$(sed -n 's/^listening on //p' "$work/told")/eureka/apps
admin=http://$(sed -n 's/^admin on //p' "$work/told")

register() {
    curl -sf -d "{\"instance\":{\"instanceId\":\"$2\",\"hostName\":\"$2.example\",\"app\":\"$1\",\"ipAddr\":\"10.0.0.1\",\"status\":\"$3\",\"dataCenterInfo\":{\"name\":\"MyOwn\"}}}" "$registry/${4:-$1}"
}
register orders orders-1:8080 UP
register orders orders-2:8080 UP
register orders orders-3:8080 STARTING
register payments payments-1:8080 UP
register payments payments-2:8080 DOWN
register '<shop>' '<b>shop</b>' UP %3Cshop%3E
curl -sf -X PUT "$registry/ORDERS/orders-2:8080/status?value=OUT_OF_SERVICE"
# A minute ends 60 s after the start, and the picture shows the heartbeats of the last one.
for _ in $(seq 9); do
    curl -sf -X PUT "$registry/ORDERS/orders-1:8080"
    sleep 7
done

shoot() {
    "$browser" --headless --no-sandbox --disable-gpu --hide-scrollbars --user-data-dir="$work/browser" --window-size="$3" --screenshot="$pictures/$1" "$admin$2" 2> /dev/null
}
shoot admin.png / 800,1280
shoot admin-app.png /apps/ORDERS 800,420
