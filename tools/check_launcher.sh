#!/usr/bin/env bash
# Tries the script `eureka` with a program that stands in: its status has to come through, of its own accord and after SIGTERM and SIGINT, and nothing may be left running.
# Takes some ten seconds, and builds nothing.
set -uo pipefail
top=$(cd "$(dirname "${BASH_SOURCE[0]}")/.." && pwd)
place=$(mktemp -d)
trap 'rm -rf "$place"' EXIT
mkdir -p "$place/crates/eureka/out"
cp "$top/eureka" "$place/eureka"
cat > "$place/crates/eureka/out/eureka" <<'PROGRAM'
#!/usr/bin/env bash
# Reads its input to the end, and ends with 7; with another status at once where it is told so.
echo "$$" > "$(dirname "$0")/running"
if [ "${1-}" = at-once ]; then exit "$2"; fi
if [ "${1-}" = limit ]; then
    echo "$(ulimit -v) $*"
    exit 0
fi
echo "read $(wc -c)"
sleep 0.2
exit 7
PROGRAM
chmod +x "$place/crates/eureka/out/eureka"
failed=0

# Says whether what came is what was wanted.
expect() {
    if [ "$2" = "$3" ]; then echo "ok: $1"; else
        echo "FAILED: $1: $3 in place of $2" >&2
        failed=1
    fi
}

# Whether the program is gone, or still runs. (One that has ended and whom nobody asked for its status is gone.)
running() {
    local state
    state=$(sed -n 's/^State:[[:space:]]*\(.\).*/\1/p' "/proc/$(cat "$place/crates/eureka/out/running")/status" 2> /dev/null)
    if [ -z "$state" ] || [ "$state" = Z ]; then echo gone; else echo left; fi
}

# Runs the script in a session of its own with these words, sends it or its group a signal, and gives its status, what it printed, and whether the program is gone.
signalled() {
    local signal=$1 whom=$2 status=0
    shift 2
    # A command that bash puts in the background ignores SIGINT, so python starts it.
    python3 - "$signal" "$whom" "$place/eureka" "$@" > "$place/told" 2> "$place/errors" <<'PYTHON' || status=$?
import os, signal, subprocess, sys, time
name, whom, *words = sys.argv[1:]
script = subprocess.Popen(words, stdin=subprocess.DEVNULL, start_new_session=True)
time.sleep(1)
number = getattr(signal, name)
os.killpg(script.pid, number) if whom == "group" else os.kill(script.pid, number)
sys.exit(script.wait(timeout=20) % 256)
PYTHON
    echo "$status $(tr -d '\n' < "$place/told") $(running)"
}

expect "without the option the input is the caller's" "7 read 3" "$(
    status=0
    told=$(printf abc | "$place/eureka" serve) || status=$?
    echo "$status $told"
)"
for status in 0 2 3; do
    expect "status $status of its own accord" "$status" "$(
        told=0
        "$place/eureka" at-once "$status" --until-input-ends < /dev/null > /dev/null || told=$?
        echo "$told"
    )"
done
expect "SIGTERM to the script" "7 read 0 gone" "$(signalled SIGTERM one serve --until-input-ends)"
expect "SIGINT to the script" "7 read 0 gone" "$(signalled SIGINT one serve --until-input-ends)"
expect "SIGINT to all of its group" "7 read 0 gone" "$(signalled SIGINT group serve --until-input-ends)"
expect "SIGKILL to the script ends the input, too" "read 0 gone" "$(
    signalled SIGKILL one serve --until-input-ends > /dev/null
    sleep 1
    echo "$(tr -d '\n' < "$place/told") $(running)"
)"
expect "--memory is a limit, and no word of the program's" "307200 limit one two" "$("$place/eureka" limit one --memory 300 two)"
expect "--memory=N, too" "409600 limit" "$("$place/eureka" --memory=400 limit)"
for words in "--memory" "--memory=" "--memory 0" "--memory -1" "--memory=1.5" "--memory 9999999999"; do
    told=0
    # shellcheck disable=SC2086
    "$place/eureka" limit $words > /dev/null 2>&1 || told=$?
    expect "$words is refused" 2 "$told"
done
exit "$failed"
