#!/usr/bin/env bash
# Runs each example script on the built program, and compares what it writes with the file beside it; of the first one its journal, too, which is audited.
set -euo pipefail
here=$(cd "$(dirname "${BASH_SOURCE[0]}")" && pwd)
work=$(mktemp -d)
trap 'rm -rf "$work"' EXIT
for script in "$here"/*.script; do
    diff "${script%.script}.out" <("$here/../eureka" script < "$script")
    echo "$(basename "$script"): as it should be"
done
"$here/../eureka" script --journal "$work/journal" < "$here/first.script" > "$work/out"
diff "$here/first.journal" "$work/journal"
diff "$here/first.out" "$work/out"
[ "$("$here/../eureka" audit --journal "$here/first.journal")" = "audit yes 2" ]
echo "first.journal: as it should be"
