#!/usr/bin/env bash
# Tries the must-fail edits that the gate leaves out: those in crates/NAME/must-fail-more of the crates that are named, or of all. Each has to
# be refused. Works in a copy of the tree, with what was proved in it.
set -euo pipefail
cd "$(dirname "${BASH_SOURCE[0]}")/.."
copy=$(mktemp -d)
trap 'rm -rf "$copy"' EXIT
tar cf - --exclude=.git . | tar xf - -C "$copy"
cd "$copy"
rm -rf crates/*/must-fail
for folder in crates/*/must-fail-more; do
    mv "$folder" "${folder%-more}"
done
rt must-fail "$@"
