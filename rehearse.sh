#!/bin/sh
# Plays a rehearsal: ./rehearse.sh [FILE], by default the worked example.
# Proves and builds the program first where that is not done, or where a source is newer.
set -eu
top=$(cd "$(dirname "$0")" && pwd)
file=${1:-$top/examples/worked}
program=$top/crates/rehearse/out/rehearse
newer() { find "$top/crates" "$top/crates.txt" -name out -prune -o -newer "$program" -print | head -n 1; }
if [ ! -x "$program" ] || [ -n "$(newer)" ]; then
    log=$(mktemp)
    trap 'rm -f "$log"' EXIT
    if ! (cd "$top/crates/rehearse" && rt run </dev/null) >"$log" 2>&1; then
        cat "$log" >&2
        exit 1
    fi
    touch "$program"
    rm -f "$log"
fi
exec "$program" <"$file"
