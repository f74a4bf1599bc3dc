#!/bin/sh
# Seconds of `sql_tool build` over eight documents of 50,000 requests each (`bench/requests.py`), 1, 2, 3 and 4 processes at a time, printed as
# a table. By hand, never a test. PROGRAM, where it is set, is the program to run; else it is built first where it is not.
top=$(cd "$(dirname "$0")/.." && pwd) || exit 1
if [ -z "$PROGRAM" ]; then
    "$top/sql_tool" </dev/null >/dev/null 2>&1
    PROGRAM=$top/crates/sql_tool/out/sql_tool
fi
export PROGRAM
work=$(mktemp -d) || exit 1
trap 'rm -r "$work"' EXIT
for shard in 1 2 3 4 5 6 7 8; do
    python3 "$top/bench/requests.py" 50000 >"$work/$shard.json"
done
# The script of a shell has the name of a document as its argument.
# shellcheck disable=SC2016
one='"$PROGRAM" build <"$1" >"$1l"'
printf '| processes | seconds | requests a second | as often as one |\n|---|---|---|---|\n'
first=
for processes in 1 2 3 4; do
    began=$(date +%s.%N)
    printf '%s\n' "$work"/*.json | xargs -P "$processes" -I{} sh -c "$one" sh {}
    ended=$(date +%s.%N)
    seconds=$(awk "BEGIN { printf \"%.2f\", $ended - $began }")
    first=${first:-$seconds}
    awk "BEGIN { printf \"| %d | %s | %d | %.1f |\\n\", $processes, $seconds, 400000 / $seconds, $first / $seconds }"
done
