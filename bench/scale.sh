#!/bin/sh
# Seconds, peak memory and growth of `sql_tool build` over documents that grow in one direction each (`bench/documents.py`), up to those
# of 16 MB, printed as a table. By hand, never a test; all directions take minutes, so there are options for less:
#   bench/scale.sh [--least BYTES] [--most BYTES] [--seconds N] [DIRECTION..]
#   bench/scale.sh --stack [COMMAND:DIRECTION..]     how much stack the deepest inputs take, and each level of them
# PROGRAM, where it is set, is the program to run; else it is built first where it is not. Ends with 1 where a run ends by a signal, in
# more than 20 seconds, or with another status than Done or NoMemory.
top=$(cd "$(dirname "$0")/.." && pwd) || exit 1
if [ -z "$PROGRAM" ]; then
    "$top/sql_tool" </dev/null >/dev/null 2>&1
    PROGRAM=$top/crates/sql_tool/out/sql_tool
fi
exec python3 "$top/bench/scale.py" "$PROGRAM" "$@"
