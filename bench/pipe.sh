#!/bin/sh
# Requests a second of one process over a pipe, `session`, from Python and from C, with one request and a hundred on a line, beside one
# document; and the memory of the process over a million requests. Prints two tables. By hand, never a test.
# PROGRAM, where it is set, is what is measured; else it is built first where it is not. COUNT and MILLION are how many requests. LIBRARY,
# where it is set, is a libhardieflax.a (packaging/library.sh), of which there are rows too: the same lines in calls of one process.
top=$(cd "$(dirname "$0")/.." && pwd) || exit 1
work=$(mktemp -d) || exit 1
trap 'rm -r "$work"' EXIT
count=${COUNT:-24000}
if [ -z "$PROGRAM" ]; then
    "$top/sql_tool" </dev/null >/dev/null 2>&1
    PROGRAM=$top/crates/sql_tool/out/sql_tool
fi
cc -O2 -o "$work/pipe" "$top/bench/embed/pipe.c" || exit 1
python3 "$top/bench/requests.py" "$count" >"$work/all.json"
python3 - "$work" <<'END'
import json, pathlib, sys

work = pathlib.Path(sys.argv[1])
document = json.loads((work / "all.json").read_text())
requests = document["requests"]
dump = lambda value: json.dumps(value, separators=(",", ":"))
for size in (1, 100):
    calls = [requests[at : at + size] for at in range(0, len(requests), size)]
    lines = [{"schema": document["schema"], "requests": []}, *({"schema": {"tables": []}, "requests": call} for call in calls)]
    (work / f"by_{size}").write_text("".join(dump(line) + "\n" for line in lines))
END

# row WHAT SECONDS
row() { awk "BEGIN { printf \"| %s | %d | %.3f | %d |\\n\", \"$1\", $count, $2, $count / $2 }"; }

printf '| what | requests | seconds | requests a second |\n|---|---|---|---|\n'
began=$(date +%s.%N)
"$PROGRAM" build <"$work/all.json" >"$work/lines" || exit 1
row 'one document' "$(awk "BEGIN { print $(date +%s.%N) - $began }")"
for size in 1 100; do
    row "a pipe from C, $size on a line" "$("$work/pipe" "$PROGRAM" "$work/by_$size" "$work/out")"
    cmp "$work/out" "$work/lines" || exit 1
    row "a pipe from Python, $size on a line" "$(python3 "$top/bench/pipe.py" "$PROGRAM" "$work/by_$size" "$work/out")"
    cmp "$work/out" "$work/lines" || exit 1
done
if [ -n "$LIBRARY" ]; then
    cc -O2 -I "$top/examples/c" -o "$work/session" "$top/bench/embed/session.c" "$LIBRARY" || exit 1
    for size in 1 100; do
        head -n 1 "$work/by_$size" >"$work/schema"
        tail -n +2 "$work/by_$size" >"$work/calls"
        row "the library from C, $size in a call" "$("$work/session" "$work/schema" "$work/calls" "$work/out")"
        cmp "$work/out" "$work/lines" || exit 1
    done
fi
echo
python3 "$top/bench/pipe.py" "$PROGRAM" "$work/by_100" --requests "${MILLION:-1000000}"
