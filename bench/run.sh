#!/bin/sh
# Seconds, peak memory and instructions of `sql_tool build` over 1,000, 10,000 and 100,000 requests, of `sql_tool generate` of as many, and
# of `sql_tool read` over texts of 1, 4 and 16 MB, each printed as a table; then instructions of a request whose shape the cache has and of
# one whose shape is new. By hand, never a test. Instructions are counted by valgrind, where it is there; they repeat, whatever else the
# machine does.
top=$(cd "$(dirname "$0")/.." && pwd) || exit 1
"$top/sql_tool" >/dev/null 2>&1
program=$top/crates/sql_tool/out/sql_tool
work=$(mktemp -d) || exit 1

# instructions COMMAND: how many a run over the document takes that the command prints
instructions() {
    python3 "$@" >"$work/in.json"
    valgrind --tool=callgrind --callgrind-out-file="$work/callgrind" "$program" build <"$work/in.json" 2>&1 >/dev/null |
        sed -n 's/.*Collected : \([0-9]*\).*/\1/p'
}

printf '| requests | bytes in | bytes out | seconds | requests a second | peak memory, MB |\n|---|---|---|---|---|---|\n'
for count in 1000 10000 100000; do
    python3 "$top/bench/requests.py" "$count" >"$work/in.json"
    /usr/bin/time -f '%e %M' -o "$work/time" "$program" build <"$work/in.json" >"$work/out"
    read -r seconds kilobytes <"$work/time"
    printf '| %s | %s | %s | %s | %s | %s |\n' "$count" "$(wc -c <"$work/in.json")" "$(wc -c <"$work/out")" "$seconds" \
        "$(awk "BEGIN { printf \"%d\", $count / ($seconds > 0 ? $seconds : 0.01) }")" "$((kilobytes / 1024))"
done
printf '\n| generated requests | seconds | requests a second | peak memory, MB | its line again |\n|---|---|---|---|---|\n'
for count in 1000 10000 100000; do
    /usr/bin/time -f '%e %M' -o "$work/time" "$program" generate "$count" >"$work/out"
    read -r seconds kilobytes <"$work/time"
    "$program" generate "$count" | cmp -s - "$work/out" && again=same || again=other
    printf '| %s | %s | %s | %s | %s |\n' "$count" "$seconds" "$(awk "BEGIN { printf \"%d\", $count / ($seconds > 0 ? $seconds : 0.01) }")" \
        "$(awk "BEGIN { printf \"%.1f\", $kilobytes / 1024 }")" "$again"
done
printf '\n| text that is read | MB | seconds | MB a second | peak memory, MB | status |\n|---|---|---|---|---|---|\n'
for kind in flat nested list brackets; do
    for megabytes in 1 4 16; do
        python3 "$top/bench/texts.py" "$kind" "$((megabytes * 1048576 - 10000))" >"$work/in.sql"
        /usr/bin/time -q -f '%e %M' -o "$work/time" "$program" read Sqlite <"$work/in.sql" >"$work/out" 2>"$work/err"
        status=$?
        read -r seconds kilobytes <"$work/time"
        printf '| %s | %s | %s | %s | %s | %s |\n' "$kind" "$megabytes" "$seconds" \
            "$(awk "BEGIN { printf \"%.1f\", $megabytes / ($seconds > 0 ? $seconds : 0.01) }")" "$((kilobytes / 1024))" "$status"
    done
done
if command -v valgrind >/dev/null; then
    for direction in requests repeated shapes; do
        few=$(instructions "$top/bench/documents.py" "$direction" 1000)
        many=$(instructions "$top/bench/documents.py" "$direction" 2000)
        printf 'instructions a request, %s: %s\n' "$direction" "$(((many - few) / 1000))"
    done
    for count in 1000 2000; do
        valgrind --tool=callgrind --callgrind-out-file="$work/callgrind" "$program" generate "$count" 2>&1 >/dev/null |
            sed -n 's/.*Collected : \([0-9]*\).*/\1/p' >"$work/generate.$count"
    done
    printf 'instructions a generated request: %s\n' "$((($(cat "$work/generate.2000") - $(cat "$work/generate.1000")) / 1000))"
    few=$(instructions "$top/bench/requests.py" 1000)
    many=$(instructions "$top/bench/requests.py" 10000)
    printf 'instructions a request: %s\n' "$(((many - few) / 9000))"
    printf 'where they go: callgrind_annotate %s\n' "$work/callgrind"
else
    rm -r "$work"
fi
