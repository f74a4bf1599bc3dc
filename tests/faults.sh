#!/bin/sh
# Fails each allocation of a run in turn, and then each from there on. The run has to end as it does when none fails, or with NoMemory
# (the program: status 6) and a prefix of that output. By hand, with a C compiler; it takes minutes.
#   tests/faults.sh crates/sql_tool/out/sql_tool [crates/sql_test_base/out/sql_test_base_tests ..]
# The program answers three documents and a text of `examples/`, audits and guards, and generates requests. Of the tests, as `rt test`
# builds them, `every_call_once` is run, and where a crate has it `the_same_call_again`. Where none is named, those of all crates are
# taken, and it says which are not built. (tests/calls.py tells that each public call that can answer NoMemory is in one of them.)
[ $# -ge 1 ] || { sed -n '2,7s/^# *//p' "$0"; exit 2; }
command -v cc >/dev/null || { echo "skipped: no C compiler"; exit 0; }
top=$(cd "$(dirname "$0")/.." && pwd) || exit 1
work=$(mktemp -d) || exit 1
trap 'rm -r "$work"' EXIT
cc -O2 -shared -fPIC -o "$work/refuse.so" "$top/tests/refuse.c" -ldl || exit 1
failed=0

# run INPUT WORD..: the run with this input, output to $work/out
run() {
    input=$1
    shift
    LD_PRELOAD="$work/refuse.so" "$@" <"$input" >"$work/out" 2>"$work/err"
}

# each NAME STATUS INPUT WORD..: refuses each allocation of that run, which without memory ends with this status
each() {
    name=$1
    status=$2
    shift 2
    run "$@" || { echo "FAILED $name, where none is refused"; failed=1; return; }
    count=$(sed -n 's/^allocations=//p' "$work/err")
    [ "${count:-0}" -gt 0 ] || { echo "FAILED $name: no allocation was seen, so none can be refused"; failed=1; return; }
    cp "$work/out" "$work/whole"
    whole=0
    wanting=0
    for all in "" 1; do
        number=1
        while [ "$number" -le "$count" ]; do
            (export REFUSE="$number" ${all:+REFUSE_ALL=1} && run "$@")
            got=$?
            if [ "$got" = 0 ] && cmp -s "$work/whole" "$work/out"; then
                whole=$((whole + 1))
            elif [ "$got" = "$status" ] && grep -Eq 'NoMemory|AllocError|AllocFailed' "$work/err" && head -c "$(wc -c <"$work/out")" "$work/whole" | cmp -s - "$work/out"; then
                wanting=$((wanting + 1))
            else
                echo "FAILED $name at allocation $number${all:+ and on}"
                failed=1
            fi
            number=$((number + 1))
        done
    done
    echo "$name: $count allocations, refused alone and all from there on: $wanting runs without memory, $whole whole"
}

program=$1
shift
if [ $# = 0 ]; then
    for file in "$top"/crates/*/src/every_call.rt; do
        crate=${file%/src/every_call.rt}
        tests=$crate/out/${crate##*/}_tests
        if [ -x "$tests" ]; then set -- "$@" "$tests"; else echo "skipped ${crate##*/}: rt test builds its tests"; fi
    done
fi
for document in filter exists requests; do
    each "$document" 6 "$top/examples/$document.json" "$program" build
done
each text 6 "$top/examples/spaces.Pg.sql" "$program" read Pg
each generate 6 /dev/null "$program" generate 24
each audit 6 "$top/examples/audit.json" "$program" audit Pg
each guard 6 "$top/examples/guard.json" "$program" guard
each tenant 6 "$top/examples/tenant.json" "$program" tenant
for tests in "$@"; do
    each "${tests##*/}" 101 /dev/null "$tests" every_call::every_call_once
    case $tests in
        */sql_test_base_tests) each "the same call again" 101 /dev/null "$tests" again::the_same_call_again ;;
    esac
done
exit "$failed"
