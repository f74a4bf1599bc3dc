#!/bin/sh
# How many files name one operator: `tests/spread.sh` prints a line for IS NULL and one for `>=`, with the files of code, of definitions and
# of proofs, and with -v the files. It never fails. What it counts is what a new operator of that kind touches; CONTRIBUTING.md lists them. A
# test whether a value is NULL (`is_null` of a value, of JSON too) is no such operator, and not counted.
cd "$(dirname "$0")/.." || exit 0
spread() {
    for kind in src specs proofs; do
        grep -rlE "$2" --include='*.rt' --include='*.antt' crates/*/$kind 2>/dev/null
    done | sort > "${TMPDIR:-/tmp}/spread.$$"
    awk -F/ -v name="$1" '
        { all++; kinds[$3]++; if (!($2 in seen)) { seen[$2]; crates++ } }
        END { printf "%s: %d files in %d crates (src %d, specs %d, proofs %d)\n", name, all, crates, kinds["src"], kinds["specs"], kinds["proofs"] }
    ' "${TMPDIR:-/tmp}/spread.$$"
    [ "$3" = -v ] && sed 's/^/  /' "${TMPDIR:-/tmp}/spread.$$"
    rm -f "${TMPDIR:-/tmp}/spread.$$"
}
spread 'IS NULL' 'IsNull|IsNotNull|\.is_null\(alloc|fn is_null\(self|"is_null"|is_not_null|null_test|NullTest' "$1"
spread '>=' '\bGe\b|GreaterOrEqual' "$1"
exit 0
