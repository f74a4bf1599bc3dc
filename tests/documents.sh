#!/bin/sh
# Asks the program which documents it reads: one for each query of documents.tsv, over one table. It is none where the program answers
# BadDocument. Ends with 'N passed, M failed'.
top=$(cd "$(dirname "$0")/.." && pwd) || exit 1
work=$(mktemp -d) || exit 1
trap 'rm -r "$work"' EXIT
passed=0
failed=0
head='{"schema":{"tables":[{"name":"users","columns":[{"name":"id","type":"Integer"}]}]},"requests":[{"dialect":"Pg","query":'
tab=$(printf '\t')
while IFS="$tab" read -r is_one query; do
    case $is_one in '#'*) continue ;; esac
    printf '%s%s}]}' "$head" "$query" >"$work/document"
    "$top/sql_tool" --no-build build <"$work/document" >"$work/out" 2>"$work/err"
    case $?,$(wc -l <"$work/out") in
        0,1) found=yes ;;
        3,0) found=no ;;
        *) found=neither ;;
    esac
    if [ "$found" = "$is_one" ]; then
        passed=$((passed + 1))
    else
        failed=$((failed + 1))
        echo "FAILED $query: $found, wanted $is_one"
    fi
done <"$top/tests/documents.tsv"
echo "$passed passed, $failed failed"
[ "$failed" = 0 ]
