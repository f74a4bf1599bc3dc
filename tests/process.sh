#!/bin/sh
# Runs the program as a process: standard input to standard output, outputs and inputs that fail, words that are no command, requests
# that nest deep, the examples. The program is built first where it is not. Ends with 'N passed, M failed'.
# shellcheck disable=SC2162 # `run read` runs a command of the program
top=$(cd "$(dirname "$0")/.." && pwd) || exit 1
work=$(mktemp -d) || exit 1
trap 'rm -r "$work"' EXIT
. "$top/tests/checks.sh"

# ended STATUS WORD: the last run ended with this status, and said this word first on standard error
ended() {
    said=$(head -n 1 "$work/err")
    [ "$got" = "$1" ] && [ "$said" = "$2" ] && return
    echo "status $got and '$said', wanted $1 and '$2'"
    return 1
}

# run WORD..: runs the program, its output to $work/out
run() {
    "$top/sql_tool" "$@" >"$work/out" 2>"$work/err"
    got=$?
}

# small WORD..: the same with 2 MB of stack, as threads often have
small() {
    # shellcheck disable=SC3045
    (ulimit -s 2048 && run "$@" && exit "$got")
    got=$?
}

is_empty() { ended "$1" "$2" && [ ! -s "$work/out" ]; }
writes() { ended 0 '' && cmp "$work/out" "$1"; }

run build <"$top/crates/sql_tool/stdin"
check 'the stored run' writes "$top/crates/sql_tool/stdout"
for document in "$top"/examples/*.json; do
    case $document in
    */audit.json) run audit Pg <"$document" ;;
    */guard.json) run guard <"$document" ;;
    */tenant.json) run tenant <"$document" ;;
    *) run build <"$document" ;;
    esac
    check "${document##*/}" writes "${document%.json}.jsonl"
done
# A text is named by what it shows and its dialect.
for text in "$top"/examples/*.sql; do
    dialect=${text%.sql}
    run read "${dialect##*.}" <"$text"
    check "${text##*/}" writes "${text%.sql}.jsonl"
done
if command -v python3 >/dev/null; then
    python3 "$top/examples/report.py" >"$work/report" 2>&1
    check report.py cmp "$work/report" "$top/examples/report.txt"
    check 'the parts of report.py' env PYTHONDONTWRITEBYTECODE=1 python3 - "$top" <<'PY'
import sys
sys.path.insert(0, sys.argv[1] + "/examples")
import report
text = "a\u2028b\x85c\vd\r\n$1 %"
[line, same] = report.answers([sys.argv[1] + "/sql_tool", "--no-build"], "Pg", "build", [{"select": [{"bind": ["Text", text]}]}] * 2)
assert line["binds"] == same["binds"] == [["Text", text]], line
given = 'SELECT "a$1""%"."$2", $1 FROM "x" WHERE ("x"."%s" = $12)'
assert report.for_psycopg(given) == 'SELECT "a$1""%%"."$2", %s FROM "x" WHERE ("x"."%%s" = %s)', report.for_psycopg(given)
PY
else
    echo 'skipped report.py: no python3'
fi

"$top/sql_tool" build <"$top/examples/filter.json" >&- 2>"$work/err"
got=$?
check 'closed output' ended 5 WriteFault
"$top/sql_tool" build <&- >"$work/out" 2>"$work/err"
got=$?
check 'closed input' is_empty 4 ReadFault
if [ -e /dev/full ]; then
    "$top/sql_tool" build <"$top/examples/filter.json" >/dev/full 2>"$work/err"
    got=$?
    check 'full output' ended 5 WriteFault
fi
# Generated requests need no input.
cat >"$work/line" <<'TXT'
{"accepted":19,"binds":13,"bytes":1853,"ids":13,"refused":{"NeedsNullable":3,"Unsupported":2},"requests":24}
TXT
"$top/sql_tool" generate 24 <&- >"$work/out" 2>"$work/err"
got=$?
check 'generated requests' writes "$work/line"
# The same 24 statements come again and again, with other numbers: 100000 requests are 4166 times these 24 and then the first 16, of which
# 13 are accepted, with 11 values and 1120 bytes, the last with 58 bytes and one value, and three need nullable. No more are taken.
while read -r many line; do
    echo "$line" >"$work/line"
    run generate "$many" </dev/null
    check "$many generated requests" writes "$work/line"
done <<'TXT'
0 {"accepted":0,"binds":0,"bytes":0,"ids":0,"refused":{},"requests":0}
99999 {"accepted":79166,"binds":54168,"bytes":7720660,"ids":13,"refused":{"NeedsNullable":12501,"Unsupported":8332},"requests":99999}
100000 {"accepted":79167,"binds":54169,"bytes":7720718,"ids":13,"refused":{"NeedsNullable":12501,"Unsupported":8332},"requests":100000}
TXT
"$top/sql_tool" generate 24 </dev/null >&- 2>"$work/err"
got=$?
check 'generated requests, closed output' ended 5 WriteFault
printf 'SELECT "\377"."x"' >"$work/bytes"
run read Pg <"$work/bytes"
check 'a text that is not UTF-8' is_empty 3 BadDocument
run audit Pg <"$top/examples/filter.json"
check 'an audit of no texts' is_empty 3 BadDocument
run guard <"$top/examples/filter.json"
check 'a guard without one' is_empty 3 BadDocument
sed 's/"guard":{"table":"posts"/"guard":{"table":"nobody"/' "$top/examples/guard.json" >"$work/nobody"
run guard <"$work/nobody"
check 'a guard of no table' is_empty 3 BadDocument
run tenant <"$top/examples/filter.json"
check 'policies that are not there' is_empty 3 BadDocument
sed 's/{"table":"countries"}/{"table":"nobody"}/' "$top/examples/tenant.json" >"$work/nobody"
run tenant <"$work/nobody"
check 'a policy of no table' is_empty 3 BadDocument
# One table and one filter, and the same without the last byte.
cat >"$work/first" <<'TXT'
{"schema":{"tables":[{"name":"foo","columns":[{"name":"id","type":"Integer"},{"name":"mytype","sql_name":"type","type":"Integer"},{"name":"hey","sql_name":"bleh","type":"Integer"}]}]},"requests":[{"dialect":"Pg","query":{"from":{"table":"foo"},"calls":[["filter",{"eq":[{"col":["foo","mytype"]},{"bind":["Integer",1]}]}]]}}]}
TXT
cat >"$work/line" <<'TXT'
{"binds":[["Integer",1]],"columns":["Integer","Integer","Integer"],"id":1,"safe":true,"sql":"SELECT \"foo\".\"id\", \"foo\".\"type\", \"foo\".\"bleh\" FROM \"foo\" WHERE (\"foo\".\"type\" = $1)"}
TXT
run build <"$work/first"
check 'one request' writes "$work/line"
head -c -2 "$work/first" >"$work/cut"
run build <"$work/cut"
check 'a document without its last byte' is_empty 3 BadDocument
# 2,000 lines of 90 bytes take more than one write.
awk 'BEGIN {
    printf "{\"schema\":{\"tables\":[{\"name\":\"foo\",\"columns\":[{\"name\":\"id\",\"type\":\"Integer\"}]}]},\"requests\":["
    for (i = 0; i < 2000; i++) printf "%s{\"dialect\":\"Pg\",\"query\":{\"from\":{\"table\":\"foo\"}}}", i ? "," : ""
    print "]}" }' >"$work/many"
awk 'BEGIN {
    for (i = 0; i < 2000; i++)
        print "{\"binds\":[],\"columns\":[\"Integer\"],\"id\":1,\"safe\":true,\"sql\":\"SELECT \\\"foo\\\".\\\"id\\\" FROM \\\"foo\\\"\"}" }' >"$work/line"
run build <"$work/many"
check '2000 requests' writes "$work/line"
# A table of 70 columns, more than are looked up in the cache, which keeps 256 answers: the whole table; 300 shapes, each twice, with other
# values; then all that again. An id is the number of the first request of the shape.
awk 'BEGIN {
    printf "{\"schema\":{\"tables\":[{\"name\":\"wide\",\"primary_key\":[\"c0\"],\"columns\":["
    for (i = 0; i < 70; i++) printf "%s{\"name\":\"c%d\",\"type\":\"Integer\"}", i ? "," : "", i
    printf "]}]},\"requests\":["
    for (round = 0; round < 2; round++) {
        printf "%s{\"dialect\":\"Pg\",\"query\":{\"from\":{\"table\":\"wide\"}}}", round ? "," : ""
        for (i = 0; i < 600; i++) {
            column = sprintf("{\"col\":[\"wide\",\"c%d\"]}", int(i / 2) % 20)
            other = sprintf("{\"col\":[\"wide\",\"c%d\"]}", int(i / 40))
            printf ",{\"dialect\":\"Pg\",\"query\":{\"from\":{\"table\":\"wide\"},\"calls\":[[\"select\",%s],", column
            printf "[\"filter\",{\"eq\":[%s,{\"bind\":[\"Integer\",%d]}]}]]}}", other, 600 * round + i
        }
    }
    print "]}" }' >"$work/shapes"
awk 'BEGIN {
    for (i = 0; i < 70; i++) {
        all = all (i ? ", " : "") sprintf("\\\"wide\\\".\\\"c%d\\\"", i)
        types = types (i ? "," : "") "\"Integer\""
    }
    for (round = 0; round < 2; round++) {
        printf "{\"binds\":[],\"columns\":[%s],\"id\":1,\"safe\":true,\"sql\":\"SELECT %s FROM \\\"wide\\\"\"}\n", types, all
        for (i = 0; i < 600; i++) {
            printf "{\"binds\":[[\"Integer\",%d]],\"columns\":[\"Integer\"],\"id\":%d,\"safe\":true,", 600 * round + i, 2 + i - i % 2
            printf "\"sql\":\"SELECT \\\"wide\\\".\\\"c%d\\\" FROM \\\"wide\\\" ", int(i / 2) % 20
            printf "WHERE (\\\"wide\\\".\\\"c%d\\\" = $1)\"}\n", int(i / 40)
        }
    } }' >"$work/line"
run build <"$work/shapes"
check '300 shapes and a wide table' writes "$work/line"
printf '{"schema":{"tables":[]},"requests":[]}' >"$work/none"
run build <"$work/none"
check 'no requests' is_empty 0 ''
run build <"$top/README.md"
check 'no document' is_empty 3 BadDocument
head -c 16777217 /dev/zero | tr '\0' ' ' >"$work/large"
run build <"$work/large"
check 'a large input' is_empty 7 TooLarge
head -c 16777216 "$work/large" >"$work/full"
run build <"$work/full"
check 'the largest input' is_empty 3 BadDocument
{ cat "$work/none" && head -c 16777178 "$work/large"; } >"$work/full"
run build <"$work/full"
check 'the largest document' is_empty 0 ''
run read Pg <"$work/large"
check 'a large text' is_empty 7 TooLarge
# nested COUNT: a text with so many brackets, one in another
nested() { awk -v count="$1" 'BEGIN { printf "SELECT "; for (i = 0; i < count; i++) printf "NOT ("; printf "$1"; for (i = 0; i < count; i++) printf ")"; print "" }'; }
nested 2701 >"$work/deep"
run read Pg <"$work/deep"
check 'a text that nests 2701 deep' is_empty 6 NoMemory
nested 2700 >"$work/deep"
small read Pg <"$work/deep"
printf '{"placeholders":1,"sql":"%s"}\n' "$(cat "$work/deep")" >"$work/line"
check 'a text that nests 2700 deep' writes "$work/line"
# What leaves a bracket open, or has a word that is no token, has no reading however deep it nests.
echo '{"refused":"NotInGrammar"}' >"$work/line"
head -c 1000000 /dev/zero | tr '\0' '(' >"$work/open"
run read Pg <"$work/open"
check 'a text of opening brackets' writes "$work/line"
sed 's/(/)/g' "$work/open" >"$work/close"
run read Pg <"$work/close"
check 'a text of closing brackets' writes "$work/line"
nested 5000 | sed 's/\$1/foo/' >"$work/word"
run read Pg <"$work/word"
check 'a deep text with a word of its own' writes "$work/line"
{
    printf '{"schema":{"tables":[{"name":"foo","columns":[{"name":"id","type":"Integer"}]}]},"texts":["SELECT \\"foo\\".\\"id\\" FROM \\"foo\\"","'
    head -c 5000 "$work/open"
    printf '","SELECT \\"foo\\".\\"id\\" FROM \\"foo\\""]}'
} >"$work/texts"
run audit Pg <"$work/texts"
is_between() { ended 0 '' && [ "$(wc -l <"$work/out")" = 3 ] && [ "$(grep -n NotInGrammar "$work/out" | cut -d: -f1)" = 2 ]; }
check 'an audit with a text of opening brackets' is_between
# deep COUNT CALL [DIALECT]: a document of three requests: the table's, one with so many of this call on it, in which # stands for the
# number of the call, and the table's again
deep() {
    awk -v count="$1" -v call="$2" -v dialect="${3:-Pg}" 'BEGIN {
        table = "\"from\":{\"table\":\"foo\"}"
        printf "{\"schema\":{\"tables\":[{\"name\":\"foo\",\"columns\":[{\"name\":\"id\",\"type\":\"Integer\"}]}]},\"requests\":["
        plain = sprintf("{\"dialect\":\"%s\",\"query\":{%s}}", dialect, table)
        printf "%s,{\"dialect\":\"%s\",\"query\":{%s,\"calls\":[", plain, dialect, table
        for (i = 0; i < count; i++) {
            one = call
            gsub(/#/, i, one)
            printf "%s%s", i ? "," : "", one
        }
        printf "]}},%s]}\n", plain }'
}
# MAX_DEPTH (sql_build_depth) bounds what nests: out of memory, after the line of the request before, and never a signal.
beyond() { ended 6 NoMemory && [ "$(wc -l <"$work/out")" = 1 ] && ! grep -q refused "$work/out"; }
# As many as nest within the bound are answered, also where the stack is a quarter of what systems give.
within() { ended 0 '' && [ "$(wc -l <"$work/out")" = 3 ] && ! grep -q refused "$work/out"; }
condition='{"eq":[{"col":["foo","id"]},{"bind":["Integer",1]}]}'
join="[\"inner_join\",{\"alias\":\"a#\",\"of\":\"foo\"},$condition]"
while read -r most many call; do
    deep "$many" "$call" >"$work/deep"
    run build <"$work/deep"
    check "$many calls $call" beyond
    for dialect in Pg Mysql Sqlite Bracket; do
        deep "$((most + 1))" "$call" "$dialect" >"$work/deep"
        run build <"$work/deep"
        check "one call $call too many on $dialect" beyond
        deep "$most" "$call" "$dialect" >"$work/deep"
        small build <"$work/deep"
        check "$most calls $call on $dialect" within
    done
done <<TXT
2497 8000 ["filter",$condition]
2497 8000 ["or_filter",$condition]
1248 4000 ["union",{"from":{"table":"foo"}}]
2497 16000 ["nullable"]
2497 8000 $join
2497 8000 ["filter",$condition],$join
TXT
# A selection that is replaced, and the flag of a boxed statement, nest nothing.
deep 5000 '["nullable"],["select",{"col":["foo","id"]}]' >"$work/deep"
run build <"$work/deep"
check 'selections that are replaced' within
deep 1 "[\"into_boxed\"]$(awk 'BEGIN { for (i = 0; i < 5000; i++) printf ",[\"nullable\"]" }')" >"$work/deep"
run build <"$work/deep"
check 'flags' within
# A guard nests deeper by its predicate, which JSON holds to some 120 levels, and by a level for each table that a select reads.
predicate=$(awk 'BEGIN { for (i = 0; i < 110; i++) printf "{\"not\":"; printf "{\"eq\":[{\"col\":[\"foo\",\"id\"]},{\"bind\":[\"Integer\",1]}]}"
    for (i = 0; i < 110; i++) printf "}" }')
guarded() { sed "s/}\$/,\"guard\":{\"table\":\"foo\",\"predicate\":$predicate}}/"; }
policed() { sed "s/}\$/,\"tenant\":[{\"table\":\"foo\",\"predicate\":$predicate}]}/"; }
while read -r word by most call; do
    deep "$((most + 1))" "$call" | "$by" >"$work/deep"
    run "$word" <"$work/deep"
    check "one call $call too many for a $word" beyond
    deep "$most" "$call" | "$by" >"$work/deep"
    # `tenant` copies a statement, which takes 3 KB for each combination: 4 MB at the most, where systems give 8.
    case $word$call in
        tenant*union*) run "$word" <"$work/deep" ;;
        *) small "$word" <"$work/deep" ;;
    esac
    check "a $word of $most calls $call" within
done <<TXT
guard guarded 2496 ["filter",$condition]
guard guarded 1248 ["union",{"from":{"table":"foo"}}]
guard guarded 1248 $join
tenant policed 2496 ["filter",$condition]
tenant policed 832 ["union",{"from":{"table":"foo"}}]
tenant policed 1248 $join
TXT
# tables COUNT: a source of so many aliases, joined in pairs: it nests little, and a guard puts a condition beside WHERE for each
tables() {
    awk -v count="$1" -v condition="$condition" 'function source(from, to,   middle) {
            if (to - from == 1) return sprintf("{\"alias\":\"a%d\",\"of\":\"foo\"}", from)
            middle = int((from + to) / 2)
            return "{\"join\":[\"inner\"," source(from, middle) "," source(middle, to) "],\"on\":" condition "}"
        }
        BEGIN {
            printf "{\"schema\":{\"tables\":[{\"name\":\"foo\",\"columns\":[{\"name\":\"id\",\"type\":\"Integer\"}]}]},\"requests\":["
            printf "{\"dialect\":\"Pg\",\"query\":{\"from\":{\"table\":\"foo\"}}},"
            printf "{\"dialect\":\"Pg\",\"query\":{\"from\":%s}}]}\n", source(0, count) }'
}
tables 32768 | guarded >"$work/deep"
run guard <"$work/deep"
check 'a guard of 32768 tables' beyond
tables 32768 | policed >"$work/deep"
run tenant <"$work/deep"
check 'a tenant of 32768 tables' beyond
for words in '' 'Build' 'build x' 'guard x' 'tenant x' 'generate' 'generate 007' 'generate +7' 'generate 100001' 'read' 'read pg' 'audit' 'audit pg'; do
    # shellcheck disable=SC2086
    run $words </dev/null
    check "words '$words'" is_empty 2 Usage
done
# The script answers these itself; to the program they are no commands. tests/tool.sh has the rest of the script.
run --help </dev/null
check 'the page of --help' grep -q '^usage: ./sql_tool COMMAND' "$work/out"
# The script says Usage, and then how to call it, of exactly the words of which the program says Usage.
alike() {
    "$top/crates/sql_tool/out/sql_tool" "$@" </dev/null >"$work/out" 2>"$work/err"
    wanted=$?
    run "$@" </dev/null
    [ "$got" = "$wanted" ] && [ "$(wc -l <"$work/err")" -gt 2 ] && [ "$got" = 2 ] && return
    [ "$got" = "$wanted" ] && [ "$got" != 2 ] && [ "$(wc -l <"$work/err")" -lt 2 ] && return
    echo "status $got, wanted $wanted"
    return 1
}
for words in '--help' '-h' 'help' '--version' '--try' '--no-build'; do
    "$top/crates/sql_tool/out/sql_tool" "$words" </dev/null >"$work/out" 2>"$work/err"
    got=$?
    check "the program on $words" is_empty 2 Usage
done
for words in 'build' 'guard' 'tenant' 'read Pg' 'read Mysql' 'read Sqlite' 'read Bracket' 'read PG' 'audit Pg' 'audit Bracket' 'audit' 'generate 0' \
    'generate 9' 'generate 10' 'generate 99' 'generate 00' 'generate 0x1' 'generate 1.0' 'generate -0' 'generate 100001' 'biuld'; do
    # shellcheck disable=SC2086
    check "the script and the program on '$words'" alike $words
done
check 'the script and the program on two words in one' alike 'read Pg'
check 'the script and the program on a word with a newline' alike generate '1
'
echo "$passed passed, $failed failed"
[ "$failed" = 0 ]
