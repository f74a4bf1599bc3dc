#!/bin/sh
# Tries the command `session` of the built program: the clients of examples/, what it answers to lines of all kinds and when, and what
# becomes of it where its reader or its writer is killed. It skips what needs a tool that is missing.
#   tests/session.sh [PROGRAM]     by default ./sql_tool --no-build
top=$(CDPATH='' cd -- "$(dirname -- "$0")/.." && pwd) || exit 1
work=$(mktemp -d) || exit 1
trap 'rm -rf "$work"' EXIT
trap 'exit 1' HUP INT TERM
failed=0
program=${1-}
if [ -z "$program" ]; then
    program=$work/program
    printf '#!/bin/sh\nexec "%s" --no-build "$@"\n' "$top/sql_tool" >"$program" && chmod +x "$program" || exit 1
fi

check() {
    name=$1
    shift
    if "$@" >"$work/log" 2>&1; then
        echo "passed: $name"
    else
        echo "FAILED: $name"
        head -n 20 "$work/log"
        failed=1
    fi
}

# client WORD..: whether a client writes the lines of `build` for the example
client() {
    "$@" "$program" <"$top/examples/$example.json" >"$work/lines" && cmp "$work/lines" "$top/examples/$example.jsonl"
}

for example in requests filter repeated rules nullable; do
    if command -v python3 >/dev/null; then
        check "session.py, $example.json" client env PYTHONDONTWRITEBYTECODE=1 python3 "$top/examples/session.py"
    fi
    if command -v node >/dev/null; then
        check "session.mjs, $example.json" client node "$top/examples/session.mjs"
    fi
done
command -v node >/dev/null || echo 'skipped session.mjs: no node'
if ! command -v python3 >/dev/null; then
    echo 'skipped: no python3 for examples/session.py and tests/conversation.py'
    exit "$failed"
fi
check 'conversations' python3 "$top/tests/conversation.py" "$program" "$top"
sed -n 's/^ok: /passed: /p' "$work/log"
exit "$failed"
