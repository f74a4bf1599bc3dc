#!/bin/sh
# Does in an empty folder what docs/USING.md says of a first program of one's own, and compares what it prints. Needs the kit and python3.
# Nothing is proved: `rt try` runs the program. Ends with 'N passed, M failed'.
command -v rt >/dev/null && command -v python3 >/dev/null || { echo "skipped: no kit, or no python3"; exit 0; }
top=$(cd "$(dirname "$0")/.." && pwd) || exit 1
work=$(mktemp -d) || exit 1
trap 'rm -rf "$work"' EXIT
cd "$work" || exit 1
git init -q own && "$top/packaging/bring.py" own && cd own && mkdir -p crates/first/src || exit 1
echo "first: hardieflax anyhow" >>crates.txt
python3 - "$top/docs/USING.md" crates/first/src/main.rt <<'END'
import pathlib, re, sys

page, goal = map(pathlib.Path, sys.argv[1:])
section = page.read_text().split("## A first program of your own\n")[1].split("\n## ")[0]
goal.write_text(re.search(r"^```rust\n(.*?)^```", section, re.S | re.M)[1])
END
cd crates/first || exit 1
wanted='SELECT "users"."id", "users"."name" FROM "users" WHERE ("users"."name" = $1) LIMIT $2'
printed=$(rt try 2>try.log)
if [ "$printed" = "$wanted" ]; then echo "1 passed, 0 failed"; else
  cat try.log
  echo "FAILED: it prints $printed"
  echo "0 passed, 1 failed"
  exit 1
fi
