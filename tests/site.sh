#!/bin/sh
# Makes the site of the pages (packaging/site.py) and checks it: each page is there, nothing is loaded from elsewhere, the search finds what it
# should, in a browser where one is installed, without a line that is wider than the screen. Ends with 'N passed, M failed'.
top=$(cd "$(dirname "$0")/.." && pwd) || exit 1
python=
for it in python3 /usr/bin/python3; do
    if "$it" -c 'import markdown' 2>/dev/null; then
        python=$it
        break
    fi
done
[ -n "$python" ] || { echo "skipped: no Python with markdown for tests/site.sh"; exit 0; }
work=$(mktemp -d) || exit 1
trap 'rm -rf "$work"' EXIT
passed=0
failed=0

# expect WHAT COMMAND..: the command succeeds
expect() {
    what=$1
    shift
    if "$@" >/dev/null 2>&1; then
        passed=$((passed + 1))
    else
        failed=$((failed + 1))
        echo "FAILED site: $what"
    fi
}

refuse() { ! "$@"; }

expect 'it is made, and no link leads nowhere' "$python" "$top/packaging/site.py" "$work/site"
for page in "$top"/docs/*.md; do
    name=$(basename "$page" .md | tr '[:upper:]' '[:lower:]')
    expect "$name.html is there" test -s "$work/site/$name.html"
    expect "index.html links to $name.html" grep -q "href=\"$name.html\"" "$work/site/index.html"
done
expect 'nothing is loaded from elsewhere' refuse grep -rE '(src|href)="(https?:)?//' "$work/site" --include='*.html'
expect 'the search knows each rule' grep -q '"name": "9. TypeMismatch"' "$work/site/index.js"
if command -v node >/dev/null; then
    expect 'its script is JavaScript' node --check "$top/packaging/site/search.js"
fi
browser=$(command -v chromium || command -v chromium-browser)
if [ -n "$browser" ]; then
    # The width of the whole page, and what the search finds, as the page itself tells.
    cat >"$work/site/probe.html" <<'HTML'
<!DOCTYPE html><meta charset="utf-8"><body><script>
const told = [];
async function probe(width, page) {
  const frame = document.createElement("iframe");
  frame.style.width = `${width}px`;
  frame.style.height = "800px";
  frame.src = page;
  document.body.append(frame);
  await new Promise((done) => { frame.onload = done; });
  const inside = frame.contentDocument;
  const asked = inside.getElementById("asked");
  asked.value = "needsnullable";
  asked.dispatchEvent(new Event("input"));
  const first = inside.querySelector("#found a");
  const wide = inside.documentElement.scrollWidth - inside.documentElement.clientWidth;
  told.push(`${page} ${width} ${wide === 0} ${first !== null} ${wide}`);
  frame.remove();
}
(async () => {
  for (const page of ["index.html", "rules.html", "servers.html", "architecture.html", "using.html"]) {
    for (const width of [360, 1280]) await probe(width, page);
  }
  document.body.textContent = told.join("\n");
})();
</script>
HTML
    "$browser" --headless --no-sandbox --disable-gpu --allow-file-access-from-files --virtual-time-budget=20000 --dump-dom \
        "file://$work/site/probe.html" >"$work/told" 2>/dev/null
    for page in index rules servers architecture using; do
        for width in 360 1280; do
            expect "$page.html at $width pixels fits, and its search finds" grep -q "$page.html $width true true" "$work/told"
        done
    done
else
    echo 'skipped: no chromium to look at the site with'
fi
echo "$passed passed, $failed failed"
[ "$failed" = 0 ]
