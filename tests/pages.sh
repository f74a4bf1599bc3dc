#!/bin/sh
# Checks that the pages are true where a program can tell: the files that they name, the clauses and the code that they show, the commands
# with their output, the queries of docs/RULES.md, how many must-fail edits there are, what docs/TRUST.md counts. Needs python3 and the
# built program. Ends with 'N passed, M failed'.
command -v python3 >/dev/null || { echo "skipped: no python3"; exit 0; }
top=$(cd "$(dirname "$0")/.." && pwd) || exit 1
"$top/sql_tool" --no-build build <"$top/examples/filter.json" >/dev/null || exit 1
export PYTHONUTF8=1 PYTHONDONTWRITEBYTECODE=1
exec python3 - "$top" <<'END'
import json, pathlib, re, subprocess, sys

top = pathlib.Path(sys.argv[1])
passed = failed = 0
PAGES = [top / "README.md", top / "CONTRIBUTING.md", top / "CHANGELOG.md", top / "bench/README.md", *sorted((top / "docs").glob("*.md"))]
CRATES = sorted(path.name for path in (top / "crates").iterdir() if (path / "src").is_dir())


def expect(page, what, holds):
    global passed, failed
    if holds:
        passed += 1
    else:
        failed += 1
        print(f"FAILED {page.relative_to(top)}: {what}")


def texts_of(crate):
    return "\n".join(path.read_text() for path in sorted((top / "crates" / crate / "src").rglob("*.rt")))


def fences(page, language):
    return re.findall(rf"^```{language}\n(.*?)^```", page.read_text(), re.S | re.M)


# ---- files: those named from the top or from the page, and those of a crate that is named before them

FILE = r"(?:README|CONTRIBUTING|CHANGELOG)\.md|(?:docs|examples|tests|bench|crates|sql_\w+|hardieflax\w*)/[\w./*-]+|[\w.-]+\.(?:md|sh|py|json|jsonl|tsv)"
for page in PAGES:
    text = page.read_text()
    for name in sorted(set(re.findall(rf"`({FILE})(?:#[^`]*)?`", text)) | set(re.findall(r"\]\(([^)#:]+)\)", text))):
        if name.startswith("crates/NAME") or name.endswith("/"):
            continue
        folders = [top, top / "crates", top / "docs", top / "tests", top / "tests/servers", page.parent, *(top / "crates" / crate for crate in CRATES)]
        expect(page, f"no file {name}", any(list(folder.glob(name)) for folder in folders))
    for crate, name in sorted(set(re.findall(r"`(sql_\w+|hardieflax\w*)`[^`\n.;]{0,30}\n?[^`\n.;]{0,30}`((?:src|specs|proofs)/[\w./]+\.\w+)`", text))):
        expect(page, f"no file {name} in {crate}", crate in CRATES and (top / "crates" / crate / name).exists())
    for clause, call, name in re.findall(r"`(\w+)`\s+of\s+`(\w+)`\s+\(`(crates/[\w/.]+\.rt)`", text):
        source = (top / name).read_text() if (top / name).exists() else ""
        expect(page, f"no clause {clause} of {call} in {name}", f"ensures {clause} {{" in source and f"fn {call}" in source)

# ---- code: the lines that a page shows are those of the program of examples, or of a crate's own; `..` stands for what is left out

# The program's own line is generic over the backend.
FOR_ONE_BACKEND = "let built = compile(alloc, &Pg, &schema, &statement)?;"


def dense(code):
    return "".join(code.split()).replace(",)", ")")


CODE = dense("\n".join(texts_of(crate) for crate in CRATES))
for page in PAGES:
    for block in fences(page, "rust") if page.name in ("README.md", "USING.md") else []:
        for line in block.split("\n"):
            # what the program returns is named in README
            line = re.sub(r"^let statement = (.*);$", r"\1", line.strip())
            if line and ".." not in line and line != FOR_ONE_BACKEND:
                expect(page, f"no such line of code: {line}", dense(line) in CODE)

# ---- commands: each line after a `$` is what it prints

for page in PAGES:
    for block in fences(page, "sh"):
        for command, shown in re.findall(r"^\$ (.*)\n((?:(?!\$).*\n)*)", block, re.M):
            run = subprocess.run(["sh", "-c", command], cwd=top, capture_output=True, text=True, stdin=subprocess.DEVNULL)
            expect(page, f"{command} prints {run.stdout!r}", run.stdout == shown)
line = subprocess.run([top / "sql_tool", "--no-build", "build"], input=(top / "examples/filter.json").read_bytes(), capture_output=True).stdout.decode()
folded = "".join(each.lstrip() for each in fences(top / "README.md", "json")[0].split("\n"))
expect(top / "README.md", f"examples/filter.json gives {line}", folded == line.rstrip("\n"))

# ---- grants: SQL names, quoted, and a table whose rows are only counted

sys.path[:0] = [str(top / "examples"), str(top / "tests")]
import grants, trust

declared = {"tables": [
    {"name": "t", "sql_name": 'a"b.c', "schema": "s d", "columns": [{"name": "x", "sql_name": 'y"; --'}, {"name": "z"}]},
    {"name": "u", "primary_key": ["k"], "columns": [{"name": "k", "sql_name": "K"}, {"name": "l"}]},
    {"name": "v", "columns": [{"name": "id"}]}]}
written = grants.grants(declared, [{"tables": ["t", "u"], "columns": [["t", "x"]]}, {"tables": ["t"], "columns": []}], 'r"o')
expect(top / "docs/TEXTS.md", f"grants {written}", written == [
    'GRANT USAGE ON SCHEMA "s d" TO "r""o";', 'GRANT SELECT ("y""; --") ON "s d"."a""b.c" TO "r""o";', 'GRANT SELECT ("K") ON "u" TO "r""o";'])

# ---- rules: each query that breaks one is refused by its name, and each that mends it is not

rules = top / "docs/RULES.md"
schema = json.loads(fences(rules, "json")[0])
names, requests = [], []
for name, section in re.findall(r"^## \d+\. (\w+)\n(.*?)(?=^## |\Z)", rules.read_text(), re.S | re.M):
    for what, dialect, query in re.findall(r"^- (breaks|mends) it(?:, on `(\w+)`)?:\s+`(.*?)`$", section, re.M):
        names.append((name, what))
        requests.append({"dialect": dialect or "Pg", "query": json.loads(query)})
document = json.dumps({"schema": schema, "requests": requests})
answers = subprocess.run([top / "sql_tool", "--no-build", "build"], input=document.encode(), capture_output=True).stdout.decode().split("\n")[:-1]
expect(rules, "as many answers as queries", len(answers) == len(names))
for (name, what), answer in zip(names, answers):
    refused = json.loads(answer).get("refused")
    expect(rules, f"what {what} {name} gives {answer}", refused == (name if what == "breaks" else None))
expect(rules, "a query that breaks each rule but the last, and one that mends it", len(names) == 26)

# ---- what the pages say of nullable columns, of operands that are NOT, of tables that are declared twice, of names by case


def lines_of(words, document):
    run = subprocess.run([top / "sql_tool", "--no-build", *words], input=json.dumps(document).encode(), capture_output=True)
    return [json.loads(line) for line in run.stdout.decode().split("\n")[:-1]]


def table(name, columns, **more):
    return {"name": name, "columns": [{"name": column, "type": kind} for column, kind in columns.items()], **more}


def filtered(name, *conditions):
    return {"dialect": "Pg", "query": {"from": {"table": name}, "calls": [["filter", each] for each in conditions]}}


NAME, FIDO = {"col": ["animals", "name"]}, ["Text", "Fido"]
compared = lines_of(["build"], {"schema": {"tables": [table("animals", {"id": "Integer", "name": "Text?"})]}, "requests": [
    filtered("animals", {"eq": [NAME, {"bind": FIDO}]}), filtered("animals", {"eq": [NAME, {"bind": ["Text?", "Fido"]}]}),
    filtered("animals", {"eq": [NAME, {"nullable": {"bind": FIDO}}]}), filtered("animals", {"eq_any": [NAME, {"list": ["Text?", ["Fido"]]}]})]})
expect(rules, f"a nullable column gives {compared}", compared[0] == {"refused": "TypeMismatch"} and compared[1]["sql"] == compared[2]["sql"]
       and "sql" in compared[3])

POSTS = {"id": "Integer", "hidden": "Bool?"}
guarded = lines_of(["guard"], {"schema": {"tables": [table("posts", POSTS), table("again", POSTS, schema="main", sql_name="posts")]},
                               "requests": [filtered("posts"), filtered("again")],
                               "guard": {"table": "posts", "predicate": {"is_not_null": {"not": {"col": ["posts", "hidden"]}}}}})
expect(top / "docs/GUARD.md", f"the guard writes {guarded}", 'WHERE (NOT ("posts"."hidden") IS NOT NULL)' in guarded[0]["sql"]
       and "WHERE" not in guarded[1]["sql"])

IN_A_SUBSELECT = 'SELECT "%s"."id" FROM "t" AS "%s" WHERE EXISTS (SELECT "%s"."id" FROM "p" AS "%s" WHERE ("%s"."id" = "%s"."id"))'
names = [("u", "U"), ("a" * 63 + "b", "a" * 63 + "c")]
audited = lines_of(["audit", "Pg"], {"schema": {"tables": [table("t", {"id": "Integer"}), table("p", {"id": "Integer"})]}, "texts": [
    *(IN_A_SUBSELECT % (one, one, other, other, one, other) for one, other in names), 'SELECT "t"."ID" FROM "t"', 'SELECT ""."id" FROM "t" AS ""',
    '(SELECT "t"."id" FROM "t") UNION (SELECT "p"."id" FROM "p") ORDER BY 7', 'SELECT COUNT(*) FROM "t"']})
expect(top / "docs/TEXTS.md", f"audit writes {audited}", [line.get("sources") for line in audited] == [[0, 1, 0, 1]] * 2 + [None, [0], [0, 1], []]
       and audited[2] == {"refused": "NotInScope"} and audited[5]["tables"] == ["t"])

# ---- who each page is for stands on its first line

for page in sorted((top / "docs").glob("*.md")):
    expect(page, "its first line does not say who it is for", re.match(r"# [^\n]+\n\nFor (those|people) ", page.read_text()) is not None)

# ---- numbers

edits = len(list(top.glob("crates/*/must-fail/*.edit")))
for page, pattern in ((top / "CONTRIBUTING.md", r"so there are (\d+), those"), (top / "docs/DECISIONS.md", r"There are\s+(\d+)\. A crate")):
    expect(page, f"there are {edits} must-fail edits", [int(each) for each in re.findall(pattern, page.read_text())] == [edits])
faults = list(trust.faults())
for fault in faults or [""]:
    expect(trust.PAGE, fault, not fault)
for crate in CRATES:
    expect(top / "docs/ARCHITECTURE.md", f"nothing of {crate}", f"`{crate}`" in (top / "docs/ARCHITECTURE.md").read_text())
print(f"{passed} passed, {failed} failed")
sys.exit(failed != 0)
END
