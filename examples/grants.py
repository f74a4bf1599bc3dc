#!/usr/bin/env python3
"""The grants that a log of texts needs on PostgreSQL, and no more: `python3 examples/grants.py ROLE < DOCUMENT`.

The document is one of `sql_tool audit` (docs/TEXTS.md). Each column that a text uses is granted by its SQL name, and a table of which no
column is used by its key, since PostgreSQL asks a privilege on one column of a table whose rows are only counted. A text without a report
may read anything: it is named on standard error, and the status is 1. A lock (FOR UPDATE and so on) asks UPDATE besides, which no report
tells.
"""
import argparse
import json
import pathlib
import subprocess
import sys

PROGRAM = pathlib.Path(__file__).resolve().parent.parent / "crates/sql_tool/out/sql_tool"


def quoted(name: str) -> str:
    """A name as PostgreSQL reads it back."""
    return '"' + name.replace('"', '""') + '"'


def sql_name(declaration: dict) -> str:
    """What SQL calls a declared table or column."""
    return declaration.get("sql_name", declaration["name"])


def used_columns(schema: dict, reports: list[dict]) -> dict[str, set[str]]:
    """Of each table that a report names the columns to grant, all by the names of their declarations."""
    keys = {table["name"]: table.get("primary_key", ["id"]) for table in schema["tables"]}
    used: dict[str, set[str]] = {}
    for report in reports:
        for table in report["tables"]:
            used.setdefault(table, set())
        for table, column in report["columns"]:
            used[table].add(column)
    return {table: columns or {keys[table][0]} for table, columns in used.items()}


def grants(schema: dict, reports: list[dict], role: str) -> list[str]:
    """A statement for each schema and each table, in the order of the declarations."""
    used = used_columns(schema, reports)
    tables = [table for table in schema["tables"] if table["name"] in used]
    schemas = dict.fromkeys(table["schema"] for table in tables if "schema" in table)
    lines = [f"GRANT USAGE ON SCHEMA {quoted(name)} TO {quoted(role)};" for name in schemas]
    for table in tables:
        names = [sql_name(column) for column in table["columns"] if column["name"] in used[table["name"]]]
        path = [table["schema"]] if "schema" in table else []
        written = ".".join(map(quoted, [*path, sql_name(table)]))
        lines.append(f"GRANT SELECT ({', '.join(map(quoted, names))}) ON {written} TO {quoted(role)};")
    return lines


def main() -> int:
    parser = argparse.ArgumentParser(description=__doc__.split("\n")[0])
    parser.add_argument("role")
    role = parser.parse_args().role
    text = sys.stdin.buffer.read()
    if not PROGRAM.exists():
        sys.exit(f"{PROGRAM} is not built: run ./sql_tool build < examples/filter.json first")
    run = subprocess.run([PROGRAM, "audit", "Pg"], input=text, stdout=subprocess.PIPE, check=False)
    if run.returncode != 0:
        return run.returncode
    lines = [json.loads(line) for line in run.stdout.split(b"\n")[:-1]]
    reports = [line for line in lines if "refused" not in line]
    print("\n".join(grants(json.loads(text)["schema"], reports, role)))
    for number, line in enumerate(lines, 1):
        if "refused" in line:
            print(f"text {number}: {line['refused']}", file=sys.stderr)
    return int(len(reports) < len(lines))


if __name__ == "__main__":
    sys.exit(main())
