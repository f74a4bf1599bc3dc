"""The command `hardieflax`.

    hardieflax schema URL [--python]          the schema of a database, as JSON or as classes
    hardieflax check [SCHEMA] URL             whether a database still has what a schema says; ends with 1 where it has not
    hardieflax audit FILE.. --dialect Pg [--schema SCHEMA]
                                              the tables and columns that SQL in files uses; ends with 1 where one is not known

SCHEMA is a file: JSON, or a module that `schema --python` wrote; without it tables.py or schema.json of the current folder. URL is one of
SQLAlchemy, or the path of an SQLite file.
"""
from __future__ import annotations

import argparse
import glob
import json
import pathlib
import sys
from typing import Any, Dict, Iterator, List, Optional, Sequence

from . import auditing, checking
from .engines import DIALECTS
from .errors import HardieflaxError
from .reflection import reflected
from .schema import Schema

DONE, DIFFERENT, USAGE = 0, 1, 2
# Where a schema is looked for that is not named.
SCHEMA_FILES = ("tables.py", "schema.json")


def main(arguments: Optional[Sequence[str]] = None) -> int:
    """Runs a command. The status: 0 all is well, 1 something was found, 2 it could not be done."""
    given = _parser().parse_args(arguments)
    try:
        status: int = given.run(given)
        sys.stdout.flush()
        return status
    except HardieflaxError as error:
        print(f"hardieflax: {error}", file=sys.stderr)
        return USAGE


def _parser() -> argparse.ArgumentParser:
    parser = argparse.ArgumentParser(prog="hardieflax", description=__doc__, formatter_class=argparse.RawDescriptionHelpFormatter)
    commands = parser.add_subparsers(required=True, metavar="COMMAND")
    schema = commands.add_parser("schema", help="prints the schema of a database; what was left out stands on standard error")
    schema.add_argument("url")
    schema.add_argument("--python", action="store_true", help="classes for this package, in place of JSON")
    schema.add_argument("--audit", action="store_true", help="columns whose type has no counterpart are Text, so that `audit` knows them")
    _reflecting(schema)
    schema.set_defaults(run=_schema)
    check = commands.add_parser("check", help="compares a schema with a database")
    check.add_argument("file", metavar="SCHEMA", nargs="?")
    check.add_argument("url")
    _reflecting(check)
    check.set_defaults(run=_check)
    audit = commands.add_parser("audit", help="tells which tables and columns SQL uses")
    audit.add_argument("files", nargs="+", metavar="FILE", help="files of SQL, or patterns such as 'queries/*.sql'")
    audit.add_argument("--schema", metavar="SCHEMA", help="a file; by default tables.py or schema.json")
    audit.add_argument("--dialect", required=True, choices=DIALECTS)
    audit.add_argument("--json", action="store_true", help="a line of JSON for each statement")
    audit.add_argument("--quiet", action="store_true", help="only what is refused")
    audit.add_argument("--strict", action="store_true", help="only the grammar's own spelling, though sqlglot is installed")
    audit.set_defaults(run=_audit)
    return parser


def _reflecting(parser: argparse.ArgumentParser) -> None:
    parser.add_argument("--only", default="", metavar="TABLE,..", help="these tables")
    parser.add_argument("--schema", metavar="NAME", help="a schema of the database")
    parser.add_argument("--trust-declared", action="store_true",
                        help="SQLite: INT is Integer, though SQLite takes any value there")


def _options(given: argparse.Namespace) -> Dict[str, Any]:
    only = [name for name in given.only.split(",") if name]
    return {"only": only, "schema": given.schema, "trust_declared": given.trust_declared}


def _schema(given: argparse.Namespace) -> int:
    reflection = reflected(given.url, as_text=given.audit, for_document=not given.python, **_options(given))
    schema = reflection.schema()
    for note in schema.notes:
        print("note:", note, file=sys.stderr)
    print(schema.python() if given.python else schema.json(), end="" if given.python else "\n")
    return DONE


def _check(given: argparse.Namespace) -> int:
    found = checking.differences(_declared(given.file), given.url, **_options(given))
    for line in found:
        print(line)
    return DIFFERENT if found else DONE


def _declared(file: Optional[str]) -> Schema:
    """The schema of a file that is given, or of the one that the current folder has."""
    if file is None:
        found = [name for name in SCHEMA_FILES if pathlib.Path(name).is_file()]
        if len(found) != 1:
            raise HardieflaxError(f"no SCHEMA is given, and the folder has {' and '.join(found) or f'no {SCHEMA_FILES[0]}'}: name the file")
        file = found[0]
    return checking.read_schema(file)


def _audit(given: argparse.Namespace) -> int:
    schema = _declared(given.schema)
    texts = [text for name in _files(given.files) for text in _texts(name, given.dialect)]
    uses = auditing.audited(texts, schema, given.dialect, people=not given.strict)
    for use in uses:
        if use.refused is not None or not given.quiet:
            print(json.dumps(_as_json(use), ensure_ascii=False) if given.json else use)
    refused = sum(use.refused is not None for use in uses)
    print(f"{len(uses)} statements, {refused} refused", file=sys.stderr)
    return DIFFERENT if refused else DONE


def _as_json(use: auditing.Use) -> Dict[str, Any]:
    where: Dict[str, Any] = {"file": use.text.file, "line": use.text.line}
    if use.refused is not None:
        return {**where, "refused": use.refused, "notes": list(use.notes)}
    return {**where, "tables": list(use.tables), "columns": [list(each) for each in use.columns], "notes": list(use.notes)}


def _files(patterns: Sequence[str]) -> Iterator[str]:
    """The files of the patterns. HardieflaxError: one fits none, so nothing is passed over in silence."""
    for pattern in patterns:
        found: List[str] = [pattern] if pattern == "-" or pathlib.Path(pattern).is_file() else sorted(glob.glob(pattern, recursive=True))
        if not found:
            raise HardieflaxError(f"no file {pattern}")
        yield from found


def _texts(name: str, dialect: str) -> List[auditing.Text]:
    try:
        sql = sys.stdin.read() if name == "-" else pathlib.Path(name).read_text("utf-8")
    except (OSError, UnicodeDecodeError) as error:
        raise HardieflaxError(f"{name}: {error}") from error
    return list(auditing.split(sql, name, backslash=dialect == "Mysql"))


if __name__ == "__main__":
    sys.exit(main())
