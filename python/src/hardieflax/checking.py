"""Whether a database still has what a schema says of it."""
from __future__ import annotations

import importlib.util
import json
import pathlib
import sys
from typing import Any, Iterator, List

from .errors import SchemaError
from .reflection import FoundColumn, FoundTable, reflected
from .schema import Schema
from .sql_types import EnumerationType, SqlType
from .tables import Table, key_of


def differences(declared: Schema, database: Any, **options: Any) -> List[str]:
    """A line for each point in which the database is not as the schema says. What it has besides is no difference."""
    found = {each.name: each for each in reflected(database, **options).tables}
    return [line for table in declared for line in _of_table(table, found)]


def _of_table(table: Any, found: Any) -> Iterator[str]:
    name = table.__sql_name__ or table.__table__
    there = found.get(name)
    if there is None:
        yield f"{name}: the database has no such table"
        return
    columns = {each.name: each for each in there.columns}
    for column in table.__columns__.values():
        if column.sql_name not in columns:
            yield f"{name}.{column.sql_name}: the database has no such column"
        else:
            yield from _of_column(name, column.type, columns[column.sql_name])
    yield from _of_key(table, there, name)


def _of_column(table: str, mine: SqlType[Any], column: FoundColumn) -> Iterator[str]:
    theirs = column.type
    if isinstance(theirs, str):
        if mine.is_declared or mine.name != "Enumeration":
            yield f"{table}.{column.name}: the schema says {mine.name}, and the database {theirs}"
    elif mine.name != theirs.name:
        yield f"{table}.{column.name}: the schema says {mine.name}, and the database {theirs.name}"
    elif isinstance(mine, EnumerationType) and isinstance(theirs, EnumerationType) and set(mine.texts) != set(theirs.texts):
        yield f"{table}.{column.name}: the schema says {', '.join(mine.texts)}, and the database {', '.join(theirs.texts)}"
    if mine.nullable != column.nullable:
        says = "may be NULL" if column.nullable else "is never NULL"
        yield f"{table}.{column.name}: in the database it {says}, and the schema says otherwise"


def _of_key(table: Any, there: FoundTable, name: str) -> Iterator[str]:
    key = tuple(table.__columns__[each].sql_name for each in key_of(table))
    if there.key and there.key != key:
        yield f"{name}: the schema says that the key is ({', '.join(key)}), and the database ({', '.join(there.key)})"


def read_schema(path: str) -> Schema:
    """The schema of a file: JSON, a document or its member `schema`; or a module of Python with a name `schema`."""
    file = pathlib.Path(path)
    try:
        if file.suffix == ".py":
            return _of_module(file)
        content = json.loads(file.read_text("utf-8"))
    except (OSError, ValueError) as error:
        raise SchemaError(f"{path}: {error}") from error
    if not isinstance(content, dict) or not ("tables" in content or "schema" in content):
        raise SchemaError(f"{path} is no schema: it has neither the member `tables` nor `schema`")
    return Schema.from_document(content.get("schema", content))


def _of_module(file: pathlib.Path) -> Schema:
    spec = importlib.util.spec_from_file_location(file.stem, file)
    if spec is None or spec.loader is None:
        raise SchemaError(f"{file} is no module of Python")
    module = importlib.util.module_from_spec(spec)
    sys.modules.setdefault(file.stem, module)
    spec.loader.exec_module(module)
    found = getattr(module, "schema", None)
    if isinstance(found, Schema):
        return found
    tables = [each for each in vars(module).values() if isinstance(each, type) and issubclass(each, Table) and each.__columns__]
    if not tables:
        raise SchemaError(f"{file} has neither a Schema called `schema` nor tables")
    return Schema(*tables)
