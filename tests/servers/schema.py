"""A document's tables on a server, with small random rows: equal ones but for their keys, and NULL in nullable columns, now and then. The
evaluator gets the same rows."""
from __future__ import annotations

import random
from typing import Any, Sequence

import servers
import values
from servers import Server
from statements import Database, Row, Schema, python_value


def random_database(chance: random.Random, schema: Schema, most: int) -> Database:
    """For each table at most so many rows, and none now and then. Rows have distinct keys, as the server asks."""
    return {name: random_rows(chance, schema, name, most) for name in schema.tables}


def random_rows(chance: random.Random, schema: Schema, name: str, most: int) -> list[Row]:
    columns = schema.columns(name)
    key = [schema.index[name][column] for column in schema.key(name)]
    rows: dict[Row, Row] = {}
    for _ in range(0 if chance.random() < 0.1 else chance.randint(min(2, most), most)):
        row = [python_value(column["type"], values.some(chance, column["type"])) for column in columns]
        if rows and chance.random() < 0.5:
            model = chance.choice(list(rows.values()))
            row = [row[at] if at in key else model[at] for at in range(len(columns))]
        rows.setdefault(tuple(row[at] for at in key), tuple(row))
    return list(rows.values())


def path(server: Server, table: dict[str, Any]) -> str:
    """The table's name as the server takes it."""
    parts = [table["schema"]] if "schema" in table else []
    return ".".join(server.quoted(part) for part in [*parts, table.get("sql_name", table["name"])])


def create_table(server: Server, schema: Schema, name: str) -> None:
    table = schema.tables[name]
    lines = []
    for column in table["columns"]:
        null = "NULL" if column["type"].endswith("?") else "NOT NULL"
        lines.append(f"{server.quoted(sql_name(column))} {server.types[column['type'].rstrip('?')]} {null}")
    key = [column for column in table["columns"] if column["name"] in schema.key(name)]
    if not any(column["type"].endswith("?") for column in key):
        lines.append(f"PRIMARY KEY ({', '.join(server.quoted(sql_name(column)) for column in key)})")
    server.run(f"CREATE TABLE {path(server, table)} ({', '.join(lines)})")


def sql_name(column: dict[str, Any]) -> str:
    return str(column.get("sql_name", column["name"]))


def insert(server: Server, schema: Schema, name: str, rows: Sequence[Row]) -> None:
    table = schema.tables[name]
    kinds = [values.kind(column["type"]) for column in table["columns"]]
    places = [f"${number}" if server.dialect == "Pg" else "?" for number in range(1, len(kinds) + 1)]
    server.prepare(f"INSERT INTO {path(server, table)} VALUES ({', '.join(places)})", kinds)
    for row in rows:
        server.execute(kinds, row)
    server.close()


def replace_rows(server: Server, schema: Schema, name: str, rows: Sequence[Row]) -> None:
    """The table has these rows, and no other ones."""
    server.run(f"DELETE FROM {path(server, schema.tables[name])}")
    insert(server, schema, name, rows)


def create(server: Server, schema: Schema, database: Database) -> dict[str, str]:
    """Makes the tables. The tables that the server refuses, each with its message."""
    refused_schemas = server.open_schemas({table["schema"] for table in schema.tables.values() if "schema" in table})
    refused = {}
    for name, table in schema.tables.items():
        if table.get("schema") in refused_schemas:
            refused[name] = refused_schemas[table["schema"]]
            continue
        try:
            create_table(server, schema, name)
        except servers.Refused as error:
            refused[name] = str(error)
            continue
        insert(server, schema, name, database[name])
    return refused
