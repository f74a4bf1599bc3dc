"""Which rows a guard of a text gives, by the collation of the column: the program compares byte by byte, and a server as the column says.
docs/SERVERS.md has the table."""
from __future__ import annotations

from typing import Any, Iterator

import servers
from lines import Line
from program import Ask
from servers import Server
from statements import Schema

SCHEMA = {"tables": [{"name": "users", "columns": [{"name": "id", "type": "Integer"}, {"name": "tenant", "type": "Text"}]}]}
GUARD = {"table": "users", "predicate": {"eq": [{"col": ["users", "tenant"]}, {"bind": ["Text", "acme"]}]}}
QUERY = {"from": {"table": "users"}, "calls": [["select", {"col": ["users", "id"]}]]}
# Row 1 has the tenant itself, 2 has it in capitals, 3 with a blank at its end.
ROWS = "(1, 'acme'), (2, 'ACME'), (3, 'acme ')"
# The type of the column, and the rows that the guarded line gives.
COLUMNS: dict[str, list[tuple[str, list[int]]]] = {
    "Pg": [("text", [1]), ("character(8)", [1, 3]), ("text COLLATE without_case", [1, 2])],
    "Mysql": [("varchar(20) COLLATE utf8mb4_nopad_bin", [1]), ("varchar(20) COLLATE utf8mb4_bin", [1, 3]),
              ("varchar(20) COLLATE utf8mb4_general_ci", [1, 2, 3]), ("varbinary(20)", [1])],
    "Sqlite": [("text", [1]), ("text COLLATE NOCASE", [1, 2]), ("text COLLATE RTRIM", [1, 3])],
}
# A collation of PostgreSQL that takes no heed of case.
WITHOUT_CASE = "CREATE COLLATION without_case (provider = icu, locale = 'und-u-ks-level2', deterministic = false)"


def faults(ask: Ask, server: Server) -> Iterator[tuple[str, list[str]]]:
    """Each column with what is wrong of it."""
    (answer,) = ask(["guard"], {"schema": SCHEMA, "guard": GUARD, "requests": [{"dialect": server.dialect, "query": QUERY}]})
    line = Line(Schema(SCHEMA), {"dialect": server.dialect, "query": QUERY}, answer)
    for column, wanted in COLUMNS[server.dialect]:
        found = outcome(server, column, line)
        yield f"a guard of a {column}", [] if found == wanted else [f"it gives {found}, docs/SERVERS.md says {wanted}"]


def outcome(server: Server, column: str, line: Line) -> Any:
    server.open_schemas(set())
    name = server.quoted
    try:
        if "without_case" in column:
            server.run(WITHOUT_CASE)
        server.run(f"CREATE TABLE {name('users')} ({name('id')} integer PRIMARY KEY, {name('tenant')} {column})")
        server.run(f"INSERT INTO {name('users')} VALUES {ROWS}")
        server.prepare(line.sql, line.kinds)
        return sorted(row[0] for row in server.execute(line.kinds, line.values)[1])
    except servers.Refused as error:
        return str(error)
    finally:
        server.close()
        server.drop_schemas()
