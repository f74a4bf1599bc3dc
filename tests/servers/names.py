"""What only a server makes of names, positions and privileges: names that it takes for equal and the program does not, positions that no column
has, the rights that a text needs. Each is told in docs/SERVERS.md, and fails here once a server does otherwise."""
from __future__ import annotations

import re
from dataclasses import dataclass, field
from typing import Any, Callable, Iterator, Union

import schema as schemas
import servers
from audits import PostgresAuditor
from lines import Fault, Line
from mariadb import READER, Mariadb
from meaning import Meaning
from postgres import Postgres
from program import Ask
from servers import Server
from sqlite import Sqlite
from statements import Database, Row, Schema

Wanted = Union["list[Row]", str]  # the rows, or a pattern of the message
LONG = "a" * 63


def table(name: str, *columns: str, **more: Any) -> dict[str, Any]:
    return {"name": name, "columns": [{"name": each, "type": "Integer"} for each in columns], "primary_key": [columns[0]], **more}


USERS = table("users", "id")
TWO: Database = {"users": [(1,), (2,)]}


@dataclass
class Case:
    """A query, and what each server makes of it. Where that is not what the meaning has, `meaning` says what it should be."""
    what: str
    query: dict[str, Any]
    wanted: dict[str, Wanted]
    meaning: Wanted = ""
    tables: list[dict[str, Any]] = field(default_factory=lambda: [USERS])
    rows: Database = field(default_factory=lambda: TWO)


def of_alias(alias: str, column: str = "id") -> dict[str, Any]:
    return {"field": [alias, "users", column]}


def equals(a: Any, x: int) -> dict[str, Any]:
    return {"eq": [a, {"bind": ["Integer", x]}]}


def shadowed(outer: str, inner: str) -> dict[str, Any]:
    """Users of whom an inner select asks the id of the outer alias, and has rows of its own."""
    condition = {"and": [equals(of_alias(outer), 2), equals(of_alias(inner), 1)]}
    inside = {"from": {"alias": inner, "of": "users"}, "calls": [["filter", condition]]}
    return {"from": {"alias": outer, "of": "users"}, "calls": [["select", of_alias(outer)], ["filter", {"exists": inside}]]}


def inside_table(alias: str) -> dict[str, Any]:
    """The same where the outer leaf is the table itself."""
    condition = {"and": [equals(col("users"), 2), equals(of_alias(alias), 1)]}
    inside = {"from": {"alias": alias, "of": "users"}, "calls": [["filter", condition]]}
    return {"from": {"table": "users"}, "calls": [["select", col("users")], ["filter", {"exists": inside}]]}


def beside(left: str, right: str) -> dict[str, Any]:
    """A join of two aliases of the users."""
    on = {"eq": [of_alias(left), of_alias(right)]}
    return {"from": {"join": ["inner", {"alias": left, "of": "users"}, {"alias": right, "of": "users"}], "on": on},
            "calls": [["select", of_alias(left)]]}


def ordered_by(place: int) -> dict[str, Any]:
    users = {"from": {"table": "users"}}
    return {**users, "calls": [["union", users], ["positional_order_by", [place]]]}


def of_two_tables(what: str, first: str, second: str, wanted: dict[str, Wanted]) -> Case:
    """Two tables of these names, in one query."""
    query = {"from": {"join": ["inner", {"table": "users"}, {"table": "others"}], "on": {"eq": [col("users"), col("others")]}},
             "calls": [["select", col("users")]]}
    tables = [table("users", "id", sql_name=first), table("others", "id", sql_name=second)]
    return Case(what, query, wanted, ONE, tables, {"users": [(1,), (2,)], "others": [(2,)]})


def of_two_columns(what: str, first: str, second: str, wanted: dict[str, Wanted]) -> Case:
    """Two columns of these names, in one table."""
    columns = [{"name": "id", "sql_name": first, "type": "Integer"}, {"name": "other", "sql_name": second, "type": "Integer"}]
    query = {"from": {"table": "users"}, "calls": [["select", col("users", "other")]]}
    return Case(what, query, wanted, FIVE, [{"name": "users", "columns": columns}], {"users": [(1, 5)]})


def dotted() -> list[Case]:
    """Dots in the names of a table, of its columns and of an alias; and a table whose name is that of another with its schema."""
    columns = [{"name": "id", "sql_name": "c.d", "type": "Integer"}, {"name": "other", "sql_name": "b.c.d", "type": "Integer"}]
    of_columns = {"from": {"alias": "x.y", "of": "users"}, "calls": [["select", of_alias("x.y", "other")]]}
    join = {"join": ["inner", {"table": "users"}, {"table": "others"}], "on": {"eq": [col("users"), col("others")]}}
    tables = [table("users", "id", sql_name="s.t"), table("others", "id", sql_name="t", schema="s")]
    dots = [{"name": "users", "sql_name": "a.b", "columns": columns}]
    return [Case("dots in names", of_columns, alike(FIVE), FIVE, dots, {"users": [(1, 5)]}),
            Case("a dot in a table's name, and a table of that schema", {"from": join, "calls": [["select", col("users")]]}, alike(ONE), ONE,
                 tables, {"users": [(1,), (2,)], "others": [(2,)]})]


def col(of: str, name: str = "id") -> dict[str, Any]:
    return {"col": [of, name]}


def alike(wanted: Wanted) -> dict[str, Wanted]:
    """All three do the same."""
    return {"Pg": wanted, "Mysql": wanted, "Sqlite": wanted}


BOTH: list[Row] = [(1,), (2,)]
ONE: list[Row] = [(2,)]
NONE: list[Row] = []
FIVE: list[Row] = [(5,)]
NO_PLACE: dict[str, Wanted] = {"Pg": "ORDER BY position .* is not in select list", "Mysql": "Unknown column '.' in 'ORDER BY'",
                               "Sqlite": "ORDER BY term out of range"}
EMPTY = "zero-length delimited identifier"
CASES = [
    Case("two aliases that begin with the same 63 bytes, one inside the other", shadowed(LONG + "1", LONG + "2"),
         {**alike(ONE), "Pg": NONE}, ONE),
    Case("two such aliases side by side", beside(LONG + "1", LONG + "2"), {**alike(BOTH), "Pg": "specified more than once"}, BOTH),
    of_two_tables("two tables of such names", LONG + "1", LONG + "2", {**alike(ONE), "Pg": "already exists"}),
    of_two_columns("two columns of such names", LONG + "1", LONG + "2", {**alike(FIVE), "Pg": "specified more than once"}),
    of_two_tables("a table's name of 65 characters", LONG + "12", "b", {**alike(ONE), "Mysql": "Incorrect table name"}),
    Case("two aliases that differ in case, one inside the other", shadowed("u", "U"), {**alike(ONE), "Sqlite": NONE}, ONE),
    Case("a table, and inside an alias that differs in case", inside_table("Users"), {**alike(ONE), "Sqlite": NONE}, ONE),
    Case("two aliases that differ in case side by side", beside("u", "U"), {**alike(BOTH), "Sqlite": "ambiguous column name"}, BOTH),
    of_two_tables("two tables that differ in case", "users", "Users", {**alike(ONE), "Sqlite": "already exists"}),
    of_two_columns("two columns that differ in case", "a", "A",
                   {"Pg": FIVE, "Mysql": "Duplicate column name", "Sqlite": "duplicate column name"}),
    of_two_columns("two columns that differ in an accent", "e", "é", alike(FIVE)),
    Case("two aliases that differ in a blank at the end, one inside the other", shadowed("u", "u "), alike(ONE), ONE),
    Case("two aliases that differ in a blank at the end side by side", beside("u", "u "), alike(BOTH), BOTH),
    of_two_tables("two tables that differ in a blank at the end", "u", "u ", {**alike(ONE), "Mysql": "Incorrect table name"}),
    of_two_columns("two columns that differ in a blank at the end", "a", "a ", {**alike(FIVE), "Mysql": "Incorrect column name"}),
    Case("an empty alias", {"from": {"alias": "", "of": "users"}}, {**alike(BOTH), "Pg": EMPTY}, BOTH),
    Case("an empty alias around another", shadowed("", "u"), {"Pg": EMPTY, "Mysql": NONE, "Sqlite": ONE}, ONE),
    Case("an empty alias beside another", beside("", "u"), {"Pg": EMPTY, "Mysql": "ambiguous", "Sqlite": BOTH}, BOTH),
    *dotted(),
    Case("a position that is greater than the number of columns", ordered_by(2), NO_PLACE),
    Case("the position 0", ordered_by(0), NO_PLACE),
]


def case_fault(ask: Ask, server: Server, case: Case) -> str | None:
    """What is not as the case has it on this server."""
    names = [each["name"] for each in case.tables]
    declared = {"tables": case.tables, "together": [[a, b] for at, a in enumerate(names) for b in names[at + 1:]]}
    request = {"dialect": server.dialect, "query": case.query}
    (answer,) = ask(["build"], {"schema": declared, "requests": [request]})
    if "sql" not in answer:
        return f"the program refuses it: {answer}"
    schema = Schema(declared)
    line, wanted = Line(schema, request, answer), case.wanted[server.dialect]
    if isinstance(case.meaning, list) and not Meaning(schema, case.rows).allows(line.statement, case.meaning):
        return f"docs/MEANING.md does not give {case.meaning}"
    found = outcome(server, schema, case.rows, line)
    as_wanted = bool(re.search(wanted, found)) if isinstance(wanted, str) and isinstance(found, str) else found == wanted
    return None if as_wanted else f"{line.sql}\n    gives {found}, docs/SERVERS.md says {wanted}"


def outcome(server: Server, schema: Schema, rows: Database, line: Line) -> Wanted:
    """The rows in some order of their own, or the message."""
    try:
        for message in schemas.create(server, schema, rows).values():
            return message
        server.prepare(line.sql, line.kinds)
        return sorted(server.execute(line.kinds, line.values)[1])
    except servers.Refused as error:
        return str(error)
    finally:
        server.close()
        server.drop_schemas()


# ---- rights, and what SQLite reads of a join in brackets

SCHEMA = Schema({"tables": [{"name": "users", "columns": [{"name": "id", "type": "Integer"}, {"name": "name", "type": "Text"}]},
                            {"name": "posts", "columns": [{"name": "id", "type": "Integer"}, {"name": "title", "type": "Text"}]}]})
NO_ROWS: Database = {"users": [], "posts": []}


def audit_on_postgres(ask: Ask, server: Postgres) -> Iterator[str]:
    """Where PostgreSQL takes two aliases for one, the audit says the outer leaf of a path, and PostgreSQL the inner one."""
    case = CASES[0]
    declared, request = {"tables": case.tables}, {"dialect": "Pg", "query": case.query}
    schema = Schema(declared)
    line = Line(schema, request, ask(["build"], {"schema": declared, "requests": [request]})[0])
    schemas.create(server, schema, case.rows)
    try:
        PostgresAuditor(server, schema).check(line, ask(["audit", "Pg"], {"schema": declared, "texts": [line.sql]})[0])
        yield "PostgreSQL sees the leaves of the audit where it takes two aliases for one"
    except Fault as error:
        if "for PostgreSQL of leaf" not in str(error):
            yield str(error)
    finally:
        server.drop_schemas()


def rights_on_postgres(_: Ask, server: Postgres) -> Iterator[str]:
    """A lock needs the right to update, beside that to read the columns. A count of rows needs the right to read some column."""
    schemas.create(server, SCHEMA, NO_ROWS)
    count, denied = 'SELECT COUNT(*) FROM "users"', "permission denied for table users"
    locks = [f'SELECT "users"."id" FROM "users" FOR {mode}' for mode in ("UPDATE", "NO KEY UPDATE", "SHARE", "KEY SHARE")]
    try:
        for sql in ("DROP ROLE IF EXISTS reader", "CREATE ROLE reader", "GRANT USAGE ON SCHEMA public TO reader"):
            server.run(sql)
        yield from allowed(as_reader(server, count), denied)
        server.run('GRANT SELECT ("id") ON users TO reader')
        for sql in (count, 'SELECT "users"."id" FROM "users"'):
            yield from allowed(as_reader(server, sql), None)
        for lock in locks:
            yield from allowed(as_reader(server, lock), denied)
        server.run('GRANT UPDATE ("name") ON users TO reader')
        for lock in locks:
            yield from allowed(as_reader(server, lock), None)
    finally:
        server.drop_schemas()
        server.run("DROP ROLE reader")


def as_reader(server: Postgres, sql: str) -> str | None:
    server.run("SET ROLE reader")
    try:
        server.run(sql)
    except servers.Refused as error:
        return str(error)
    finally:
        server.run("RESET ROLE")
    return None


def rights_on_mariadb(_: Ask, server: Mariadb) -> Iterator[str]:
    """FOR UPDATE needs the right to read the columns alone. A count of rows needs the right to read some column."""
    schemas.create(server, SCHEMA, NO_ROWS)
    count = "SELECT COUNT(*) FROM `hardieflax`.`users`"
    try:
        yield from allowed(by_reader(server, count), "denied")
        server.run(f"GRANT SELECT (`id`) ON hardieflax.users TO {READER}")
        for sql in (count, "SELECT `users`.`id` FROM `hardieflax`.`users` FOR UPDATE"):
            yield from allowed(by_reader(server, sql), None)
    finally:
        server.run(f"REVOKE ALL PRIVILEGES, GRANT OPTION FROM {READER}")
        server.drop_schemas()


def by_reader(server: Mariadb, sql: str) -> str | None:
    reader = server.reader()
    try:
        reader.prepare(sql, [])
        reader.execute([], [])
    except servers.Refused as error:
        return str(error)
    finally:
        reader.close()
    return None


def brackets_on_sqlite(_: Ask, server: Sqlite) -> Iterator[str]:
    """A join in brackets on the right of another is a SELECT * for SQLite: its authorizer is asked for each column of its tables."""
    schemas.create(server, SCHEMA, NO_ROWS)
    right = "(`posts` INNER JOIN `posts` AS `p` ON (`p`.`id` = `posts`.`id`))"
    read = server.reads(f"SELECT `users`.`id` FROM (`users` INNER JOIN {right} ON (`users`.`id` = `posts`.`id`))", 0)
    server.drop_schemas()
    seen = {(table, column) for _, table, column in read if column}
    if seen != {("users", "id"), ("posts", "id"), ("posts", "title")}:
        yield f"of a join in brackets the authorizer sees {sorted(seen)}"


def allowed(message: str | None, wanted: str | None) -> Iterator[str]:
    if (message is None) != (wanted is None) or (wanted is not None and message is not None and wanted not in message):
        yield f"rights: the server says {message}, docs/SERVERS.md {wanted}"


OTHERS: dict[str, list[tuple[str, Callable[[Ask, Any], Iterator[str]]]]] = {
    "Pg": [("the rights that a text needs", rights_on_postgres), ("the audit of two aliases that are one", audit_on_postgres)],
    "Mysql": [("the rights that a text needs", rights_on_mariadb)],
    "Sqlite": [("what is read of a join in brackets", brackets_on_sqlite)],
}


def faults(ask: Ask, server: Server) -> Iterator[tuple[str, list[str]]]:
    """Each case with what is wrong of it."""
    for case in CASES:
        fault = case_fault(ask, server, case)
        yield case.what, [] if fault is None else [fault]
    for what, check in OTHERS[server.dialect]:
        yield what, list(check(ask, server))
