"""Holds what the program's audit says of a text against what servers say of it: PostgreSQL by the rule of a view that is made of the text,
SQLite by its authorizer, MariaDB by the grants on columns that the text needs."""
from __future__ import annotations

import contextlib
from collections import Counter
from typing import Any

import rules
import schema as schemas
import servers
import texts
from lines import Fault, Line
from mariadb import READER, Mariadb
from postgres import Postgres
from servers import Server
from sqlite import Sqlite
from statements import Schema


class Use:
    """What the audit says of a text: the table of each leaf, and of each path the table, the column and the leaf."""

    def __init__(self, told: dict[str, Any]) -> None:
        if "refused" in told:
            raise Fault(f"the audit refuses it: {told['refused']}")
        self.tables: list[str] = told["tables"]
        self.columns: list[tuple[str, str]] = [(table, column) for table, column in told["columns"]]
        self.leaves: list[int] = told["sources"]


class Auditor:
    """Asks about the texts of one document. What needs no server is asked of each: the names in the text."""

    def __init__(self, server: Server, schema: Schema) -> None:
        self.server = server
        self.schema = schema
        self.counts: Counter[str] = Counter()
        self.names = {table: self.path(table) for table in schema.tables}

    def path(self, table: str) -> tuple[str, ...]:
        declared = self.schema.tables[table]
        return (*([declared["schema"]] if "schema" in declared else []), declared.get("sql_name", table))

    def column(self, table: str, column: str) -> str:
        return schemas.sql_name(self.schema.columns(table)[self.schema.index[table][column]])

    def check(self, line: Line, told: dict[str, Any]) -> None:
        use = Use(told)
        found = texts.names(self.server.dialect, line.sql)
        if [self.names[table] for table in use.tables] != [path for path, _ in found.leaves]:
            raise Fault(f"audit: leaves {use.tables}, in the text {found.leaves}")
        if [self.column(*each) for each in use.columns] != [path[-1] for _, path in found.paths]:
            raise Fault(f"audit: paths {use.columns}, in the text {found.paths}")
        if [table for table, _ in use.columns] != [use.tables[leaf] for leaf in use.leaves]:
            raise Fault(f"audit: paths {use.columns} of leaves {use.leaves} of {use.tables}")
        self.ask(line, use)

    def ask(self, line: Line, use: Use) -> None:
        """What the server says."""
        raise NotImplementedError

    def count(self, what: str) -> None:
        self.counts["audit: " + what] += 1


def shortened(name: str) -> str:
    """What PostgreSQL keeps of a name."""
    return name.encode()[:63].decode(errors="ignore")


class PostgresAuditor(Auditor):
    server: Postgres

    def __init__(self, server: Postgres, schema: Schema) -> None:
        super().__init__(server, schema)
        found = server.texts("SELECT c.oid, n.nspname, c.relname FROM pg_class c JOIN pg_namespace n ON n.oid = c.relnamespace "
                             "WHERE c.relkind = 'r'")
        by_path = {(space, name): int(number) for number, space, name in found}
        paths = {table: (shortened(path[0]) if len(path) == 2 else "public", shortened(path[-1])) for table, path in self.names.items()}
        self.numbers = {by_path[path]: table for table, path in paths.items() if path in by_path}

    def ask(self, line: Line, use: Use) -> None:
        types = [self.server.types[kind.base] + "[]" * kind.is_list for kind in line.kinds]
        columns = ", ".join(f"c{at}" for at in range(len(line.columns)))
        view = f"CREATE VIEW public.audited({columns}) AS {texts.filled(line.sql, types)}"
        try:
            self.server.run(view)
        except servers.Refused:
            self.count("no view can be made of the text")
            return
        try:
            self.check_depend(use)
            self.check_rule(view, use)
        finally:
            self.server.run("DROP VIEW public.audited")

    def check_depend(self, use: Use) -> None:
        """The columns and tables on which the view depends (pg_depend) are those of the audit."""
        found = self.server.texts(
            "SELECT refobjid, refobjsubid FROM pg_depend WHERE classid = 'pg_rewrite'::regclass AND refclassid = 'pg_class'::regclass AND "
            "objid = (SELECT oid FROM pg_rewrite WHERE ev_class = 'public.audited'::regclass) AND refobjid <> 'public.audited'::regclass")
        tables = {self.numbers[int(relation)] for relation, _ in found}
        columns = {self.named(int(relation), int(column)) for relation, column in found if column != "0"}
        if tables != set(use.tables) or columns != set(use.columns):
            raise Fault(f"audit: {use.tables} and {use.columns}, pg_depend has {sorted(tables)} and {sorted(columns)}")

    def named(self, relation: int, column: int) -> tuple[str, str]:
        table = self.numbers[relation]
        return table, self.schema.columns(table)[column - 1]["name"]

    def check_rule(self, view: str, use: Use) -> None:
        """Each path of which the rule tells the place is of the audit's column, and of its leaf. What an ORDER BY or a GROUP BY repeats of
        the selection the rule has once."""
        names = texts.names("Pg", view.partition(" AS ")[2])
        start = len(view.partition(" AS ")[0].encode()) + len(" AS ")
        by_place = {start + place: at for at, (place, _) in enumerate(names.paths)}
        tree = rules.parsed(self.server.value("SELECT ev_action FROM pg_rewrite WHERE ev_class = 'public.audited'::regclass"))
        leaves: dict[int, int] = {}
        told = set()
        for variable in rules.variables(tree):
            if variable.place < 0:
                continue
            at = by_place.get(variable.place)
            if at is None:
                raise Fault(f"audit: PostgreSQL sees a column at byte {variable.place - start}, where no path stands")
            told.add(at)
            self.check_variable(variable, names, use, at, leaves)
        if len(set(leaves.values())) != len(leaves):
            raise Fault(f"audit: two leaves of PostgreSQL are one of {use.leaves}")
        if told:
            self.check_untold(use, told)
        self.count("paths that a rule tells, with their leaf")

    def check_untold(self, use: Use, told: set[int]) -> None:
        """A path that the rule does not tell repeats one that it tells; a leaf of which it tells no path is of a repeated subselect."""
        leaves = {use.leaves[at] for at in told}
        seen = {(use.columns[at], use.leaves[at]) for at in told}
        for column, leaf in zip(use.columns, use.leaves):
            if (column, leaf) not in seen if leaf in leaves else column not in {each for each, _ in seen}:
                raise Fault(f"audit: {use.columns} of {use.leaves}, and PostgreSQL sees {sorted(seen)}")

    def check_variable(self, variable: rules.Variable, names: texts.Names, use: Use, at: int, leaves: dict[int, int]) -> None:
        column = self.named(variable.leaf.relation, variable.column)
        if column != use.columns[at]:
            raise Fault(f"audit: path {at} is {use.columns[at]}, for PostgreSQL {column}")
        if leaves.setdefault(variable.leaf.identity, use.leaves[at]) != use.leaves[at]:
            raise Fault(f"audit: path {at} is of leaf {use.leaves[at]}, for PostgreSQL of leaf {leaves[variable.leaf.identity]}")
        path, alias = names.leaves[use.leaves[at]]
        if variable.leaf.name != shortened(path[-1] if alias is None else alias):
            raise Fault(f"audit: path {at} is of leaf {use.leaves[at]}, {path} as {alias}, for PostgreSQL of {variable.leaf.name}")


class SqliteAuditor(Auditor):
    server: Sqlite

    def ask(self, line: Line, use: Use) -> None:
        read = self.server.reads(line.sql, len(line.kinds))
        by_path = {(path[0] if len(path) == 2 else "main", path[-1]): table for table, path in self.names.items()}
        told = {(table, self.column(table, column)) for table, column in use.columns}
        seen = {(by_path[schema, table], column) for schema, table, column in read if column}
        # Of a table that is read without a column it tells the name alone, and not where it leaves the subselect out.
        tables, with_columns = {table for _, table, _ in read}, {self.names[table][-1] for table, _ in told}
        if not with_columns <= tables <= {self.names[table][-1] for table in use.tables}:
            raise Fault(f"audit: tables {use.tables}, the authorizer sees {read}")
        if seen == told:
            self.count("columns as the authorizer sees them")
        elif told < seen and "JOIN (" in line.sql:
            self.count("columns, and all those of bracketed joins, as the authorizer sees them")
        else:
            raise Fault(f"audit: {sorted(told)}, the authorizer sees {sorted(seen)}")


class MariadbAuditor(Auditor):
    server: Mariadb

    def ask(self, line: Line, use: Use) -> None:
        """With the grants of the audit the text can be prepared, and without any one of them it can't be."""
        needed = {table: sorted({column for of, column in use.columns if of == table}) for table in use.tables}
        for table, columns in needed.items():
            self.grant("GRANT", table, columns or self.schema.key(table)[:1])
        try:
            self.prepare(line)
            for table, columns in needed.items():
                for column in columns:
                    self.check_needed(line, table, column, columns)
        finally:
            self.server.run(f"REVOKE ALL PRIVILEGES, GRANT OPTION FROM {READER}")
        self.count("grants on columns that suffice and are needed")

    def check_needed(self, line: Line, table: str, column: str, columns: list[str]) -> None:
        self.grant("REVOKE", table, [column])
        try:
            self.prepare(line)
        except Fault:
            return
        finally:
            self.grant("GRANT", table, [column])
        raise Fault(f"audit: MariaDB does not need {column} of {table}, of {columns}")

    def prepare(self, line: Line) -> None:
        reader = self.server.reader()
        with contextlib.suppress(servers.Refused):  # without a right to anything in it, a text needs none of its tables
            reader.run("USE hardieflax")
        try:
            reader.prepare(line.sql, line.kinds)
        except servers.Refused as error:
            raise Fault(f"audit: with these grants MariaDB says: {error}") from error
        finally:
            reader.close()

    def grant(self, verb: str, table: str, columns: list[str]) -> None:
        path = self.names[table] if len(self.names[table]) == 2 else ("hardieflax", *self.names[table])
        names = ", ".join(self.server.quoted(self.column(table, column)) for column in columns)
        to = "TO" if verb == "GRANT" else "FROM"
        self.server.run(f"{verb} SELECT ({names}) ON {'.'.join(map(self.server.quoted, path))} {to} {READER}")


def auditor(server: Server, schema: Schema) -> Auditor:
    if isinstance(server, Postgres):
        return PostgresAuditor(server, schema)
    if isinstance(server, Mariadb):
        return MariadbAuditor(server, schema)
    assert isinstance(server, Sqlite)
    return SqliteAuditor(server, schema)
