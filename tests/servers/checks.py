"""What is asked of a server about each accepted line of a document."""
from __future__ import annotations

import functools
from collections import Counter
from typing import Any, Iterator, Sequence

import values
from lines import Fault, Line
from meaning import NULL_PLACES, Meaning, NoMeaning, TooManyAnswers
from readings import (OfStatement, as_servers_read, by_position, by_position_after, distinct_after_page, with_lost_offsets,
                      with_open_combinations, without_negative_offsets)
from servers import Server
from statements import Database, Row, Schema, Statement, expression, is_determined, is_grouped, tables_of

# What servers are known to answer otherwise: by the dialect, "" being each.
DIFFERENCES: dict[str, list[tuple[str, OfStatement]]] = {
    "": [("as servers read NOT", as_servers_read)],
    "Mysql": [("a bound number in ORDER BY or GROUP BY being a position", by_position),
              ("a negative offset being past all rows", without_negative_offsets),
              ("EXISTS of, or a membership in, a combination being open", with_open_combinations),
              ("DISTINCT over values being a limit after the offset", distinct_after_page)],
    "Sqlite": [("DISTINCT with an offset in a subselect", with_lost_offsets)],
}
Policy = dict[str, Any]  # a table of the schema, and a predicate on its rows or none


def kept_rows(schema: Schema, database: Database, policies: Sequence[Policy]) -> Database:
    """The database in which each table has the rows alone for which all its predicates are true."""
    kept = dict(database)
    for policy in policies:
        if "predicate" in policy:
            meaning = Meaning(schema, kept)
            predicate, origin = expression(schema, policy["predicate"]), (None, policy["table"])
            kept[policy["table"]] = [row for row in kept[policy["table"]] if meaning.values(predicate, {origin: row}) == (True,)]
    return kept


class Checker:
    """Asks one server about the lines of one document, over one database."""

    def __init__(self, server: Server, schema: Schema, database: Database, refused_tables: dict[str, str]) -> None:
        self.server = server
        self.meaning = Meaning(schema, database)
        self.refused_tables = refused_tables
        self.first: Line | None = None
        self.asked: Line | None = None
        self.counts: Counter[str] = Counter()

    def count(self, what: str) -> None:
        self.counts[what] += 1

    def missing_table(self, line: Line) -> str | None:
        """Why the server did not make a table of the line."""
        for name in sorted(tables_of(line.statement) & set(self.refused_tables)):
            return self.refused_tables[name]
        return None

    def check(self, line: Line, other: Line | None) -> list[Row]:
        """Asks about a line, and with the same prepared text about one that has other values. The rows of the first. A Fault or a Refused
        where it fails, and then `asked` is the one of the two."""
        self.first = self.asked = line
        try:
            placeholders, columns = self.server.prepare(line.sql, line.kinds)
            if placeholders != len(line.values):
                raise Fault(f"{placeholders} placeholders and {len(line.values)} values")
            self.check_columns(line, columns)
            rows = self.execute(line)
            if other is not None:
                self.asked = other
                self.execute(other)
                self.count("other values")
            return rows
        finally:
            self.server.close()

    def check_cut(self, line: Line, guarded: Sequence[Row], statement: Statement) -> None:
        """A plain line over a database that is really cut gives the rows that the guarded line gave over the whole, or, where SQL leaves a
        choice, rows that are an answer as those are."""
        rows = self.check(line, None)
        if Counter(rows) == Counter(guarded):
            self.count("rows of guard as over a cut database")
        elif is_determined(statement):
            raise Fault(f"rows {list(guarded)}, and over a cut database {rows}")
        else:
            self.count("rows of guard and over a cut database, both allowed")

    def execute(self, line: Line) -> list[Row]:
        columns, rows = self.server.execute(line.kinds, line.values)
        self.check_columns(line, columns, rows)
        for row in rows:
            for told, value in zip(line.columns, row):
                wrong = values.fault(told, value)
                if wrong is not None:
                    raise Fault(wrong)
        self.count("executed, with rows" if rows else "executed, without rows")
        if is_grouped(line.statement):
            self.count("executed with groups, with rows" if rows else "executed with groups, without rows")
        seen = [tuple(values.seen(told, value) for told, value in zip(line.columns, row)) for row in rows]
        self.check_rows(line, seen)
        return seen

    def check_columns(self, line: Line, columns: Sequence[Any] | None, rows: Sequence[Row] = ()) -> None:
        """As many columns as told, and of the types told: PostgreSQL's are exact, MariaDB's a class, and SQLite has none. MariaDB tells a
        bound NULL as binary, so there a column is looked at where it has a value."""
        if columns is None:
            return
        if len(columns) != len(line.columns):
            raise Fault(f"{len(columns)} columns, told {len(line.columns)}")
        for at, (told, column) in enumerate(zip(line.columns, columns)):
            base = told.rstrip("?")
            wanted = base if self.server.has_types else {"Text": "text", "Binary": "binary"}.get(base, "number")
            is_seen = self.server.has_types or any(row[at] is not None for row in rows)
            if column is not None and column != wanted and is_seen:
                raise Fault(f"column {at + 1} is of type {column}, told {told}")

    def check_rows(self, line: Line, rows: list[Row]) -> None:
        """The rows are among the answers that docs/MEANING.md allows."""
        places = NULL_PLACES[self.server.dialect]
        try:
            for what, change in self.readings():
                if self.meaning.is_answer(change(line.statement), rows, places):
                    self.count("rows allowed" + what)
                    return
            raise Fault(f"rows {rows}, an answer is {self.meaning.an_answer(line.statement, places)}")
        except NoMeaning:
            self.count("rows without a meaning (COUNT in ON)")
        except TooManyAnswers:
            self.count("rows with too many answers to follow")

    def readings(self) -> Iterator[tuple[str, OfStatement]]:
        """The statement itself, and then what is known to differ from it (docs/SERVERS.md): each alone, and all at once."""
        known = DIFFERENCES[""] + DIFFERENCES.get(self.server.dialect, [])
        if self.server.dialect == "Mysql" and self.first is not None and self.asked is not self.first:
            known = known + [("an item of an order being lost since the first execution", by_position_after(self.first.statement))]
        changes: list[tuple[str, list[OfStatement]]] = [
            ("", []), *((f", {what}", [change]) for what, change in known), (", several of these", [change for _, change in known])]
        for what, chosen in changes:
            yield what, functools.partial(changed, chosen)


def changed(changes: Sequence[OfStatement], statement: Statement) -> Statement:
    """The statement after these changes."""
    for change in changes:
        statement = change(statement)
    return statement
