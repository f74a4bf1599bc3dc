"""What the front end writes is what it meant: random queries over the blog are worked out here too, row by row, and the rows compared.

This is a second reading of each query, which shares nothing with the package but the calls that make it: conditions are functions of a row
with True, False and None, joins are loops, groups are lists. A guarded session has to answer as a session over the tenant's rows alone.
"""
from __future__ import annotations

import collections
import functools
import itertools
import json
import operator
import os
import random
import unittest
from typing import Any, Callable, ClassVar, Dict, List, Optional, Tuple

import support
from support import Comments, Posts, Users
from hardieflax import Session, alias, all_of, any_of, count, query

Row = Dict[str, Any]
Condition = Tuple[Any, Callable[[Row], Optional[bool]]]
COUNT = int(os.environ.get("HARDIEFLAX_QUERIES", "150"))

COMPARED: Dict[str, Callable[[Any, Any], Any]] = {
    "==": operator.eq, "!=": operator.ne, "<": operator.lt, "<=": operator.le, ">": operator.gt, ">=": operator.ge}
VALUES: Dict[str, List[Any]] = {
    "BigInt": [0, 1, 2, 3, 2**40], "Text": ["", "Sean", "Tess", "Trees", "Birds", "s@x", "no", "%"], "Bool": [True, False],
    "Binary": [b"", b"\x00\xff", b"x"], "SmallInt": [3, 4, 5, -1]}


ANSWERS = alias(Posts, "answers")
# What a tenant sees of each table, as a guard and as a function of a row.
GUARDS: Dict[Any, Condition] = {
    Users: (Users.active, lambda row: bool(row["users.active"])),
    Posts: (Posts.author_id == 1, lambda row: compared("==", row["posts.author_id"], 1)),
    Comments: (Comments.user_id.in_([2, 3]), lambda row: row["comments.user_id"] in (2, 3)),
}


def name_of(table: Any) -> str:
    """The name under which a query reads a table: an alias has its own."""
    return str(json.loads(table.__source__).get("alias", table.__table__))


def rows_of(table: Any) -> List[Row]:
    """The rows of a table, each value under table.column."""
    return [{f"{table.__table__}.{column}": each for column, each in zip(table.__columns__, row)} for row in support.ROWS[table]]


def all_rows() -> Dict[str, List[Row]]:
    """The rows of each table of the blog, by its name."""
    return {table.__table__: rows_of(table) for table in (Users, Posts, Comments)}


def seen_rows() -> Dict[str, List[Row]]:
    """Those that the tenant sees."""
    return {table.__table__: [row for row in rows_of(table) if means(row) is True] for table, (_, means) in GUARDS.items()}


def compared(word: str, left: Any, right: Any) -> Optional[bool]:
    """A comparison as SQL has it."""
    if left is None or right is None:
        return None
    return bool(COMPARED[word](left, right))


def negated(a: Optional[bool]) -> Optional[bool]:
    return None if a is None else not a


def conjunction(each: List[Optional[bool]]) -> Optional[bool]:
    return False if False in each else None if None in each else True


def disjunction(each: List[Optional[bool]]) -> Optional[bool]:
    return negated(conjunction([negated(a) for a in each]))


# A query, its rows, and whether they are ordered.
Made = Tuple[Any, List[Any], bool]
COMBINED: Dict[str, Callable[[List[Any], List[Any]], List[Any]]] = {
    "union": lambda a, b: sorted(set(a + b), key=repr), "union_all": lambda a, b: a + b,
    "intersect": lambda a, b: sorted(set(a) & set(b), key=repr), "except_": lambda a, b: sorted(set(a) - set(b), key=repr)}


class Maker:
    """Makes random queries, with what they mean over these rows of each table."""

    def __init__(self, seed: int, rows: Dict[str, List[Row]]) -> None:
        self.random = random.Random(seed)
        self.rows = rows

    def rows_of(self, table: Any) -> List[Row]:
        """The rows of a table or an alias."""
        name = name_of(table)
        return [{f"{name}.{key.split('.')[1]}": each for key, each in row.items()} for row in self.rows[table.__table__]]

    def column(self, tables: List[Any], base: Optional[str] = None) -> Tuple[Any, str, Any]:
        """(its expression, its name, its type) of some column of the tables."""
        found = [(getattr(table, name), f"{name_of(table)}.{name}", column.type) for table in tables
                 for name, column in table.__columns__.items() if base is None or column.type.base == base]
        return self.random.choice(found)

    def atom(self, tables: List[Any]) -> Condition:
        made, name, type = self.column(tables)
        kind = self.random.randrange(5)
        if kind == 0:
            return (made == None, lambda row: row[name] is None) if self.random.random() < 0.5 else (  # noqa: E711
                made != None, lambda row: row[name] is not None)  # noqa: E711
        if kind == 1:
            some = self.random.sample(VALUES[type.base], self.random.randrange(len(VALUES[type.base])))
            return made.in_(some), lambda row: disjunction([compared("==", row[name], each) for each in some])
        if kind == 2:
            some = self.random.sample(VALUES[type.base], self.random.randrange(len(VALUES[type.base])))
            return made.not_in(some), lambda row: conjunction([compared("!=", row[name], each) for each in some])
        word = self.random.choice(["==", "!=", "<", "<=", ">", ">="])
        if kind == 3:
            other, other_name, _ = self.column(tables, type.base)
            return self.by(word, made, other), lambda row: compared(word, row[name], row[other_name])
        value = self.random.choice(VALUES[type.base])
        return self.by(word, made, value), lambda row: compared(word, row[name], value)

    @staticmethod
    def by(word: str, left: Any, right: Any) -> Any:
        return COMPARED[word](left, right)

    def condition(self, tables: List[Any], depth: int = 3) -> Condition:
        kind = self.random.randrange(5) if depth else 4
        if kind == 0:
            made, means = self.condition(tables, depth - 1)
            return ~made, lambda row: negated(means(row))
        if kind == 1:
            return self.exists(tables)
        if kind in (2, 3):
            some = [self.condition(tables, depth - 1) for _ in range(self.random.randrange(1, 4))]
            join, by, meant = (all_of, operator.and_, conjunction) if kind == 2 else (any_of, operator.or_, disjunction)
            parts = [made for made, _ in some]
            joined = join(*parts) if self.random.random() < 0.5 else functools.reduce(by, parts)
            return joined, lambda row: meant([means(row) for _, means in some])
        return self.atom(tables)

    def exists(self, tables: List[Any]) -> Condition:
        """EXISTS of comments, or IN of their posts, beside the tables around."""
        if Comments in tables:
            return self.atom(tables)
        made, means = self.condition([Comments], 1)
        inner, outer = ("comments.user_id", "users.id") if Users in tables else ("comments.post_id", "posts.id")
        column, key = (Comments.user_id, Users.id) if Users in tables else (Comments.post_id, Posts.id)
        some = self.rows_of(Comments)
        if self.random.random() < 0.5:
            asked: Any = query(Comments).filter(made, column == key).exists()
        else:
            asked = key.in_(query(Comments).filter(made).select(column))
        return asked, lambda row: any(means(each) is True and each[inner] == row[outer] for each in some)

    def query(self) -> Made:
        """Some query of any kind."""
        kinds = [self.counted, self.grouped, self.combined, self.with_single_value, self.distinct]
        return self.plain() if self.random.random() < 0.6 else self.random.choice(kinds)()

    def read(self) -> Tuple[Any, List[Row], List[Any], Any]:
        """(a query that selects nothing yet, its rows, the tables that it reads, one whose row may be missing)."""
        kind = self.random.randrange(4)
        choices: List[List[Any]] = [[Users], [Posts, Users], [Users, Posts], [Posts, ANSWERS]]
        tables = choices[kind]
        made: Any = query(tables[0])
        rows = self.rows_of(tables[0])
        if kind == 1:
            made, rows = made.join(Users), self.joined(rows, Users, lambda row: compared("==", row["posts.author_id"], row["users.id"]))
        if kind == 2:
            on, means = self.condition(tables, 1)
            made, rows = made.left_join(Posts, on), [row for u in rows for row in self.paired(u, Posts, means)]
        if kind == 3:
            made = made.join(ANSWERS, ANSWERS.parent_id == Posts.id)
            rows = self.joined(rows, ANSWERS, lambda row: compared("==", row["answers.parent_id"], row["posts.id"]))
        for _ in range(self.random.randrange(3)):
            condition, holds = self.condition(tables)
            if self.random.random() < 0.7:
                made, rows = made.filter(condition), [row for row in rows if holds(row) is True]
        return made, rows, tables, Posts if kind == 2 else None

    def joined(self, rows: List[Row], table: Any, means: Callable[[Row], Optional[bool]]) -> List[Row]:
        """The pairs of an inner join."""
        pairs = ({**row, **other} for row, other in itertools.product(rows, self.rows_of(table)))
        return [row for row in pairs if means(row) is True]

    def paired(self, row: Row, table: Any, means: Callable[[Row], Optional[bool]]) -> List[Row]:
        """The pairs of a row in a left join."""
        empty = {f"{name_of(table)}.{name}": None for name in table.__columns__}
        return self.joined([row], table, means) or [{**row, **empty}]

    def columns(self, tables: List[Any], missing: Any) -> Tuple[List[Any], List[str]]:
        """Some columns, and their names."""
        some = [self.column(tables) for _ in range(self.random.randrange(1, 4))]
        begin = f"{name_of(missing)}." if missing else "\0"
        return [made.nullable() if name.startswith(begin) else made for made, name, _ in some], [name for _, name, _ in some]

    def plain(self) -> Made:
        """Some columns, in order and a page of them where no row is missing."""
        made, rows, tables, missing = self.read()
        columns, names = self.columns(tables, missing)
        made = made.select(*columns)
        if missing:
            return made, [tuple(row[name] for name in names) for row in rows], False
        keys, begin = [table.id for table in tables], self.random.random() < 0.5
        rows = sorted(rows, key=lambda row: [row[f"{name_of(table)}.id"] for table in tables], reverse=begin)
        made = made.order(*(key.desc() if begin else key for key in keys))
        if self.random.random() < 0.5:
            most, skipped = self.random.randrange(4), self.random.randrange(3)
            made, rows = made.limit(most).offset(skipped), rows[skipped:skipped + most]
        return made, [tuple(row[name] for name in names) for row in rows], True

    def counted(self) -> Made:
        """How many rows there are."""
        made, rows, _, _ = self.read()
        return made.count(), [(len(rows),)], True

    def distinct(self) -> Made:
        """Each row once."""
        made, rows, tables, missing = self.read()
        columns, names = self.columns(tables, missing)
        return made.distinct().select(*columns), list({tuple(row[name] for name in names) for row in rows}), False

    def grouped(self) -> Made:
        """Posts in groups, with how many there are and how many have stars."""
        condition, holds = self.condition([Posts])
        column, name = self.random.choice([(Posts.author_id, "posts.author_id"), (Posts.parent_id, "posts.parent_id")])
        groups: Dict[Any, List[Row]] = collections.defaultdict(list)
        for row in self.rows_of(Posts):
            if holds(row) is True:
                groups[row[name]].append(row)
        made: Any = query(Posts).filter(condition).group_by(column).select(column, count(), count(Posts.stars))
        least = self.random.randrange(3)
        if least:
            made = made.having(count() >= least)
        rows = [(key, len(each), sum(row["posts.stars"] is not None for row in each)) for key, each in groups.items() if len(each) >= least]
        return made, rows, False

    def combined(self) -> Made:
        """A combination of two. The left one's column may be NULL wherever the right one's may."""
        word = self.random.choice(list(COMBINED))
        columns = [(Users, "id"), (Posts, "author_id"), (Posts, "parent_id"), (Comments, "user_id")]
        left, of_left = self.of_one_column(*self.random.choice(columns), may_be_null=True)
        right, of_right = self.of_one_column(*self.random.choice(columns), may_be_null=False)
        return getattr(left, word)(right), COMBINED[word](of_left, of_right), False

    def of_one_column(self, table: Any, name: str, may_be_null: bool) -> Tuple[Any, List[Tuple[Any, ...]]]:
        """A query of a column, and its rows."""
        condition, holds = self.condition([table], 1)
        column, key = getattr(table, name), f"{name_of(table)}.{name}"
        made = query(table).filter(condition).select(column.nullable() if may_be_null else column)
        return made, [(row[key],) for row in self.rows_of(table) if holds(row) is True]

    def with_single_value(self) -> Made:
        """Users, each with the title of the first post of theirs that a condition lets through."""
        condition, holds = self.condition([Posts, Users], 1)
        first = query(Posts).filter(Posts.author_id == Users.id, condition).order(Posts.id).select(Posts.title).single_value()
        rows = []
        for user in sorted(self.rows_of(Users), key=operator.itemgetter("users.id")):
            found = self.joined([user], Posts, lambda row: conjunction([compared("==", row["posts.author_id"], row["users.id"]), holds(row)]))
            titles = [row["posts.title"] for row in sorted(found, key=operator.itemgetter("posts.id"))]
            rows.append((user["users.id"], titles[0] if titles else None))
        return query(Users).order(Users.id).select(Users.id, first), rows, True


class OnADatabase:
    """The same queries on each database."""

    dialect: ClassVar[str]

    def connection(self) -> Any:
        return support.blog() if self.dialect == "Sqlite" else support.server(self.dialect)[0]

    def test_rows_are_what_was_meant(self: Any) -> None:
        connection = self.connection()
        self.compare(Session(support.SCHEMA, connection, engine=support.engine()), all_rows())
        connection.rollback()

    def test_rows_of_a_tenant_are_what_was_meant(self: Any) -> None:
        """A guarded session answers as one over a database that has the tenant's rows alone."""
        connection = self.connection()
        guards = {table: guard for table, (guard, _) in GUARDS.items()}
        self.compare(Session(support.SCHEMA, connection, engine=support.engine(), guards=guards), seen_rows())
        connection.rollback()

    def compare(self: Any, session: Session, rows: Dict[str, List[Row]]) -> None:
        found = 0
        made = [Maker(seed, rows).query() for seed in range(COUNT)]
        session.build_all([each for each, _, _ in made])
        for seed, (asked, wanted, is_ordered) in enumerate(made):
            told = session.all(asked)
            found += bool(told)
            with self.subTest(seed=seed, query=repr(asked), sql=session.build(asked).sql):
                self.assertEqual(told if is_ordered else sorted(told, key=repr), wanted if is_ordered else sorted(wanted, key=repr))
        self.assertGreater(found, COUNT // 4)


class OnSqlite(OnADatabase, unittest.TestCase):
    dialect = "Sqlite"


class OnPostgres(OnADatabase, unittest.TestCase):
    dialect = "Pg"


class OnMariadb(OnADatabase, unittest.TestCase):
    dialect = "Mysql"


if __name__ == "__main__":
    unittest.main()
