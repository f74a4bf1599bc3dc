"""Requests a second from Python: this package beside SQLAlchemy Core, in one run.

    HARDIEFLAX_PROGRAM=.. HARDIEFLAX_LIBRARY=.. python3 bench/requests_a_second.py [SECONDS]

Each request is a query that is made anew, with values of its own, and becomes a text with its values in order. A round has three shapes: one
table, a join with four conditions, a left join with a list of five values. Nothing is sent to a database. A second is one of processor time,
that of programs that were started too, so that a busy machine changes little. The best of five rounds of each way is told, and the ways take
turns.
"""
from __future__ import annotations

import os
import pathlib
import sys
from typing import Any, Callable, Dict, List

sys.path.insert(0, str(pathlib.Path(__file__).resolve().parent.parent / "src"))

import sqlalchemy as sa  # noqa: E402
from sqlalchemy.dialects import sqlite  # noqa: E402
from hardieflax import BigInt, Bool, Column, Engine, Library, Nullable, Program, Schema, Session, Table, Text, query  # noqa: E402
from hardieflax.plans import Planner, Request  # noqa: E402


class Users(Table, name="users"):
    """Who writes posts."""

    id = Column(BigInt)
    email = Column(Text)
    name = Column(Nullable(Text))
    active = Column(Bool)


class Posts(Table, name="posts"):
    """What users write."""

    id = Column(BigInt)
    author_id = Column(BigInt, references=Users)
    title = Column(Text)


METADATA = sa.MetaData()
USERS = sa.Table("users", METADATA, sa.Column("id", sa.BigInteger, primary_key=True), sa.Column("email", sa.Text, nullable=False),
                 sa.Column("name", sa.Text), sa.Column("active", sa.Boolean, nullable=False))
POSTS = sa.Table("posts", METADATA, sa.Column("id", sa.BigInteger, primary_key=True),
                 sa.Column("author_id", sa.BigInteger, sa.ForeignKey("users.id"), nullable=False), sa.Column("title", sa.Text, nullable=False))


def ours(number: int) -> List[Any]:
    """The three queries by this package."""
    return [
        query(Users).filter(Users.name == f"n{number}").limit(10),
        query(Users).join(Posts).filter(Users.name == f"n{number}", Users.active, Posts.id > number, Posts.title != "x")
        .order(Posts.id.desc()).limit(number % 50),
        query(Users).left_join(Posts).filter(Users.id.in_([number, 2, 3, 4, 5])).select(Users.id, Posts.title.nullable()).order(Users.id),
    ]


def theirs(number: int) -> List[Any]:
    """The same queries by SQLAlchemy Core."""
    return [
        sa.select(USERS).where(USERS.c.name == f"n{number}").limit(10),
        sa.select(USERS, POSTS).join_from(USERS, POSTS).where(USERS.c.name == f"n{number}", USERS.c.active, POSTS.c.id > number,
                                                              POSTS.c.title != "x")
        .order_by(POSTS.c.id.desc()).limit(number % 50),
        sa.select(USERS.c.id, POSTS.c.title).join_from(USERS, POSTS, isouter=True).where(USERS.c.id.in_([number, 2, 3, 4, 5]))
        .order_by(USERS.c.id),
    ]


DIALECT = sqlite.dialect(paramstyle="qmark")


def values_of(compiled: Any, **extracted: Any) -> Any:
    """The text and the values in order, as SQLAlchemy gives them to a driver: lists are written out for each execution."""
    parameters = compiled.construct_params(**extracted)
    state = compiled._process_parameters_for_postcompile(parameters) if compiled.post_compile_params else None
    order = state.positiontup if state is not None else compiled.positiontup
    values = {**parameters, **state.additional_parameters} if state is not None else parameters
    return (state.statement if state is not None else compiled.string), [values[name] for name in order]


def by_sqlalchemy(number: int) -> None:
    """Compiled anew for each request."""
    for each in theirs(number):
        values_of(each.compile(dialect=DIALECT))


CACHE: Dict[Any, Any] = {}


def by_sqlalchemy_cached(number: int) -> None:
    """Compiled once for each shape, as an execution does."""
    for each in theirs(number):
        compiled, extracted, _ = each._compile_w_cache(DIALECT, compiled_cache=CACHE, column_keys=[])
        values_of(compiled, extracted_parameters=extracted)


SESSION = Session(Schema(Users, Posts), dialect="Sqlite")


def by_hardieflax(number: int) -> None:
    """Each shape asked for once."""
    for each in ours(number):
        built = SESSION.build(each)
        built.sql, built.values


def anew(engine: Engine) -> Callable[[int], None]:
    """An engine asked for each request, a hundred rounds in one document."""
    planner = Planner(SESSION.schema, engine)

    def way(number: int) -> None:
        queries = [each for turn in range(100) for each in ours(number + turn)]
        for each, plan in zip(queries, planner._made([Request("Sqlite", each, None) for each in queries])):
            SESSION._built(each, plan).values

    return way


def processor_time() -> float:
    """Seconds of processor time of this process, and of those that it started and that have ended."""
    return sum(os.times()[:4])


def timed(way: Callable[[int], None], seconds: float, rounds: int) -> float:
    """Requests a second of a way that makes three requests a round."""
    begin, number = processor_time(), 0
    while processor_time() - begin < seconds:
        for _ in range(1 if rounds > 1 else 20):
            way(number)
            number += 1
    return 3 * rounds * number / (processor_time() - begin)


def main() -> None:
    """Prints a line for each way."""
    seconds = float(sys.argv[1]) if len(sys.argv) > 1 else 2.0
    ways: Dict[str, Any] = {
        "hardieflax, each shape asked for once": (by_hardieflax, 1), f"SQLAlchemy {sa.__version__}, with its cache": (by_sqlalchemy_cached, 1),
        f"SQLAlchemy {sa.__version__}, without": (by_sqlalchemy, 1)}
    for name, made in (("program", Program), ("library", Library)):
        path = os.environ.get(f"HARDIEFLAX_{name.upper()}")
        if path:
            ways[f"hardieflax, the {name} asked for each"] = (anew(made(path)), 100)
    best = dict.fromkeys(ways, 0.0)
    for _ in range(5):
        for name, (way, rounds) in ways.items():
            best[name] = max(best[name], timed(way, seconds / 5, rounds))
    for name, each in best.items():
        print(f"{each:10,.0f} requests a second: {name}")


if __name__ == "__main__":
    main()
