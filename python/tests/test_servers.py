"""Sessions on PostgreSQL and MariaDB, which are started here; what is missing is skipped."""
from __future__ import annotations

import asyncio
import datetime
import decimal
import enum
import threading
import unittest
import uuid
from typing import Any, ClassVar, List

import support
from support import Comments, Odd, Posts, Users
from hardieflax import (AsyncSession, BigInt, Binary, Bool, Column, Date, Decimal, Enumeration, Float, HardieflaxError, Integer, Json, NoRow,
                        NotShared, Nullable, Refused, RowError, Schema, SchemaError, Session, SeveralRows, SmallInt, Table, Text, Time,
                        Timestamp, Uuid, alias, nullable, query, select, value)
from hardieflax.drivers import Psycopg, Pymysql


class Mood(enum.Enum):
    OK = "ok"
    SAD = "sad"


class Things(Table, name="things"):
    """A column of each type that a document does not know."""

    id = Column(Integer)
    day = Column(Nullable(Date))
    clock = Column(Nullable(Time))
    moment = Column(Nullable(Timestamp))
    price = Column(Nullable(Decimal))
    weight = Column(Nullable(Float))
    uid = Column(Nullable(Uuid))
    data = Column(Nullable(Json))
    mood = Column(Nullable(Enumeration(Mood)))


THING: Any = (1, datetime.date(2024, 1, 2), datetime.time(12, 30), datetime.datetime(2024, 1, 2, 3, 4, 5, 600), decimal.Decimal("12.50"), 1.5,
              uuid.UUID(int=7), {"a": [1, "é"]}, Mood.SAD)


class OnAServer:
    """What each server is asked."""

    dialect: ClassVar[str]
    things: ClassVar[str]

    def setUp(self) -> None:
        self.engine = support.engine()
        self.connection, self.url = support.server(self.dialect)
        self.session = Session(support.SCHEMA, self.connection, engine=self.engine)

    def tearDown(self) -> None:
        self.connection.rollback()

    def test_rows(self: Any) -> None:
        users = self.session.all(query(Users).order(Users.id))
        self.assertEqual([(u.id, u.email, u.name, u.active, u.avatar) for u in users], support.USERS)
        pairs = self.session.all(query(Users).left_join(Posts).order(Users.id, Posts.id))
        self.assertEqual([(u.id, p and p.id) for u, p in pairs], [(1, 1), (1, 2), (2, 3), (3, None)])
        answers = alias(Posts, "answers")
        asked = query(Posts).join(answers, answers.parent_id == Posts.id).order(answers.id)
        rows = self.session.all(asked if self.dialect == "Sqlite" else asked.for_update())
        self.assertEqual([(p.id, a.id) for p, a in rows], [(1, 2), (1, 3)])
        self.assertEqual(self.session.value(query(Comments).count()), 3)

    def test_values_of_each_type(self: Any) -> None:
        for column, index in ((Users.id, 0), (Users.email, 1), (Users.name, 2), (Users.active, 3), (Users.avatar, 4)):
            for row in support.USERS:
                wanted = [user[0] for user in support.USERS if user[index] == row[index]]
                self.assertEqual(self.session.values(query(Users).filter(column == row[index]).order(Users.id).select(Users.id)), wanted)
                if row[index] is not None:
                    among = query(Users).filter(column.in_([row[index]])).order(Users.id).select(Users.id)
                    self.assertEqual(self.session.values(among), wanted)
        for post in support.POSTS:
            self.assertEqual(self.session.one(query(Posts).filter(Posts.title == post[3])).id, post[0])
        self.assertEqual(self.session.values(query(Posts).filter(Posts.stars.in_([])).select(Posts.id)), [])
        titles = [post[3] for post in support.POSTS]
        self.assertEqual(self.session.values(query(Posts).filter(Posts.title.in_(titles)).order(Posts.id).select(Posts.id)), [1, 2, 3])

    def test_values_without_a_table(self: Any) -> None:
        made = select(value(-5, SmallInt), value(2**40, BigInt), value("%s ? $1 '\\", Text), value(b"\0'%s", Binary), value(True, Bool))
        self.assertEqual(self.session.one(made), (-5, 2**40, "%s ? $1 '\\", b"\0'%s", True))

    def test_odd_names(self: Any) -> None:
        self.assertEqual(self.session.one(query(Odd).filter(Odd.mark == "a")), Odd(id=1, mark="a"))
        self.assertEqual([odd.mark for odd in self.session.all(query(Odd).order(Odd.id))], ["a", None])
        built = self.session.build(query(Odd).filter(Odd.mark == "a", Odd.id == 1))
        driver: Any
        for driver, numbers in ((Psycopg, ["$1", "$2"]), (Pymysql, ["?", "?"])):
            if driver.dialect == self.dialect:
                changed = driver._percent(built.sql)
                self.assertEqual(changed % tuple(numbers), built.sql)

    def test_statements_that_are_used_again(self: Any) -> None:
        for turn in range(12):
            found = self.session.values(query(Users).filter(Users.id == turn % 3 + 1, Users.name != f"{turn}").select(Users.id))
            self.assertEqual(found, [turn % 3 + 1] if turn % 3 < 2 else [])

    def test_types_that_a_document_does_not_know(self: Any) -> None:
        cursor = self.connection.cursor()
        for text in self.things.split(";"):
            cursor.execute(text)
        texts = [str(each.value if isinstance(each, Mood) else each) for each in THING[:7]] + ['{"a": [1, "é"]}', "sad"]
        mark = "?" if self.dialect == "Sqlite" else "%s"
        cursor.execute(f"INSERT INTO things VALUES ({', '.join([mark] * 9)})", texts)
        cursor.execute("INSERT INTO things (id) VALUES (2)")
        session = Session(Schema(Things), self.connection, engine=self.engine)
        full, empty = session.all(query(Things).order(Things.id))
        self.assertEqual(tuple(getattr(full, name) for name in Things.__columns__), THING)
        self.assertEqual([getattr(empty, name) for name in Things.__columns__], [2] + [None] * 8)
        for name, wanted in zip(Things.__columns__, THING):
            if name == "data" and self.dialect == "Mysql":
                continue  # JSON is a text there, but is not compared as what was written
            column: Any = getattr(Things, name)
            self.assertEqual(session.values(query(Things).filter(column == wanted).select(Things.id)), [1], name)
            if name != "data":
                self.assertEqual(session.values(query(Things).filter(column.in_([wanted]), column >= wanted).select(Things.id)), [1], name)
        self.assertEqual(session.build(query(Things).select(Things.day, Things.price)).columns, ("Text?", "Text?"))
        cursor.execute("UPDATE things SET mood = 'ok' WHERE id = 2")
        self.assertEqual(session.values(query(Things).filter(Things.mood == Mood.OK).select(Things.id)), [2])

    def test_a_guarded_session(self: Any) -> None:
        for author, wanted in ((1, [1, 2]), (2, [3])):
            session = Session(support.SCHEMA, self.connection, engine=self.engine, guards={Posts: Posts.author_id == author}, shared=[Users])
            pairs = session.all(query(Users).left_join(Posts).order(Users.id, Posts.id))
            self.assertEqual([p.id for _, p in pairs if p], wanted)
            self.assertEqual(session.value(query(Posts).count()), len(wanted))
            written = query(Posts).filter(Posts.author_id == Users.id)
            self.assertEqual(session.values(query(Users).filter(written.exists()).select(Users.id)), [author])

    def test_a_connection_of_sqlalchemy(self: Any) -> None:
        with self.sqlalchemy_engine().connect() as connection:
            session = Session(support.SCHEMA, connection, engine=self.engine)
            self.assertEqual(session.value(query(Users).count()), 3)

    def sqlalchemy_engine(self: Any) -> Any:
        try:
            import sqlalchemy
            return sqlalchemy.create_engine(self.url, creator=self.connected)
        except (ImportError, Exception) as error:
            raise unittest.SkipTest(f"no SQLAlchemy with a driver for {self.dialect}: {error}")

    def test_nothing_is_lost_of_a_large_answer(self: Any) -> None:
        made = query(Users).join(Posts, Posts.id > 0).join(Comments, Comments.id > 0).join(alias(Users, "a"), Users.active | ~Users.active)
        made = made.join(alias(Posts, "b"), Posts.id > 0).join(alias(Comments, "c"), Posts.id > 0)
        self.assertEqual(len(self.session.all(made.select(Users.id, nullable(Posts)))), 3 ** 6)


class OnSqlite(OnAServer, unittest.TestCase):
    dialect = "Sqlite"
    things = ("CREATE TABLE things (id integer PRIMARY KEY, day date, clock time, moment timestamp, price numeric, weight real, uid text, "
              "data json, mood text)")

    def setUp(self) -> None:
        self.connection = support.blog()
        self.session = Session(support.SCHEMA, self.connection, engine=support.engine())
        self.engine = support.engine()

    def test_a_connection_of_sqlalchemy(self) -> None:
        try:
            import sqlalchemy
        except ImportError as error:
            raise unittest.SkipTest(str(error))
        with sqlalchemy.create_engine("sqlite://", creator=support.blog).connect() as connection:
            self.assertEqual(Session(support.SCHEMA, connection, engine=self.engine).value(query(Users).count()), 3)


class OnPostgres(OnAServer, unittest.TestCase):
    dialect = "Pg"
    things = ("CREATE TYPE mood AS ENUM ('ok', 'sad');CREATE TEMP TABLE things (id integer PRIMARY KEY, day date, clock time, moment timestamp, "
              "price numeric(9, 2), weight float8, uid uuid, data jsonb, mood mood)")

    def connected(self) -> Any:
        raise unittest.SkipTest("SQLAlchemy before 2.0 does not know psycopg 3")

    def test_reflection(self) -> None:
        try:
            import psycopg2  # noqa: F401
            import sqlalchemy
        except ImportError as error:
            raise unittest.SkipTest(str(error))
        self.connection.commit()
        self.connection.cursor().execute(
            "CREATE TYPE colour AS ENUM ('red', 'dark blue'); "
            "CREATE TABLE reflected (id bigint PRIMARY KEY, day date NOT NULL, price numeric, uid uuid, data jsonb, "
            "c colour, place point, author bigint REFERENCES users); CREATE VIEW seen AS SELECT 1")
        self.connection.commit()
        try:
            schema = Schema.reflect(sqlalchemy.create_engine(self.url.replace("postgresql:", "postgresql+psycopg2:")))
            self.assertEqual({name: repr(column.type) for name, column in schema["reflected"].__columns__.items()}, {
                "id": "BigInt", "day": "Date", "price": "Nullable(Decimal)", "uid": "Nullable(Uuid)", "data": "Nullable(Json)",
                "c": "Nullable(Enumeration(Colour))", "author": "Nullable(BigInt)"})
            made: Any = {}
            exec(schema.python(), made)
            self.assertEqual([each.value for each in made["Colour"]], ["red", "dark blue"])
            self.assertEqual(made["schema"].document(), schema.document())
            self.assertIn(("reflected", "author", "users"), schema.relations)
            self.assertTrue(any(note.startswith("seen: is a view") for note in schema.notes))
            self.assertTrue(any(note.startswith("reflected.place: ") for note in schema.notes))
            self.assertEqual(repr(schema["users"].name.type), "Nullable(Text)")
        finally:
            self.connection.cursor().execute("DROP VIEW seen; DROP TABLE reflected; DROP TYPE colour")
            self.connection.commit()

    def test_distinct_on_and_locks(self) -> None:
        made = query(Posts).distinct_on(Posts.author_id).order(Posts.author_id, Posts.id.desc()).select(Posts.id)
        self.assertEqual(self.session.values(made), [2, 3])
        self.assertEqual(len(self.session.all(query(Users).for_no_key_update().skip_locked())), 3)

    def test_a_connection_of_asyncio(self) -> None:
        import psycopg

        async def ask() -> None:
            async with await psycopg.AsyncConnection.connect(self.url) as connection:
                session = AsyncSession(support.SCHEMA, connection, engine=self.engine)
                for name, wanted in (("Sean", [1]), ("Tess", [2]), ("x", [])):
                    self.assertEqual(await session.values(query(Users).filter(Users.name == name, Users.id.in_([1, 2])).select(Users.id)),
                                     wanted)
                self.assertEqual([(u.id, p and p.id) for u, p in await session.all(query(Users).left_join(Posts).order(Users.id, Posts.id))],
                                 [(1, 1), (1, 2), (2, 3), (3, None)])
                self.assertEqual(await session.value(query(Users).count()), 3)
                self.assertIsNone(await session.first(query(Users).filter(Users.id == 9)))
                for made, error in ((query(Users), SeveralRows), (query(Users).filter(Users.id == 9), NoRow), (query(Posts).join(Odd), Refused)):
                    with self.assertRaises(error):
                        await session.one(made)
                tenant = AsyncSession(support.SCHEMA, connection, engine=self.engine, guards={Posts: Posts.author_id == 2}, shared=[Users])
                self.assertEqual([post.id for post in await tenant.all(query(Posts))], [3])
                self.assertEqual(await tenant.value(query(Posts).count()), 1)
                with self.assertRaises(NotShared):
                    await tenant.all(query(Comments))

        asyncio.run(ask())
        with self.assertRaises(HardieflaxError):
            AsyncSession(support.SCHEMA, self.connection, engine=self.engine)

    def test_threads_share_a_connection(self) -> None:
        """A connection of psycopg may be shared, so a session may too."""
        wrong: List[Any] = []

        def ask(number: int) -> None:
            for turn in range(10):
                found = self.session.values(query(Users).filter(Users.id == number, Users.email != f"{turn}").select(Users.id))
                if found != [number]:
                    wrong.append(found)

        threads = [threading.Thread(target=ask, args=(number % 3 + 1,)) for number in range(6)]
        for thread in threads:
            thread.start()
        for thread in threads:
            thread.join()
        self.assertEqual(wrong, [])

    def test_one_text_is_prepared_once(self) -> None:
        self.connection.cursor().execute("DEALLOCATE ALL")
        for number in range(4):
            self.session.all(query(Users).filter(Users.id.in_(range(number)), Users.email == f"{number}"))
        cursor = self.connection.cursor()
        cursor.execute("SELECT statement FROM pg_prepared_statements WHERE statement LIKE '%ANY%'")
        self.assertEqual(len(cursor.fetchall()), 1)

    def test_the_server_gets_the_text_as_it_is(self) -> None:
        built = self.session.build(query(Odd).filter(Odd.mark == "a", Odd.id.in_([1])))
        driver = Psycopg(self.connection)
        cursor = driver.cursor()
        cursor.execute(*driver.words(built.sql, built.binds))
        self.assertEqual(cursor._query.query.decode(), built.sql)
        self.assertEqual(list(cursor._query.types), [25, 1007])


class OnMariadb(OnAServer, unittest.TestCase):
    dialect = "Mysql"
    things = ("CREATE TEMPORARY TABLE things (id integer PRIMARY KEY, day date, clock time, moment datetime(6), price numeric(9, 2), "
              "weight double, uid varchar(36), data json, mood enum('ok', 'sad'))")

    def connected(self) -> Any:
        import pymysql
        return pymysql.connect(unix_socket=self.url.split("=")[1], user="root", charset="utf8mb4", database="blog")

    def test_reflection(self) -> None:
        cursor = self.connection.cursor()
        cursor.execute("CREATE TABLE reflected (id bigint unsigned PRIMARY KEY, small tinyint, flag tinyint(1) NOT NULL, day date, "
                       "mood enum('a'), author bigint, FOREIGN KEY (author) REFERENCES users (id))")
        try:
            schema = Schema.reflect(self.sqlalchemy_engine(), only=["reflected", "users"])
            self.assertEqual({name: repr(column.type) for name, column in schema["reflected"].__columns__.items()}, {
                "id": "BigInt", "small": "Nullable(SmallInt)", "flag": "Bool", "day": "Nullable(Date)",
                "mood": "Nullable(Enumeration(ReflectedMood))", "author": "Nullable(BigInt)"})
            self.assertIn(("reflected", "author", "users"), schema.relations)
            self.assertTrue(any("BIGINT UNSIGNED" in note for note in schema.notes))
            with self.assertRaises(SchemaError):
                Schema.reflect(self.sqlalchemy_engine(), only=["nobody"])
        finally:
            cursor.execute("DROP TABLE reflected")

    def test_a_value_that_the_schema_denies(self) -> None:
        class Narrow(Table, name="users"):
            id = Column(BigInt)
            email = Column(Date)

        with self.assertRaises(RowError):
            Session(Schema(Narrow), self.connection, engine=self.engine).all(query(Narrow))


if __name__ == "__main__":
    unittest.main()
