"""Sessions over SQLite, by the program: rows, refusals, plans."""
from __future__ import annotations

import copy
import json
import pickle
import sqlite3
import threading
import unittest
from typing import Any, List, Sequence, cast

import support
from support import Comments, Odd, Posts, Users
from hardieflax import (EngineError, HardieflaxError, Integer, NoRow, Nullable, Program, Refused, RowError, Schema, SchemaError, Session,
                        SeveralRows, Table,
                        Column, Text, Bool, alias, all_of, count, nullable, query, select, value)
from hardieflax.plans import Planner, Request


class Rows(unittest.TestCase):
    def setUp(self) -> None:
        self.connection = support.blog()
        self.session = Session(support.SCHEMA, self.connection, engine=support.engine())

    def test_rows_of_a_table(self) -> None:
        users = self.session.all(query(Users).order(Users.id))
        self.assertEqual([(u.id, u.email, u.name, u.active, u.avatar) for u in users], support.USERS)
        self.assertIs(users[0].active, True)
        self.assertIsInstance(users[0], Users)

    def test_rows_of_joins(self) -> None:
        pairs = self.session.all(query(Users).left_join(Posts).order(Users.id, Posts.id))
        self.assertEqual([(u.name, p and p.title) for u, p in pairs], [("Sean", "Trees"), ("Sean", "Birds"), ("Tess", support.POSTS[2][3]),
                                                                       (None, None)])
        three = self.session.all(query(Posts).join(Users).left_join(Comments).order(Posts.id, Comments.id))
        self.assertEqual([(p.id, u.id, c and c.id) for p, u, c in three], [(1, 1, 1), (1, 1, 2), (2, 1, None), (3, 2, 3)])
        pages = self.session.all(query(Posts).join(Users).select(Users, Posts.title, nullable(Posts)).limit(1))
        self.assertEqual(pages[0][1], pages[0][2].title if pages[0][2] else None)

    def test_aliases(self) -> None:
        answers = alias(Posts, "answers")
        rows = self.session.all(query(Posts).join(answers, answers.parent_id == Posts.id).order(answers.id))
        self.assertEqual([(p.id, a.id) for p, a in rows], [(1, 2), (1, 3)])
        self.assertEqual(repr(rows[0][1])[:12], "Posts(id=2, ")

    def test_odd_names(self) -> None:
        self.assertEqual(self.session.values(query(Odd).filter(Odd.mark == "a").select(Odd.mark)), ["a"])

    def test_ways_to_ask(self) -> None:
        ids = query(Users).order(Users.id).select(Users.id)
        self.assertEqual(self.session.values(ids), [1, 2, 3])
        self.assertEqual(self.session.first(ids), (1,))
        self.assertIsNone(self.session.first(query(Users).filter(Users.id == 9)))
        self.assertEqual(self.session.one(query(Users).find(2)).name, "Tess")
        self.assertEqual(self.session.value(query(Users).count()), 3)
        self.assertEqual(next(self.session.rows(ids)), (1,))
        with self.assertRaises(NoRow):
            self.session.one(query(Users).find(9))
        with self.assertRaises(SeveralRows):
            self.session.one(query(Users))

    def test_groups_and_combinations(self) -> None:
        rows = self.session.all(query(Posts).group_by(Posts.author_id).select(Posts.author_id, count()).order(Posts.author_id))
        self.assertEqual(rows, [(1, 2), (2, 1)])
        union = query(Users).select(Users.id).except_(query(Posts).select(Posts.author_id)).positional_order_by((1, "desc"))
        self.assertEqual(self.session.values(union), [3])

    def test_values_without_a_table(self) -> None:
        self.assertEqual(self.session.one(select(value("x", Text), value(None, Nullable(Integer)), value(True, Bool))), ("x", None, True))

    def test_what_the_database_has_otherwise(self) -> None:
        self.connection.execute("UPDATE users SET email = 5 WHERE id = 1")
        self.connection.execute("PRAGMA ignore_check_constraints = 1")
        self.connection.execute("UPDATE users SET email = x'00' WHERE id = 1")
        with self.assertRaises(RowError):
            self.session.all(query(Users))

    def test_a_session_without_a_connection(self) -> None:
        session = Session(support.SCHEMA, dialect="Bracket", engine=support.engine())
        built = session.build(query(Users).select(Users.id).limit(3))
        self.assertIn("OFFSET 0 ROWS FETCH NEXT @p1 ROWS ONLY", built.sql)
        self.assertEqual((built.values, built.columns, built.safe), ([3], ("BigInt",), True))
        with self.assertRaises(HardieflaxError):
            session.all(query(Users))
        wrong: Any
        for wrong in ({}, {"dialect": "Oracle"}, {"connection": self.connection, "dialect": "Pg"}, {"connection": "x"}):
            with self.assertRaises(HardieflaxError):
                Session(support.SCHEMA, engine=support.engine(), **wrong)

    def test_row_factories_are_left_aside(self) -> None:
        self.connection.row_factory = sqlite3.Row
        self.assertEqual(self.session.value(query(Users).count()), 3)

    def test_a_table_that_is_not_in_the_schema(self) -> None:
        class Tags(Table, name="tags"):
            id = Column(Integer)

        class User(Table, name="user"):
            id = Column(Integer)

        with self.assertRaisesRegex(SchemaError, "tags, which is not in the schema"):
            self.session.build(query(Tags))
        with self.assertRaisesRegex(SchemaError, "did you mean 'users'"):
            self.session.build(query(User))


class Refusals(unittest.TestCase):
    def setUp(self) -> None:
        self.session = Session(support.SCHEMA, dialect="Sqlite", engine=support.engine())

    def refused(self, made: Any) -> Refused:
        with self.assertRaises(Refused) as caught:
            self.session.build(made)
        return caught.exception

    def test_each_rule_and_its_part(self) -> None:
        users, u2, any_users = query(Users), alias(Users, "u2"), cast(Any, Users)
        cases: Any = [
            (users.distinct().for_update(), "Incompatible", ".for_update()"),
            (users.select(Users.id).order(), "EmptyList", ".order()"),
            (query(Posts).join(Odd), "NoRelation", ".join(odd)"),
            (users.join(Users, Users.active), "Ambiguous", ".join(users, users.active)"),
            (users.join(alias(Users, "users"), Users.active), "NameClash", ".join(alias(users, 'users'), users.active)"),
            (users.filter(Users.active, Posts.id == 1), "NotInScope", "(posts.id == <BigInt>), in filter"),
            (users.filter(Users.active & (Users.id == Posts.id)), "NotInScope", "(users.id == posts.id), in filter"),
            (users.filter(any_users.id == Users.email), "TypeMismatch", "(users.id == users.email), whose sides are BigInt and Text, in filter"),
            (users.left_join(Posts).select(Users.id, Posts.title), "NeedsNullable", ".left_join(posts)"),
            (users.select(Users.id, count()), "Grouping", "users.id"),
            (users.for_update(), "Unsupported", ".for_update()"),
            (users.filter(u2.active), "NotInScope", ".filter(u2.active)"),
            (users.filter(Posts.id == 1).order(Posts.id), "NotInScope", "(posts.id == <BigInt>), in filter"),
        ]
        for made, rule, part in cases:
            with self.subTest(rule=rule):
                error = self.refused(made)
                self.assertEqual(error.rule, rule)
                self.assertTrue(any(part in each for each in error.parts), error.parts)
                self.assertIn("mend: ", str(error))

    def test_a_refusal_is_remembered(self) -> None:
        made = query(Users).filter(Posts.id == 1)
        first, before = self.refused(made), self.session._planner.asked
        second = self.refused(query(Users).filter(Posts.id == 2))
        self.assertEqual((str(first), self.session._planner.asked), (str(second), before))
        self.assertIsNot(first, second)

    def test_a_refusal_is_copied_and_pickled(self) -> None:
        error = self.refused(query(Users).for_update())
        for again in (copy.copy(error), pickle.loads(pickle.dumps(error))):
            self.assertEqual((str(again), again.parts), (str(error), error.parts))

    def test_answers_beside_refusals(self) -> None:
        answers = self.session.answer_all([query(Users), query(Users).for_update(), query(Users).limit(1)])
        self.assertEqual([isinstance(each, Refused) for each in answers], [False, True, False])
        with self.assertRaises(Refused):
            self.session.build_all([query(Users), query(Users).for_update()])

    def test_too_deep(self) -> None:
        deep = query(Users)
        for _ in range(2600):
            deep = deep.filter(Users.active)
        nested = Users.active
        for _ in range(130):
            nested = ~nested
        for made, status in ((deep, 6), (query(Users).filter(nested), 3)):
            with self.assertRaises(EngineError) as caught:
                self.session.build_all([query(Users), made, query(Users).limit(3)])
            self.assertEqual(caught.exception.status, status)
        many = all_of(*(Users.id != number for number in range(3000)))
        self.assertEqual(len(self.session.build(query(Users).filter(many)).values), 3000)


class Explaining:
    """An engine with a command `explain`, which points to a part of each request that the rule TypeMismatch refuses."""

    def __init__(self, at: str) -> None:
        self.at, self.words = at, [""]

    def has(self, command: str) -> bool:
        return command in ("build", "tenant", "explain")

    def run(self, command: Sequence[str], document: bytes) -> bytes:
        if command[0] != "explain":
            return Program(support.needed_program()).run(command, document)
        self.words = list(command)
        line = {"at": self.at, "line": 1, "column": 1, "refused": "TypeMismatch", "request": 1, "says": "its sides are BigInt and Text"}
        return json.dumps(line).encode() + b"\n"


class Explanations(unittest.TestCase):
    def test_what_the_engine_explains(self) -> None:
        made = query(Users).filter(cast(Any, Users).id == Users.email)
        for at, wanted in (("/requests/0/query/calls/0/1", "(users.id == users.email): its sides are BigInt and Text, in filter"),
                           ("/requests/0/query/calls/0/1/eq/1", "users.email: its sides are BigInt and Text, in filter"),
                           ("/requests/0/query/calls/0", ".filter((users.id == users.email)): its sides are BigInt and Text"),
                           ("/requests/0/query/calls/7", "(users.id == users.email), whose sides are BigInt and Text, in filter"),
                           ("/requests/0/query", "(users.id == users.email), whose sides are BigInt and Text, in filter")):
            with self.assertRaises(Refused) as caught:
                Session(Schema(*support.SCHEMA), dialect="Pg", engine=Explaining(at)).build(made)
            self.assertEqual(caught.exception.parts, (wanted,))

    def test_the_words_of_the_command(self) -> None:
        guards = {Posts: Posts.id == 1}
        for options, words in (({}, ["explain"]), ({"guards": guards, "shared": [Users]}, ["explain", "tenant"])):
            engine, more = Explaining("/requests/0/query"), cast(Any, options)
            with self.assertRaises(Refused):
                Session(Schema(*support.SCHEMA), dialect="Pg", engine=engine, **more).build(query(Users).filter(cast(Any, Users).id == Users.email))
            self.assertEqual(engine.words, words)


class Plans(unittest.TestCase):
    def setUp(self) -> None:
        self.planner = Planner(Schema(*support.SCHEMA), support.engine())

    def built(self, dialect: str, made: Any) -> Any:
        return self.planner.plans([Request(dialect, made, None)])[0]

    def test_a_shape_is_asked_for_once(self) -> None:
        def made(name: Any, number: int) -> Any:
            return query(Users).filter(Users.name == name, Users.active == bool(number % 2)).limit(number)
        first = self.built("Pg", made("a", 1))
        asked = self.planner.asked
        for name, number in (("b", 2), ("\0", 3)):
            self.assertIs(self.built("Pg", made(name, number)), first)
            self.assertEqual([each.python() for each in first.binds(made(name, number).values)], [name, bool(number % 2), number])
        self.assertEqual(self.planner.asked, asked)

    def test_values_stand_in_the_order_of_the_text(self) -> None:
        made: Any = query(Users).limit(5).offset(6).filter(Users.active == True, Users.avatar == b"\7")  # noqa: E712
        made = made.having(Users.name == "x").group_by(Users.id)
        made = made.filter(Users.id.in_([8, 9]), Users.active == False).select(Users.id)  # noqa: E712
        for dialect, wanted in (("Sqlite", [True, b"\7", 8, 9, False, "x", 5, 6]), ("Bracket", [True, b"\7", 8, 9, False, "x", 6, 5]),
                                ("Pg", [True, b"\7", [8, 9], False, "x", 5, 6])):
            plan = self.built(dialect, made)
            self.assertEqual([each.python() for each in plan.binds(made.values)], wanted)

    def test_a_value_of_the_text_itself(self) -> None:
        """A single value binds its limit, 1, in place of the query's own."""
        of_posts = query(Posts).filter(Posts.author_id == Users.id, Posts.title != "x").select(Posts.title)
        session = Session(support.SCHEMA, support.blog(), engine=support.engine())
        for first in (of_posts.order(Posts.id), of_posts.order(Posts.id).limit(7)):
            made = query(Users).select(first.single_value(), Users.id).order(Users.id).limit(2)
            self.assertEqual(session.build(made).values, ["x", 1, 2])
            self.assertEqual(session.all(made), [("Trees", 1), ("it's 100% \\ \"true\"", 2)])
        alone = query(Users).select(query(Posts).select(Posts.id).order(Posts.id).single_value())
        self.assertEqual((session.build(alone).values, session.values(alone)), ([1], [1, 1, 1]))

    def test_lengths_of_lists(self) -> None:
        def made(*numbers: int) -> Any:
            return query(Users).filter(Users.id.in_(numbers), Users.id.not_in(numbers[1:]))
        for dialect in ("Pg", "Sqlite"):
            lists: List[Any] = [(), (1,), (1, 2), (3, 4)]
            plans = [self.built(dialect, made(*each)) for each in lists]
            self.assertEqual(len(set(map(id, plans))), 1 if dialect == "Pg" else 3)
            for numbers, plan in zip(lists, plans):
                told = [each.python() for each in plan.binds(made(*numbers).values)]
                self.assertEqual(told, [list(numbers), list(numbers[1:])] if dialect == "Pg" else [*numbers, *numbers[1:]])

    def test_ids(self) -> None:
        def made(number: int) -> Any:
            return query(Users).filter(Users.id == number)
        first, other, listed = self.built("Pg", made(1)), self.built("Pg", made(1).limit(1)), self.built("Pg",
                                                                                                         query(Users).filter(Users.id.in_([1])))
        self.assertEqual((self.built("Pg", made(2)).id, listed.id), (first.id, None))
        self.assertNotEqual(first.id, other.id)

    def test_a_document_that_is_too_large_is_halved(self) -> None:
        text = "x" * 9_000_000
        made = [query(Users).filter(Users.email == text).limit(1), query(Users).filter(Users.email == text), query(Users)]
        plans = self.planner.plans([Request("Sqlite", each, None) for each in made])
        self.assertEqual(["sql" in getattr(plan, "_fields", ()) for plan in plans], [True, True, True])
        with self.assertRaises(EngineError) as caught:
            Session(support.SCHEMA, dialect="Pg", engine=support.engine()).build(query(Users).filter(Users.email == text * 2))
        self.assertEqual(caught.exception.status, 7)

    def test_many_tables(self) -> None:
        made: List[Any] = [type(f"T{number}", (Table,), {"id": Column(Integer)}, name=f"t{number}") for number in range(400)]
        session = Session(Schema(*made), dialect="Pg", engine=support.engine())
        built: List[Any] = session.build_all([query(each) for each in made])
        self.assertEqual([each.sql for each in built][399], 'SELECT "t399"."id" FROM "t399"')

    def test_no_more_than_the_capacity_is_kept(self) -> None:
        small = Planner(support.SCHEMA, support.engine(), capacity=2)
        for number in range(4):
            made = all_of(*([Users.active] * (number + 1)))
            small.plans([Request("Pg", query(Users).filter(made), None)])
        self.assertEqual(len(small._plans), 2)
        small.plans([Request("Pg", query(Users).filter(all_of(*([Users.active] * 3000))), None)])
        self.assertEqual(max(len(key[2]) for key in small._plans), max(len(key[2]) for key in small._plans if len(key[2]) < 65536))

    def test_threads_share_a_session(self) -> None:
        session, wrong = Session(support.SCHEMA, dialect="Pg", engine=support.engine()), []

        def ask(number: int) -> None:
            for turn in range(20):
                built = session.build(query(Users).filter(Users.id == number, Users.name == f"{turn}").limit(turn % 3))
                if built.values != [number, f"{turn}", turn % 3]:
                    wrong.append(built.values)

        threads = [threading.Thread(target=ask, args=(number,)) for number in range(6)]
        for thread in threads:
            thread.start()
        for thread in threads:
            thread.join()
        self.assertEqual(wrong, [])

    def test_threads_with_a_connection_each(self) -> None:
        """Rows in many threads over one schema and one engine, with what the default engine finds for each."""
        schema, wrong, planners = Schema(*support.SCHEMA), [], set()

        def ask(number: int) -> None:
            session = Session(schema, support.blog(), engine=support.engine())
            planners.add(id(session._planner))
            for turn in range(10):
                wanted = [user[0] for user in support.USERS if user[0] >= number]
                found = session.values(query(Users).filter(Users.id >= number, Users.email != f"{turn}").order(Users.id).select(Users.id))
                pairs = session.all(query(Users).left_join(Posts).filter(Users.id == number).order(Posts.id))
                if found != wanted or {user.id for user, _ in pairs} != {number}:
                    wrong.append((number, found, pairs))

        threads = [threading.Thread(target=ask, args=(number % 3 + 1,)) for number in range(8)]
        for thread in threads:
            thread.start()
        for thread in threads:
            thread.join()
        self.assertEqual((wrong, len(planners)), ([], 1))


if __name__ == "__main__":
    unittest.main()
