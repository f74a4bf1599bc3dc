"""Guarded sessions: what they let through, and that nothing else comes out."""
from __future__ import annotations

import inspect
import json
import threading
import unittest
from typing import Any, Callable, Hashable, List, Sequence

import support
from support import Comments, Odd, Posts, Users
from hardieflax import (AsyncSession, BigInt, Bool, Conversation, EngineMissing, HardieflaxError, NotShared, Program, Refused, Schema,
                        SchemaError, Session, Table, Column, alias, count, nullable, query, value)
from hardieflax.plans import Request


class Listening(Program):
    """The program, with what it was asked."""

    def __init__(self) -> None:
        super().__init__(support.needed_program())
        self.documents: List[Any] = []

    def run(self, command: Sequence[str], document: bytes) -> bytes:
        self.documents.append(json.loads(document))
        return super().run(command, document)


class Counting(Conversation):
    """The program that stays, with how many sessions were opened, and the members that go on in them."""

    def __init__(self) -> None:
        super().__init__(support.needed_program())
        self.opened: List[Any] = []
        self.bodies: List[Any] = []

    def next(self, owner: Hashable, opening: Callable[[], Any], body: str) -> bytes:
        def counted() -> Any:
            self.opened.append(opening())
            return self.opened[-1]
        self.bodies.append(json.loads(f"{{{body}}}"))
        return super().next(owner, counted, body)


class Deaf:
    """An engine from before there were policies."""

    def has(self, command: str) -> bool:
        return command in ("build", "guard")

    def run(self, command: Sequence[str], document: bytes) -> bytes:
        return support.engine().run(command, document)


class DeafSessions(Deaf):
    """The same with sessions, which would leave the policies aside."""

    def has_policies(self) -> bool:
        return False

    def next(self, owner: Hashable, opening: Callable[[], Any], body: str) -> bytes:
        raise AssertionError("it was asked all the same")


class Guards(unittest.TestCase):
    def session(self, connection: Any = None, author: int = 1, **options: Any) -> Session:
        options = {"guards": {Posts: Posts.author_id == author}, "shared": [Users], "engine": support.engine(), **options}
        if connection is None:
            options.setdefault("dialect", "Sqlite")
        return Session(support.SCHEMA, connection, **options)

    def test_rows_of_a_tenant(self) -> None:
        for author, wanted in ((1, [1, 2]), (2, [3]), (9, [])):
            session = self.session(support.blog(), author)
            self.assertEqual([post.id for post in session.all(query(Posts).order(Posts.id))], wanted)
            self.assertEqual([user.id for user in session.all(query(Users).order(Users.id))], [1, 2, 3])
            pairs = session.all(query(Users).left_join(Posts).order(Users.id, Posts.id))
            self.assertEqual(sorted(p.id for _, p in pairs if p), wanted)
            self.assertEqual({u.id for u, _ in pairs}, {1, 2, 3})
        with self.assertRaises(NotShared):
            self.session(support.blog()).all(query(Comments))

    def test_each_place_is_guarded(self) -> None:
        session, answers = self.session(), alias(Posts, "answers")
        made = query(Posts).join(answers, answers.parent_id == Posts.id).filter(Posts.title == "x").limit(5)
        built = session.build(made)
        self.assertEqual(built.sql.count("`author_id` = ?"), 2)
        self.assertEqual(built.columns, ("BigInt", "BigInt", "BigInt?", "Text", "SmallInt?") * 2)
        self.assertEqual(built.values, ["x", 1, 1, 5])
        both = query(Posts).select(Posts.id).union(query(Posts).select(Posts.author_id))
        self.assertEqual(session.build(both).values, [1, 1])

    def test_tenants_share_plans(self) -> None:
        made = query(Posts).filter(Posts.title == "x").limit(7)
        first = self.session(author=5).build(made)
        asked = self.session()._planner.asked
        second = self.session(author=6).build(made)
        self.assertEqual((first.sql, first.values, second.values), (second.sql, ["x", 5, 7], ["x", 6, 7]))
        self.assertEqual(self.session()._planner.asked, asked)
        plain = Session(support.SCHEMA, dialect="Sqlite", engine=support.engine()).build(made)
        self.assertNotIn("author_id` = ?", plain.sql)
        self.assertEqual(self.session(author=8).build(made).values, ["x", 8, 7])

    def test_what_is_closed(self) -> None:
        session = self.session()
        closed: List[Any] = [
            query(Comments), query(alias(Comments, "c")), query(Posts).join(Comments), query(Users).left_join(Comments,
                                                                                                              Comments.user_id == Users.id),
            query(Users).filter(query(Comments).exists()), query(Users).filter(Users.id.in_(query(Comments).select(Comments.id))),
            query(Users).select(Users.id).union(query(Comments).select(Comments.id)),
            query(Users).select(query(Comments).select(Comments.body).single_value()), query(Users).filter(Comments.id == 1),
        ]
        for made in closed:
            with self.subTest(query=repr(made)), self.assertRaises(NotShared):
                session.build(made)

    def test_what_is_closed_is_not_declared(self) -> None:
        """Past the check in Python the engine itself refuses: its document has the guarded tables and the shared ones alone."""
        session = self.session()
        for made in (query(Comments), query(Posts).join(Comments), query(Odd), query(Users).filter(query(Comments).exists())):
            request = Request("Sqlite", made, session._guard)
            (outcome,) = session._planner._asked([request])
            self.assertIsInstance(outcome, Refused)
            self.assertEqual(getattr(outcome, "rule"), "UnknownName")

    def test_counts_groups_and_subselects(self) -> None:
        session = self.session(support.blog(), author=1)
        self.assertEqual(session.value(query(Posts).count()), 2)
        self.assertEqual(session.values(query(Users).filter(query(Posts).filter(Posts.author_id == Users.id).exists()).select(Users.id)), [1])
        self.assertEqual(session.all(query(Posts).group_by(Posts.author_id).select(Posts.author_id, count())), [(1, 2)])
        titles = query(Posts).filter(Posts.author_id == Users.id).order(Posts.id).select(Posts.title).single_value()
        self.assertEqual(session.values(query(Users).order(Users.id).select(titles)), ["Trees", None, None])
        among = query(Users).filter(Users.id.in_(query(Posts).select(Posts.author_id)))
        self.assertEqual([user.id for user in session.all(among)], [1])

    def test_a_predicate_that_is_none(self) -> None:
        for predicate in (query(Posts).exists(), count() > 1, alias(Posts, "p").id == 1):
            with self.assertRaises(Refused) as caught:
                self.session(guards={Posts: predicate}).build(query(Posts))
            self.assertEqual(caught.exception.rule, "BadPredicate")
        for predicate in (query(Users).exists(), Posts.author_id == Users.id):
            with self.assertRaises(SchemaError):
                self.session(guards={Posts: predicate})

    def test_several_guarded_tables(self) -> None:
        session = self.session(support.blog(), guards={Posts: Posts.author_id == 1, Comments: Comments.user_id == 2}, shared=[])
        pairs = session.all(query(Posts).left_join(Comments).order(Posts.id, Comments.id))
        self.assertEqual([(post.id, comment and comment.id) for post, comment in pairs], [(1, 1), (2, None)])
        self.assertEqual(session.value(query(Posts).join(Comments).count()), 1)
        written = query(Comments).filter(Comments.post_id == Posts.id)
        self.assertEqual(session.values(query(Posts).filter(~written.exists()).select(Posts.id)), [2])
        with self.assertRaises(NotShared):
            session.build(query(Posts).join(Users))

    def test_the_document_of_the_command(self) -> None:
        engine = Listening()
        session = Session(support.SCHEMA, dialect="Pg", engine=engine, guards={Posts: Posts.author_id == 1, Comments: Comments.user_id == 2},
                          shared=[Users, Odd])
        session.build(query(Posts).join(Comments).join(Users))
        document = engine.documents[0]
        self.assertEqual(document["tenant"], [
            {"table": "posts", "predicate": {"eq": [{"col": ["posts", "author_id"]}, {"bind": ["BigInt", 1]}]}},
            {"table": "comments", "predicate": {"eq": [{"col": ["comments", "user_id"]}, {"bind": ["BigInt", 2]}]}}, {"table": "users"}])
        self.assertEqual({table["name"] for table in document["schema"]["tables"]}, {"posts", "comments", "users"})

    def test_one_session_serves_all_tenants(self) -> None:
        engine = Counting()
        self.addCleanup(engine.close)
        schema = Schema(*support.SCHEMA)
        for number in (5, 2**62, -7):
            guards = {Posts: (Posts.author_id == number) & Posts.stars.in_([3, None]), Comments: Comments.body == f"of {number}"}
            session = Session(schema, dialect="Sqlite", engine=engine, guards=guards)
            self.assertEqual(session.build(query(Posts).filter(Posts.id == number)).values, [number, number, 3, None])
            self.assertEqual(session.build(query(Comments).limit(number % 9)).values, [f"of {number}", number % 9])
        self.assertEqual(len(engine.opened), 1)
        self.assertEqual(engine.opened[0]["tenant"][0]["predicate"]["and"][0]["eq"][1], {"bind": ["BigInt", {"value": "0"}]})
        self.assertEqual(engine.bodies[0]["values"], {"0": 5, "1.0": 3, "1.1": None, "2": "of 5"})
        Session(schema, dialect="Sqlite", engine=engine, guards={Posts: Posts.author_id == 5}).build(query(Posts))
        self.assertEqual(len(engine.opened), 2)

    def test_tenants_in_threads(self) -> None:
        """Sessions of several tenants over one engine at a time: each has its own values, and its own rows."""
        engine, schema, wrong = support.engine(), Schema(*support.SCHEMA), []

        def ask(author: int) -> None:
            guards = {Posts: Posts.author_id == author}
            session = Session(schema, support.blog(), engine=engine, guards=guards)
            for turn in range(10):
                made = query(Posts).filter(Posts.id > 0).order(Posts.id).limit(turn + 1)
                values, rows = session.build(made).values, session.all(made)
                if values != [0, author, turn + 1] or any(post.author_id != author for post in rows):
                    wrong.append((author, values, rows))

        threads = [threading.Thread(target=ask, args=(number % 3,)) for number in range(9)]
        for thread in threads:
            thread.start()
        for thread in threads:
            thread.join()
        self.assertEqual(wrong, [])

    def test_an_engine_that_knows_no_policies(self) -> None:
        for engine in (Deaf(), DeafSessions()):
            with self.assertRaisesRegex(EngineMissing, "knows no policies"):
                self.session(engine=engine)
            Session(support.SCHEMA, dialect="Pg", engine=Deaf()).build(query(Posts))

    def test_many_tables(self) -> None:
        made: List[Any] = [type(f"T{number}", (Table,), {"id": Column(BigInt)}, name=f"t{number}") for number in range(400)]
        guards = {table: table.id == 7 for table in made[:390]}
        session = Session(Schema(*made), dialect="Pg", engine=support.engine(), guards=guards, shared=made[390:])
        built: List[Any] = session.build_all([query(each) for each in (made[0], made[389], made[399])])
        self.assertEqual([each.values for each in built], [[7], [7], []])

    def test_every_call_that_gives_a_text_is_guarded(self) -> None:
        """Each public call of a session, asked for the posts, tells those of the tenant, or nothing."""
        session, posts = self.session(support.blog(), author=2), query(Posts).order(Posts.id)
        ids = posts.select(Posts.id)
        calls = {"build": posts, "build_all": [posts], "answer_all": [posts], "all": posts, "rows": posts, "first": posts, "one": posts,
                 "value": ids, "values": ids}
        public = {name for name, _ in inspect.getmembers(session, callable) if not name.startswith("_")}
        self.assertEqual(public, set(calls))
        for name, argument in calls.items():
            made = getattr(session, name)(argument)
            text = repr([each for each in made] if hasattr(made, "__iter__") else made)
            self.assertTrue("author_id` = ?" in text or "Trees" not in text and "Birds" not in text and text not in ("1", "[1, 2, 3]"),
                            (name, text))

    def test_a_session_of_asyncio_has_the_same_calls(self) -> None:
        """Those that its test on PostgreSQL guards; a new one has to be looked at."""
        public = {name for name in dir(AsyncSession) if not name.startswith("_")}
        self.assertEqual(public, {name for name in dir(Session) if not name.startswith("_")})

    def test_what_is_no_guard(self) -> None:
        class Tags(Table, name="tags"):
            id = Column(BigInt)

        wrong: Any
        for wrong in ({"guards": {Posts: Posts.id == 1, alias(Posts, "p"): Posts.id == 2}}, {"guards": {Posts: True}},
                      {"guards": {Tags: Tags.id == 1}}, {"shared": [Tags]}, {"shared": [Posts]}):
            with self.assertRaises((HardieflaxError, TypeError)):
                self.session(**wrong)
        with self.assertRaises(SchemaError):
            Session(support.SCHEMA, dialect="Pg", shared=[Users], engine=support.engine())
        with self.assertRaises(NotShared):
            self.session(guards={}, shared=[]).build(query(Users))

    def test_a_guarded_table_by_another_name(self) -> None:
        def table(name: str, **options: str) -> Any:
            return type(name, (Table,), {"id": Column(BigInt)}, name=name, **options)
        guarded = table("posts", schema="main")
        for other, is_one in ((table("p", sql_name="Posts"), True), (table("p", sql_name="posts", schema="MAIN"), True),
                              (table("p", sql_name="posts", schema="other"), False), (table("p"), False)):
            def made(other: Any = other) -> Session:
                return Session(Schema(guarded, other), dialect="Pg", engine=support.engine(), guards={guarded: guarded.id == 1}, shared=[other])
            if is_one:
                with self.assertRaisesRegex(SchemaError, "by another name"):
                    made()
            else:
                made()

    def test_values_of_the_guard_keep_their_places(self) -> None:
        for dialect in ("Pg", "Sqlite", "Mysql", "Bracket"):
            guard = (Posts.author_id.in_([4, 5])) & (Posts.stars == 3) & value(True, Bool)
            session = self.session(guards={Posts: guard}, dialect=dialect)
            made = query(Users).left_join(Posts).select(Users.id, nullable(Posts))
            made = made.filter(Users.active == False, Users.name.in_(["a"])).limit(9)  # noqa: E712
            listed: List[Any] = [[4, 5]] if dialect == "Pg" else [4, 5]
            names: List[Any] = [["a"]] if dialect == "Pg" else ["a"]
            self.assertEqual(session.build(made).values, [*listed, 3, True, False, *names, 9], dialect)


if __name__ == "__main__":
    unittest.main()
