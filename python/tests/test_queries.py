"""What the front end writes: each call as the document has it."""
from __future__ import annotations

import json
import unittest
from typing import Any, cast

import support
from support import Comments, Odd, Posts, Users
from hardieflax import (Bool, Integer, SchemaError, Table, Column, Text, ValueRefused, alias, all_of, any_of, count, nullable, only, query,
                        sampled,
                        select, value)

ID, NAME, EMAIL, ACTIVE = ({"col": ["users", name]} for name in ("id", "name", "email", "active"))
USERS = {"table": "users"}
FIRST = Users.id == 1


def calls(made: Any) -> Any:
    """The calls of a query over users."""
    written = made.json()
    assert written["from"] == USERS
    return written["calls"]


class Expressions(unittest.TestCase):
    def writes(self, expression: Any, wanted: Any) -> None:
        self.assertEqual(calls(query(Users).filter(expression)), [["filter", wanted]])

    def test_comparisons(self) -> None:
        one = {"bind": ["BigInt", 1]}
        for made, word in ((Users.id == 1, "eq"), (Users.id != 1, "ne"), (Users.id < 1, "lt"), (Users.id <= 1, "le"), (Users.id > 1, "gt"),
                           (Users.id >= 1, "ge")):
            self.writes(made, {word: [ID, one]})
        self.writes(1 == Users.id, {"eq": [ID, one]})
        self.writes(1 < Users.id, {"gt": [ID, one]})

    def test_nullability_is_handled(self) -> None:
        self.writes(Users.name == "Sean", {"eq": [NAME, {"bind": ["Text?", "Sean"]}]})
        self.writes(Users.name == Users.email, {"eq": [NAME, {"nullable": EMAIL}]})
        self.writes(Users.email == Users.name, {"eq": [{"nullable": EMAIL}, NAME]})
        self.writes(Users.name.in_(["a", None]), {"eq_any": [NAME, {"list": ["Text?", ["a", None]]}]})
        names, emails = query(Users).select(Users.name), query(Users).select(Users.email)
        self.assertEqual(calls(query(Users).filter(Users.email.in_(names)))[0][1]["eq_any"][0], {"nullable": EMAIL})
        self.assertEqual(calls(query(Users).filter(Users.name.in_(emails)))[0][1]["eq_any"][1]["calls"][-1], ["select", [{"nullable": EMAIL}]])
        self.assertEqual(names.union(emails).json()["calls"][-1][1]["calls"][-1], ["select", [{"nullable": EMAIL}]])

    def test_none_is_null(self) -> None:
        self.writes(Users.name == None, {"is_null": NAME})  # noqa: E711
        self.writes(Users.name != None, {"is_not_null": NAME})  # noqa: E711
        with self.assertRaises(ValueRefused):
            Users.name < None

    def test_conditions(self) -> None:
        self.writes(Users.active & ~FIRST | FIRST, {"or": [{"and": [ACTIVE, {"not": {"eq": [ID, {"bind": ["BigInt", 1]}]}}]},
                                                           {"eq": [ID, {"bind": ["BigInt", 1]}]}]})
        self.writes(Users.id.between(1, 2), {"and": [{"ge": [ID, {"bind": ["BigInt", 1]}]}, {"le": [ID, {"bind": ["BigInt", 2]}]}]})
        self.writes(all_of(), {"bind": ["Bool", True]})
        self.writes(any_of(), {"bind": ["Bool", False]})
        self.writes(any_of(Users.active), ACTIVE)

    def test_a_thousand_conditions_nest_ten_levels(self) -> None:
        text = all_of(*(Users.id != number for number in range(1000))).shape
        deepest = max(text[:at].count("[") - text[:at].count("]") for at in range(0, len(text), 97))
        self.assertLess(deepest, 15)

    def test_what_makes_no_sense_in_python(self) -> None:
        users, ask, first = cast(Any, query(Users)), cast(Any, query), cast(Any, FIRST)
        wrong: Any = [
            lambda: bool(FIRST), lambda: bool(users), lambda: users.filter(True), lambda: users.filter("id = 1"),
            lambda: (~Users.active) == True, lambda: (~FIRST).is_null(), lambda: first & True, lambda: ask(5),  # noqa: E712
            lambda: users.select("id"), lambda: users.order("id"), lambda: users.join("posts"), lambda: Users(nam="x"),
        ]
        for each in wrong:
            with self.assertRaises(TypeError):
                each()
        refused: Any = [
            lambda: Users.id == "1", lambda: Users.id == True, lambda: users.limit(-1), lambda: users.limit("1"),  # noqa: E712
            lambda: users.find(1, 2), lambda: cast(Any, Users.id).in_("12"), lambda: Users.name == 5,
        ]
        for each in refused:
            with self.assertRaises(ValueRefused):
                each()

    def test_a_column_that_is_none(self) -> None:
        with self.assertRaises(AttributeError):
            Users.nam  # type: ignore[attr-defined]


class Calls(unittest.TestCase):
    def test_each_call(self) -> None:
        made = (query(Users).filter(FIRST).or_filter(FIRST).group_by(Users.id).having(FIRST).order(Users.id, Users.name.desc())
                .then_order_by(Users.email.asc()).limit(5).offset(6).distinct().select(Users.id, count(), count(Users.name)))
        one = {"eq": [ID, {"bind": ["BigInt", 1]}]}
        self.assertEqual(calls(made), [
            ["filter", one], ["or_filter", one], ["group_by", [ID]], ["having", one], ["order", [ID, {"desc": NAME}]],
            ["then_order_by", [{"asc": EMAIL}]], ["limit", 5], ["offset", 6], ["distinct"], ["select", [ID, "count_star", {"count": NAME}]]])

    def test_locks(self) -> None:
        self.assertEqual(calls(query(Users).for_update().skip_locked()), [["for_update"], ["skip_locked"]])
        for lock in ("for_update", "for_no_key_update", "for_share", "for_key_share"):
            self.assertEqual(calls(getattr(query(Users), lock)().no_wait()), [[lock], ["no_wait"]])

    def test_sources(self) -> None:
        u2 = alias(Users, "u2")
        self.assertEqual(query(u2).filter(u2.id == 1).json(), {"from": {"alias": "u2", "of": "users"}, "calls": [
            ["filter", {"eq": [{"field": ["u2", "users", "id"]}, {"bind": ["BigInt", 1]}]}]]})
        self.assertEqual(query(only(Users)).json()["from"], {"table": "users", "only": True})
        self.assertEqual(query(sampled(only(Users), "system", 10, 5)).json()["from"], {"table": "users", "only": True, "sample": ["system",
                                                                                                                                  10, 5]})
        self.assertEqual(query(Users).join(Posts).left_join(u2, u2.id == Posts.author_id).json()["calls"][1][1], {"alias": "u2", "of": "users"})
        for portion in (-1, 101):
            with self.assertRaises(ValueError):
                sampled(Users, "system", portion)

    def test_subselects_and_combinations(self) -> None:
        posts = query(Posts).filter(Posts.author_id == Users.id)
        self.assertEqual(calls(query(Users).filter(posts.exists()))[0][1], {"exists": posts.json()})
        one = query(Posts).select(Posts.title).limit(1)
        self.assertEqual(calls(query(Users).select(one.single_value()))[0][1], [{"single_value": one.json()}])
        ids = query(Users).select(Users.id)
        for word, made in (("union", ids.union(ids)), ("union_all", ids.union_all(ids)), ("intersect", ids.intersect(ids)),
                           ("intersect_all", ids.intersect_all(ids)), ("except", ids.except_(ids)), ("except_all", ids.except_all(ids))):
            self.assertEqual(calls(made.positional_order_by(1, (2, "desc")).limit(1)), [
                ["select", [ID]], [word, ids.json()], ["positional_order_by", [1, {"desc": 2}]], ["limit", 1]])

    def test_whole_tables(self) -> None:
        made = query(Odd).left_join(Users, FIRST).select(Odd, nullable(Users), Users.id.nullable())
        selected = made.json()["calls"][-1][1]
        self.assertEqual(selected[0], [{"col": ["odd", "id"]}, {"col": ["odd", "mark"]}])
        self.assertEqual(selected[1][0], {"nullable": ID})
        self.assertEqual([each.width for each in made.outputs], [2, 5, 1])

    def test_no_source(self) -> None:
        made = select(value(1, Integer), value(True, Bool))
        self.assertEqual(made.json(), {"select": [{"bind": ["Integer", 1]}, {"bind": ["Bool", True]}], "calls": []})

    def test_find(self) -> None:
        self.assertEqual(calls(query(Users).find(7)), [["find", [{"bind": ["BigInt", 7]}]]])

    def test_nothing_changes_a_query(self) -> None:
        begin = query(Users).filter(FIRST)
        before = begin.json()
        begin.limit(1), begin.join(Posts), begin.select(Users.id), begin.union(begin)
        self.assertEqual(begin.json(), before)

    def test_values_are_never_part_of_a_shape(self) -> None:
        text = 'x"\0\\ \u2028 é'
        made = query(Users).filter(Users.email == text).filter(Users.name.in_([text]))
        self.assertNotIn("\\u0000", made.shape)
        self.assertEqual(made.shape, query(Users).filter(Users.email == "").filter(Users.name.in_([])).shape)
        self.assertEqual(json.loads(json.dumps(made.json()))["calls"][0][1]["eq"][1]["bind"][1], text)

    def test_a_message_tells_types_and_no_values(self) -> None:
        made = query(Users).join(Posts).filter(Users.email == "secret", Users.id.in_([77])).order(Users.id.desc()).limit(99)
        for word in ("secret", "77", "99"):
            self.assertNotIn(word, repr(made))
        self.assertIn("query(users).join(posts).filter((users.email == <Text>))", repr(made))


class Tables(unittest.TestCase):
    def test_rows(self) -> None:
        row = Users(id=1, name="x")
        self.assertEqual((row.id, row.name), (1, "x"))
        self.assertEqual(repr(row), "Users(id=1, name='x')")
        self.assertEqual(row, Users(id=1, name="x"))
        self.assertEqual(len({row, Users(id=1, name="x")}), 1)
        with self.assertRaises(AttributeError):
            row.email

    def test_what_is_no_table(self) -> None:
        from hardieflax import Schema

        class Keyless(Table, name="keyless"):
            at = Column(Text)

        class Empty(Table, name="empty"):
            pass

        for wrong in ((Keyless,), (Empty,), (Users, Users)):
            with self.assertRaises(SchemaError):
                Schema(*wrong)
        with self.assertRaises(SchemaError):
            Column(int)  # type: ignore[arg-type]

    def test_columns_are_inherited(self) -> None:
        class Dated(Table):
            at = Column(Text)

        class Notes(Dated, name="notes"):
            id = Column(Integer)

        self.assertEqual(list(Notes.__columns__), ["at", "id"])
        self.assertEqual(query(Notes).filter(Notes.at == "x").json()["calls"][0][1]["eq"][0], {"col": ["notes", "at"]})

    def test_relations(self) -> None:
        self.assertEqual(set(support.SCHEMA.relations), {
            ("posts", "author_id", "users"), ("comments", "post_id", "posts"), ("comments", "user_id", "users")})
        joinable = support.SCHEMA.document(["users", "comments"])["joinable"]
        self.assertEqual(joinable, [{"child": "comments", "key": "user_id", "parent": "users"}])
        self.assertIn(alias(Comments, "c"), support.SCHEMA)


if __name__ == "__main__":
    unittest.main()
