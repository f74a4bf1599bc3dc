"""Worked answers for the evaluator itself: the example of docs/MEANING.md, and small statements whose answers are worked out by hand."""
from __future__ import annotations

from typing import Any

from meaning import Meaning
from statements import Database, Row, Schema, statement


DECLARED: dict[str, Any] = {"tables": [
    {"name": "users", "columns": [{"name": "id", "type": "Integer"}, {"name": "name", "type": "Text"}]},
    {"name": "posts", "columns": [{"name": "id", "type": "Integer"}, {"name": "user_id", "type": "Integer"}, {"name": "title", "type": "Text"}]},
    {"name": "marks", "columns": [{"name": "id", "type": "Integer"}, {"name": "mark", "type": "Integer?"}]},
], "joinable": [{"child": "posts", "key": "user_id", "parent": "users"}], "together": [["users", "posts"], ["users", "marks"], ["posts", "marks"]]}
SCHEMA = Schema(DECLARED)
DATABASE: Database = {"users": [(1, "a"), (2, "b")], "posts": [(5, 1, "t")], "marks": [(1, None), (2, 7), (3, 7), (4, 8)]}

ID, NAME, TITLE = {"col": ["users", "id"]}, {"col": ["users", "name"]}, {"nullable": {"col": ["posts", "title"]}}
MARK_ID, MARK = {"col": ["marks", "id"]}, {"col": ["marks", "mark"]}
POSTS, MARKS = {"from": {"table": "posts"}}, {"from": {"table": "marks"}}


def users(*calls: list[Any]) -> dict[str, Any]:
    return {"from": {"table": "users"}, "calls": list(calls)}


def marks(*calls: list[Any]) -> dict[str, Any]:
    return {"from": {"table": "marks"}, "calls": list(calls)}


def value(kind: str, x: Any) -> dict[str, Any]:
    return {"bind": [kind, x]}


def among(kind: str, x: Any, *values: Any) -> dict[str, Any]:
    return {"select": {"eq_any": [value(kind, x), {"list": [kind, list(values)]}]}}


def ones(*values: Any) -> list[Row]:
    return [(each,) for each in values]


JOIN = ["left_join", {"table": "posts"}]
IDS = ["select", MARK_ID]
NONE = ["filter", {"gt": [MARK_ID, value("Integer", 9)]}]
# The query, answers that it may give, and rows that are none.
WORKED: list[tuple[dict[str, Any], list[list[Row]], list[list[Row]]]] = [
    (users(JOIN, ["select", [ID, TITLE]]), [[(1, "t"), (2, None)], [(2, None), (1, "t")]],
     [[(1, "t")], [(1, "t"), (2, "t")], [(1, "t"), (2, None), (2, None)], [(1, None), (2, None)]]),
    (users(JOIN, ["select", {"is_null": TITLE}]), [ones(False, True), ones(True, False)], [ones(True, True), ones(False, None)]),
    (users(["select", {"single_value": {**POSTS, "calls": [["select", {"col": ["posts", "id"]}]]}}]), [ones(5, 5)], [ones(5), ones(5, None)]),
    (users(["order", [{"desc": ID}]], ["limit", 1]), [[(2, "b")]], [[(1, "a")], []]),
    (users(["limit", 1]), [[(2, "b")], [(1, "a")]], [[(1, "b")], [], [(1, "a"), (2, "b")]]),
    (users(["limit", -1], ["offset", 1]), [[(2, "b")], [(1, "a")]], [[]]),
    (users(["filter", {"exists": {**POSTS, "calls": [["filter", {"eq": [{"col": ["posts", "user_id"]}, ID]}]]}}]), [[(1, "a")]], [[]]),
    (among("Integer?", 2, None, 1), [ones(None)], [ones(False)]),
    (among("Integer?", 1, None, 1), [ones(True)], [ones(None)]),
    (among("Integer", 1), [ones(False)], [ones(None), []]),
    ({"select": {"and": [value("Bool?", None), value("Bool", False)]}}, [ones(False)], [ones(None)]),
    ({"select": {"or": [value("Bool?", None), value("Bool", False)]}}, [ones(None)], [ones(False)]),
    ({"select": {"not": value("Bool?", None)}}, [ones(None)], [ones(True)]),
    ({"select": {"lt": [value("Text", "B"), value("Text", "a")]}}, [ones(True)], [ones(False)]),
    (marks(IDS, ["filter", {"ne": [MARK, value("Integer?", 7)]}]), [ones(4)], [ones(1, 4)]),
    (marks(IDS, ["order", [MARK, {"desc": MARK_ID}]]), [ones(1, 3, 2, 4), ones(3, 2, 4, 1)], [ones(1, 2, 3, 4), ones(3, 2, 1, 4)]),
    (marks(IDS, ["order", [MARK]], ["limit", 2]), [ones(1, 2), ones(1, 3), ones(2, 3), ones(3, 2)], [ones(1, 4), ones(2, 1)]),
    (marks(["select", MARK], ["distinct"]), [ones(None, 7, 8), ones(8, None, 7)], [ones(7, 8), ones(None, 7, 7, 8)]),
    (marks(IDS, ["distinct_on", MARK]), [ones(1, 2, 4), ones(4, 3, 1)], [ones(1, 2, 3, 4), ones(1, 4), ones(2, 3, 4)]),
    (marks(["select", [MARK, MARK_ID]], ["distinct_on", MARK], ["order", [MARK, {"desc": MARK_ID}]]),
     [[(None, 1), (7, 3), (8, 4)], [(7, 3), (8, 4), (None, 1)]], [[(None, 1), (7, 2), (8, 4)], [(7, 3), (None, 1), (8, 4)]]),
    (marks(["select", MARK_ID], ["distinct_on", MARK], ["order", [MARK, MARK_ID]], ["limit", 1]), [ones(1), ones(2)], [ones(3), ones(4)]),
    (marks(["select", MARK_ID], ["distinct_on", MARK], ["order", [MARK]]), [ones(1, 3, 4), ones(2, 4, 1)], [ones(1, 2, 3, 4), ones(2, 1, 4)]),
    (marks(["select", MARK], ["union", marks(["select", MARK])]), [ones(7, 8, None)], [ones(7, 8), ones(7, 7, 8, None)]),
    (marks(["select", MARK], ["except_all", marks(["select", MARK], ["filter", {"eq": [MARK_ID, value("Integer", 2)]}])]),
     [ones(None, 7, 8)], [ones(None, 8), ones(None, 7, 7, 8)]),
    (marks(["select", MARK], ["intersect_all", marks(["select", MARK], ["filter", {"is_not_null": MARK}])],
           ["positional_order_by", [{"desc": 1}]], ["limit", 2]), [ones(8, 7)], [ones(7, 7), ones(7, 8)]),
    (users(["count"]), [ones(2)], [ones(1), []]),
    (marks(["select", [{"count": MARK}, "count_star"]]), [[(3, 4)]], [[(4, 4)], [(3, 3)], []]),
    (marks(NONE, ["count"]), [ones(0)], [[], ones(None)]),
    (marks(NONE, ["group_by", MARK], ["select", [MARK, "count_star"]]), [[]], [[(None, 0)], ones(0)]),
    (marks(["group_by", MARK], ["select", [MARK, "count_star"]]), [[(None, 1), (7, 2), (8, 1)], [(8, 1), (7, 2), (None, 1)]],
     [[(7, 2), (8, 1)], [(None, 1), (7, 1), (7, 1), (8, 1)]]),
    (marks(["group_by", {"is_null": MARK}], ["select", [{"is_null": MARK}, {"count": MARK}]]),
     [[(True, 0), (False, 3)]], [[(True, 1), (False, 3)]]),
    (marks(["group_by", MARK], ["select", MARK], ["having", {"gt": ["count_star", value("BigInt", 1)]}]), [ones(7)], [ones(7, 8), []]),
    (marks(["group_by", MARK], ["select", {"count": MARK}], ["order", [{"desc": {"count": MARK}}]]),
     [ones(2, 1, 0)], [ones(1, 2, 0), ones(2, 1)]),
    (marks(["group_by", MARK], ["select", [MARK, "count_star"]], ["order", ["count_star", {"desc": MARK}]]),
     [[(None, 1), (8, 1), (7, 2)], [(8, 1), (None, 1), (7, 2)]], [[(7, 2), (8, 1), (None, 1)]]),
    (marks(["group_by", MARK], ["select", "count_star"], ["distinct"]), [ones(1, 2), ones(2, 1)], [ones(1, 2, 1), ones(1)]),
    (marks(["group_by", MARK], ["select", "count_star"], ["union_all", marks(["select", "count_star"])]), [ones(1, 4, 2, 1)], [ones(1, 2, 4)]),
    (users(JOIN, ["select", ["count_star", {"count": {"nullable": {"col": ["posts", "id"]}}}]]), [[(2, 1)]], [[(1, 1)], [(2, 2)]]),
    (users(JOIN, ["group_by", ID], ["select", [ID, {"count": TITLE}]]), [[(1, 1), (2, 0)]], [[(1, 1)], [(1, 1), (2, 1)]]),
    (users(["filter", {"eq": [value("BigInt", 1), {"single_value": {**POSTS, "calls": [["select", "count_star"]]}}]}]),
     [[(1, "a"), (2, "b")]], [[]]),
    (marks(["select", "count_star"], ["distinct"], ["limit", 1], ["offset", 1]), [[]], [ones(4)]),
    ({"from": {"table": "users", "only": True}, "calls": [["select", NAME]]}, [ones("a", "b"), ones("b"), []], [ones("a", "a"), ones("c")]),
]


def faults() -> tuple[list[tuple[dict[str, Any], list[Row]]], int]:
    """The worked answers that the evaluator has otherwise, and how many there are."""
    meaning = Meaning(SCHEMA, DATABASE)
    asked = [(query, rows, wanted) for query, some, none in WORKED for wanted, each in ((True, some), (False, none)) for rows in each]
    return [(query, rows) for query, rows, wanted in asked if meaning.allows(statement(SCHEMA, query), rows) != wanted], len(asked)
