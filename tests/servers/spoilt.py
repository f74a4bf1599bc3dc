"""Tries each spoiling on a few lines over chosen rows: with equal ones, groups without rows, and NULLs. A spoiling that is not found is a
fault of these scripts."""
from __future__ import annotations

from typing import Any, Iterator, NamedTuple

from program import Ask
from report import Report
from runner import Document, Runner
from servers import Server
from spoilings import SPOILINGS, Spoiling, SpoiltProgram
from statements import Database

SCHEMA = {
    "tables": [
        {"name": "users", "columns": [
            {"name": "id", "type": "Integer"}, {"name": "name", "type": "Text?"}, {"name": "team", "type": "Integer?"}]},
        {"name": "posts", "columns": [
            {"name": "id", "type": "Integer"}, {"name": "user_id", "type": "Integer"}, {"name": "title", "type": "Text?"},
            {"name": "stars", "type": "Integer?"}]},
    ],
    "joinable": [{"child": "posts", "key": "user_id", "parent": "users"}],
    "together": [["users", "posts"]],
}
ROWS: Database = {
    "users": [(1, "a", 1), (2, "b", 1), (3, "a", None), (4, None, 2)],
    "posts": [(10, 1, "t", 3), (11, 1, "t", None), (12, 2, "s", 3), (13, 2, None, 1)],
}


def col(table: str, name: str) -> dict[str, Any]:
    return {"col": [table, name]}


def value(kind: str, x: Any) -> dict[str, Any]:
    return {"bind": [kind, x]}


def query(table: str, *calls: list[Any]) -> dict[str, Any]:
    return {"from": {"table": table}, "calls": list(calls)}


def between(low: int, high: int) -> dict[str, Any]:
    return {"and": [{"gt": [ID, value("Integer", low)]}, {"lt": [ID, value("Integer", high)]}]}


ID, NAME, TEAM = col("users", "id"), col("users", "name"), col("users", "team")
POST, WRITER, TITLE, STARS = col("posts", "id"), col("posts", "user_id"), col("posts", "title"), col("posts", "stars")
JOIN = ["left_join", {"table": "posts"}]
P = {"alias": "p", "of": "posts"}
SAME_WRITER = {"eq": [{"field": ["p", "posts", "user_id"]}, WRITER]}
BUILT = [
    query("users", ["select", [NAME, TEAM]]),
    query("users", ["select", NAME], ["distinct"]),
    query("posts", ["select", [TITLE, WRITER]], ["distinct"]),
    query("users", ["select", NAME], ["union_all", query("posts", ["select", TITLE])]),
    query("users", ["count"]),
    query("users", ["select", [{"count": NAME}]]),
    query("users", ["filter", {"gt": [ID, value("Integer", 9)]}], ["select", ["count_star", {"count": TEAM}]]),
    query("users", ["group_by", TEAM], ["select", [TEAM, "count_star"]]),
    query("users", ["group_by", NAME], ["select", [NAME, {"count": TEAM}]], ["having", {"gt": ["count_star", value("BigInt", 1)]}]),
    query("users", JOIN, ["group_by", ID], ["select", [ID, {"count": {"nullable": POST}}]], ["order", [{"desc": ID}]]),
    query("users", JOIN, ["select", [ID, {"nullable": TITLE}]]),
    query("users", ["select", ID], ["order", [{"desc": ID}]]),
    query("users", ["select", [NAME, ID]], ["order", [value("Bool", True), value("Integer", 2)]]),
    query("users", ["filter", between(1, 4)], ["select", ID]),
    query("users", ["filter", between(0, 3)], ["select", ID]),
    query("users", ["filter", {"eq_any": [ID, {"list": ["Integer", [1, 3]]}]}], ["select", NAME]),
    query("users", ["filter", {"exists": query("posts", ["filter", {"eq": [WRITER, ID]}])}], ["select", NAME]),
    query("posts", ["inner_join", P, SAME_WRITER], ["select", [POST, {"field": ["p", "posts", "title"]}]]),
]
AUDITED = [BUILT[-2], BUILT[-1], query("users", JOIN, ["select", [ID, {"nullable": TITLE}]], ["order", [NAME]])]
PREDICATE = {"or": [{"not": {"eq": [STARS, value("Integer?", 3)]}},
                    {"and": [{"is_null": STARS}, {"not": {"eq": [WRITER, value("Integer", 2)]}}]}]}
GUARDED = [
    query("posts", ["select", [POST, TITLE]]),
    query("posts", ["filter", {"gt": [POST, value("Integer", 11)]}], ["select", POST], ["order", [{"desc": POST}]], ["limit", 2]),
    query("posts", ["filter", {"gt": [POST, value("Integer", 12)]}], ["select", POST], ["order", [{"desc": POST}]], ["limit", 2]),
    query("users", JOIN, ["select", [ID, {"nullable": TITLE}]]),
    query("users", ["inner_join", {"table": "posts"}], ["select", [ID, POST]]),
    {"from": P, "calls": [["select", {"field": ["p", "posts", "id"]}]]},
    query("posts", ["inner_join", P, SAME_WRITER], ["select", [POST, {"field": ["p", "posts", "id"]}]]),
    query("posts", ["select", POST], ["union", query("posts", ["select", WRITER])]),
    query("posts", ["select", POST], ["order", [{"desc": POST}]]),
    query("users", JOIN, ["select", NAME], ["distinct"]),
    query("posts", ["select", WRITER], ["union_all", query("posts", ["select", WRITER])]),
]


def document(queries: list[dict[str, Any]], guard: dict[str, Any] | None, name: str) -> Document:
    requests = [{"dialect": dialect, "query": each} for each in queries for dialect in ("Pg", "Mysql", "Sqlite")]
    content = {"schema": SCHEMA, "requests": requests, **({"guard": guard} if guard else {})}
    return Document(name, content, 1, ROWS)


def chosen_documents() -> dict[str, Document]:
    """For each command the document whose lines are spoilt. The texts of `audit` are those of a document for `build`."""
    guard = {"table": "posts", "predicate": PREDICATE}
    return {"build": document(BUILT, None, "chosen lines"), "guard": document(GUARDED, guard, "chosen lines of guard"),
            "audit": document(AUDITED, None, "chosen texts")}


def try_spoiling(ask: Ask, started: dict[str, Server], spoiling: Spoiling, chosen: Document) -> tuple[int, set[str]]:
    """How many lines the spoiling changed, and the servers that found it. What can be seen without a server each of them found."""
    report = Report(0)
    spoilt = SpoiltProgram(ask, spoiling)
    Runner(ask, started, report, 0, spoilt).run(chosen)
    found = {place.server for place in report.failing}
    return spoilt.count, {server.name for server in started.values()} if "" in found and spoiling.is_seen_alone else found


class Trial(NamedTuple):
    """A spoiling that was tried on a command's lines, and why it counts as not found, if it does."""
    spoiling: Spoiling
    command: str
    fault: str | None


def trials(ask: Ask, started: dict[str, Server], chosen: dict[str, Document]) -> Iterator[Trial]:
    """Each spoiling on the servers that can tell it, where one was started: each of them has to find it."""
    for spoiling in SPOILINGS.values():
        able = {dialect: server for dialect, server in started.items() if dialect in spoiling.dialects}
        for command in spoiling.commands if able else ():
            count, found = try_spoiling(ask, able, spoiling, chosen[command])
            missing = ", ".join(sorted({server.name for server in able.values()} - found))
            yield Trial(spoiling, command, f"not found by {missing}" if missing else None if count else "it changes no line")
