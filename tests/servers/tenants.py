"""Documents with policies, for the command tenant: a tenant column in every table but one, which is shared; and a tenant that is spoilt.

    python3 tests/servers/tenants.py 7 > document.json      the document of seed 7
"""
from __future__ import annotations

import json
import random
import re
import sys
from typing import Any, Callable, Iterator

import documents
import values
from report import Report
from servers import Server
from statements import Database

Json = Any
TENANT = "tenant"
REPEATED = 0.2  # how often a table has a second policy
DIALECTS = ("Pg", "Mysql", "Sqlite")


def document(chance: random.Random, requests: int = documents.REQUESTS) -> dict[str, Any]:
    """A random document, whose tables but one have a tenant column, with a policy for each table."""
    declared = documents.schema(chance)
    shared = chance.choice(declared["tables"])["name"]
    kinds = {}
    for table in declared["tables"]:
        if table["name"] != shared:
            kinds[table["name"]] = chance.choice(("Integer", "BigInt", "Integer?", "Text"))
            table["columns"].append({"name": TENANT, "type": kinds[table["name"]]})
    policies = [policy for table in declared["tables"] for policy in policies_of(chance, declared, table, kinds.get(table["name"]))]
    chance.shuffle(policies)
    made = []
    for _ in range(requests):
        dialect = chance.choice(DIALECTS)
        writer = documents.Writer(chance, declared, dialect)
        made.append({"dialect": dialect, "query": writer.query([], chance.choice((1, 1, 2)))})
    return {"schema": declared, "requests": made, "tenant": policies}


def policies_of(chance: random.Random, declared: dict[str, Any], table: dict[str, Any], kind: str | None) -> Iterator[Json]:
    """A policy on the tenant column, or one that lets all rows be seen; now and then another beside it."""
    if kind is None:
        yield {"table": table["name"]}
        return
    tenant = {"eq": [{"col": [table["name"], TENANT]}, {"bind": [kind, values.some(chance, kind.rstrip("?"))]}]}
    yield {"table": table["name"], "predicate": tenant}
    if chance.random() < REPEATED:
        writer = documents.Writer(chance, declared, "Pg")
        yield {"table": table["name"], "predicate": documents.predicate(writer, documents.Leaf(None, table), chance.randint(0, 2))}


# ---- a tenant that is spoilt: chosen rows, on which each fault shows

def integers(*names: str) -> list[Json]:
    return [{"name": name, "type": "Integer"} for name in names]


SCHEMA = {
    "tables": [{"name": "users", "columns": integers("id", TENANT)}, {"name": "posts", "columns": integers("id", "user_id", TENANT)},
               {"name": "countries", "columns": integers("id")}],
    "joinable": [{"child": "posts", "key": "user_id", "parent": "users"}],
    "together": [["users", "posts"], ["users", "countries"], ["posts", "countries"]],
}
ROWS: Database = {"users": [(1, 7), (2, 7), (3, 8)], "posts": [(1, 1, 7), (2, 2, 8), (3, 3, 8)], "countries": [(1,)]}
OWN = {"eq": [{"col": ["posts", "user_id"]}, {"col": ["users", "id"]}]}
EXISTS = {"from": {"table": "users"}, "calls": [["filter", {"exists": {"from": {"table": "posts"}, "calls": [["filter", OWN]]}}]]}
LEFT = {"from": {"table": "users"}, "calls": [["left_join", {"table": "posts"}],
                                              ["select", [{"col": ["users", "id"]}, {"nullable": {"col": ["posts", "id"]}}]]]}
COUNT = {"from": {"table": "posts"}, "calls": [["count"]]}
QUERIES = {"EXISTS": EXISTS, "a left join": LEFT, "COUNT": COUNT}


def owned(table: str) -> Json:
    return {"table": table, "predicate": {"eq": [{"col": [table, TENANT]}, {"bind": ["Integer", 7]}]}}


POLICIES: list[Json] = [owned("users"), owned("posts"), {"table": "countries"}]


def chosen(dialect: str, policies: list[Json]) -> dict[str, Any]:
    return {"schema": SCHEMA, "requests": [{"dialect": dialect, "query": query} for query in QUERIES.values()], "tenant": policies}


def open_subselect(sql: str) -> str:
    """The predicate in a subselect holds of each row."""
    return re.sub(r"(\(SELECT .*? AND )(\([^()]*tenant[^()]*\))", r"\1(\2 OR (1 = 1))", sql)


def left_in_where(sql: str) -> str:
    """The predicate in ON stands in WHERE, before what stands there."""
    return re.sub(r"ON \((\([^()]*\)) AND (\([^()]*\))\)\) WHERE (.*)$", r"ON \1) WHERE (\2 AND \3)", sql)


SPOILT: list[tuple[str, Callable[[str], str]]] = [("a subselect that is left open", open_subselect),
                                                  ("a predicate in WHERE right of a left join", left_in_where)]
Ask = Callable[["list[str]", "dict[str, Any]"], "list[dict[str, Any]]"]


class Spoilt:
    """A program whose lines are changed, or whose policies are."""

    def __init__(self, ask: Ask, change: Callable[[str], str], policies: list[Json]) -> None:
        self.plain = ask
        self.change = change
        self.policies = policies

    def ask(self, words: list[str], given: dict[str, Any]) -> list[dict[str, Any]]:
        if words != ["tenant"]:
            return self.plain(words, given)
        lines = self.plain(words, {**given, "tenant": self.policies})
        return [{**line, "sql": self.change(line["sql"])} if "sql" in line else line for line in lines]


def failures(ask: Ask, server: Server, most: int) -> int:
    """How many lines of the chosen document fail on the server."""
    from runner import Document, Runner  # (which imports what makes documents)
    report = Report(0)
    content = chosen(server.dialect, POLICIES)
    Runner(ask, {server.dialect: server}, report, most).run(Document("the chosen tenant", content, 1, ROWS))
    return report.failed


def faults(ask: Ask, started: dict[str, Server], most: int) -> list[str]:
    """The program's own lines that fail, and each spoilt tenant that is not found."""
    found = []
    left_out = [owned("users"), {"table": "posts"}, {"table": "countries"}]
    spoilt = [("a policy that is left out", Spoilt(ask, str, left_out)), *((what, Spoilt(ask, change, POLICIES)) for what, change in SPOILT)]
    for server in started.values():
        if failures(ask, server, most):
            found.append(f"{server.name}: a line of the chosen tenant fails")
        found += [f"{server.name}: {what} is not found" for what, each in spoilt if not failures(each.ask, server, most)]
    return found


if __name__ == "__main__":
    json.dump(document(random.Random(int(sys.argv[1]))), sys.stdout)
