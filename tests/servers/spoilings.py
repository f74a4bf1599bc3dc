"""Ways in which a program may be wrong, as changes of what it answers. The run tries each of them on a few lines (spoilt.py), and fails where
it does not find one. By hand: run.py --spoil NAME.

A spoiling has the program's own lines and may ask it something else. It gives the lines of the spoilt program.
"""
from __future__ import annotations

import copy
import itertools
import re
from dataclasses import dataclass
from typing import Any, Callable, Dict, Union

from program import Ask
from statements import Schema, Select, leaves, statement

COMBINATIONS = ("union", "union_all", "intersect", "intersect_all", "except", "except_all")


@dataclass(frozen=True)
class Case:
    """What the program was asked: its command, and the document."""
    words: list[str]
    document: dict[str, Any]

    def query(self, at: int) -> dict[str, Any]:
        query: dict[str, Any] = self.document["requests"][at]["query"]
        return query


@dataclass(frozen=True)
class Instead:
    """What the spoilt program answers is what the program answers to this: a query, and a predicate where it is guarded."""
    query: dict[str, Any]
    predicate: Any = None


Json = Dict[str, Any]
Change = Callable[[Json, int, Case], Union[Json, Instead, None]]


@dataclass(frozen=True)
class Spoiling:
    """What a program does wrong, on which commands, and the dialects whose servers can tell."""
    name: str
    commands: tuple[str, ...]
    what: str
    spoil: Change
    dialects: tuple[str, ...] = ("Pg", "Mysql", "Sqlite")
    is_seen_alone: bool = False  # without a server


def of_text(pattern: str, by: str) -> Change:
    """Another text."""
    def spoil(line: dict[str, Any], at: int, case: Case) -> dict[str, Any]:
        return {**line, "sql": re.sub(pattern, by, line["sql"])}

    return spoil


def of_columns(change: Callable[[str], str]) -> Change:
    def spoil(line: dict[str, Any], at: int, case: Case) -> dict[str, Any]:
        return {**line, "columns": [change(each) for each in line["columns"]]}

    return spoil


def safe_inverted(line: dict[str, Any], at: int, case: Case) -> dict[str, Any]:
    return {**line, "safe": not line["safe"]}


def id_one(line: dict[str, Any], at: int, case: Case) -> dict[str, Any]:
    return {**line, "id": 1} if line["id"] is not None else line


def id_own(line: dict[str, Any], at: int, case: Case) -> dict[str, Any]:
    return {**line, "id": at + 1} if line["id"] is not None else line


def values_exchanged(line: dict[str, Any], at: int, case: Case) -> dict[str, Any] | None:
    """The first two values of one type that differ."""
    binds = list(line["binds"])
    for first, second in itertools.combinations(range(len(binds)), 2):
        if binds[first][0] == binds[second][0] and binds[first] != binds[second]:
            binds[first], binds[second] = binds[second], binds[first]
            return {**line, "binds": binds}
    return None


def filtered(query: dict[str, Any], condition: Any) -> dict[str, Any]:
    """The query with one more condition in its first statement."""
    calls = query.get("calls", [])
    end = next((at for at, call in enumerate(calls) if call[0] in COMBINATIONS), len(calls))
    return {**query, "calls": [*calls[:end], ["filter", condition], *calls[end:]]}


def no_rows_grouped(line: dict[str, Any], at: int, case: Case) -> Instead | None:
    query = case.query(at)
    if not any(call[0] == "group_by" for call in query.get("calls", [])):
        return None
    return Instead(filtered(query, {"eq": [{"bind": ["Integer", 1]}, {"bind": ["Integer", 0]}]}))


# ---- guard

def unguarded(line: dict[str, Any], at: int, case: Case) -> Instead:
    return Instead(case.query(at))


def guarded_leaves(case: Case, at: int) -> list[tuple[str | None, int]]:
    """The leaves of the guarded table, by their alias, and whether they are on the right of a left join."""
    guarded = case.document["guard"]["table"]
    made = statement(Schema(case.document["schema"]), case.query(at))
    if not isinstance(made, Select) or made.source is None:
        return []
    return [(alias, paddings) for (alias, table), paddings in leaves(made.source) if table == guarded]


def of_leaf(part: Any, alias: str | None) -> Any:
    """The predicate over an alias's fields."""
    if isinstance(part, list):
        return [of_leaf(each, alias) for each in part]
    if not isinstance(part, dict) or alias is None:
        return part
    return {"field": [alias, *part["col"]]} if "col" in part else {name: of_leaf(each, alias) for name, each in part.items()}


def guarded_in_where(at: int, case: Case, chosen: list[str | None]) -> Instead:
    query = case.query(at)
    for alias in chosen:
        query = filtered(query, of_leaf(case.document["guard"]["predicate"], alias))
    return Instead(query)


def in_where(line: dict[str, Any], at: int, case: Case) -> Instead | None:
    found = guarded_leaves(case, at)
    return guarded_in_where(at, case, [alias for alias, _ in found]) if any(paddings for _, paddings in found) else None


def one_leaf_left(line: dict[str, Any], at: int, case: Case) -> Instead | None:
    found = guarded_leaves(case, at)
    if len(found) < 2 or any(paddings for _, paddings in found):
        return None
    return guarded_in_where(at, case, [alias for alias, _ in found[:-1]])


def of_predicate(change: Callable[[str, Any], Any]) -> Change:
    """The line for a guard whose predicate is changed, each object of one member by the function."""
    def changed(part: Any) -> Any:
        if isinstance(part, list):
            return [changed(each) for each in part]
        if not isinstance(part, dict) or len(part) != 1:
            return part
        ((name, argument),) = part.items()
        return change(name, changed(argument))

    def spoil(line: dict[str, Any], at: int, case: Case) -> Instead:
        return Instead(case.query(at), changed(case.document["guard"]["predicate"]))

    return spoil


def without_not(name: str, argument: Any) -> Any:
    return argument if name == "not" else {name: argument}


def and_for_or(name: str, argument: Any) -> Any:
    return {"and" if name == "or" else name: argument}


def or_for_and(name: str, argument: Any) -> Any:
    return {"or" if name == "and" else name: argument}


# ---- audit

def leaf_forgotten(line: dict[str, Any], at: int, case: Case) -> dict[str, Any] | None:
    """The last leaf, with its paths."""
    last = len(line["tables"]) - 1
    kept = [place for place, leaf in enumerate(line["sources"]) if leaf != last]
    if last < 1:
        return None
    return {**line, "tables": line["tables"][:-1], "sources": [line["sources"][place] for place in kept],
            "columns": [line["columns"][place] for place in kept]}


def path_forgotten(line: dict[str, Any], at: int, case: Case) -> dict[str, Any] | None:
    return {**line, "columns": line["columns"][:-1], "sources": line["sources"][:-1]} if line["columns"] else None


def wrong_alias(line: dict[str, Any], at: int, case: Case) -> dict[str, Any] | None:
    """The first path that may be of another leaf of its table."""
    for place, leaf in enumerate(line["sources"]):
        for other, table in enumerate(line["tables"]):
            if other != leaf and table == line["tables"][leaf]:
                return {**line, "sources": [*line["sources"][:place], other, *line["sources"][place + 1:]]}
    return None


def wrong_column(line: dict[str, Any], at: int, case: Case) -> dict[str, Any] | None:
    """The last path is of another column of its table."""
    if not line["columns"]:
        return None
    table, column = line["columns"][-1]
    declared = next(each for each in case.document["schema"]["tables"] if each["name"] == table)
    others = [each["name"] for each in declared["columns"] if each["name"] != column]
    return {**line, "columns": [*line["columns"][:-1], [table, others[0]]]} if others else None


LINES = ("build", "guard")
SPOILINGS = {each.name: each for each in (
    Spoiling("safe-inverted", LINES, "`safe` says the opposite", safe_inverted, is_seen_alone=True),
    Spoiling("id-one", LINES, "`id` is 1 wherever it is a number", id_one, is_seen_alone=True),
    Spoiling("id-own", LINES, "`id` is the request's own number", id_own, is_seen_alone=True),
    Spoiling("count-null", ("build",), "COUNT(NULL) in place of COUNT(*)", of_text(r"COUNT\(\*\)", "COUNT(NULL)")),
    Spoiling("count-star", ("build",), "COUNT(*) in place of the count of an expression", of_text(r"COUNT\([\"`][^()]*\)", "COUNT(*)")),
    Spoiling("group-of-no-rows", ("build",), "a statement with GROUP BY sees no rows", no_rows_grouped),
    Spoiling("distinct-dropped", LINES, "DISTINCT is left out", of_text("SELECT DISTINCT (?!ON )", "SELECT ")),
    Spoiling("union-all-lost", LINES, "UNION in place of UNION ALL", of_text(" UNION ALL ", " UNION ")),
    Spoiling("left-join-inner", LINES, "INNER in place of LEFT OUTER JOIN", of_text(" LEFT OUTER JOIN ", " INNER JOIN ")),
    Spoiling("order-turned", LINES, "ascending in place of descending order", of_text(r" DESC\b", " ASC")),
    Spoiling("values-exchanged", LINES, "two values of one type change places", values_exchanged),
    Spoiling("nullable-lost", LINES, "no column is said to give NULL", of_columns(lambda told: told.rstrip("?")), is_seen_alone=True),
    Spoiling("nullable-added", LINES, "each column is said to give NULL", of_columns(lambda told: told.rstrip("?") + "?"), is_seen_alone=True),
    Spoiling("guard-dropped", ("guard",), "the predicate is left out", unguarded),
    Spoiling("guard-in-where", ("guard",), "the predicate right of a left join is put into WHERE", in_where),
    Spoiling("guard-one-leaf", ("guard",), "the last leaf is not guarded", one_leaf_left),
    Spoiling("guard-not-lost", ("guard",), "NOT in the predicate is left out", of_predicate(without_not)),
    Spoiling("guard-and-for-or", ("guard",), "AND in place of OR in the predicate", of_predicate(and_for_or)),
    Spoiling("guard-or-for-and", ("guard",), "OR in place of AND in the predicate", of_predicate(or_for_and)),
    Spoiling("audit-leaf-forgotten", ("audit",), "the last leaf is not told", leaf_forgotten),
    Spoiling("audit-path-forgotten", ("audit",), "the last path is not told", path_forgotten),
    Spoiling("audit-wrong-column", ("audit",), "a path is of another column of its table", wrong_column),
    Spoiling("audit-wrong-alias", ("audit",), "a path is of another leaf of its table", wrong_alias, ("Pg",)),
)}


class SpoiltProgram:
    """Answers as the program would that is spoilt in one way."""

    def __init__(self, ask: Ask, spoiling: Spoiling) -> None:
        self.plain = ask
        self.spoiling = spoiling
        self.changed: set[int] = set()  # the indexes of the lines that differ, of the last document
        self.count = 0  # how many lines of requests, or reports of texts, differ in all

    def ask(self, words: list[str], document: dict[str, Any]) -> list[dict[str, Any]]:
        lines = self.plain(words, document)
        if words[0] not in self.spoiling.commands:
            return lines
        spoilt = self.spoilt(lines, Case(words, document))
        self.changed = {at for at, (line, other) in enumerate(zip(lines, spoilt)) if line != other}
        # Each request is asked three times: as it is, and with other values.
        self.count += sum(at < len(lines) // 3 for at in self.changed) if words[0] != "audit" else len(self.changed)
        return spoilt

    def spoilt(self, lines: list[Json], case: Case) -> list[Json]:
        """The spoilt program's lines. A refusal stays, and so does the id of a line for another query: it counts other requests."""
        found = [None if "refused" in line else self.spoiling.spoil(copy.deepcopy(line), at, case) for at, line in enumerate(lines)]
        spoilt = [line if each is None or isinstance(each, Instead) else each for line, each in zip(lines, found)]
        again = {at: each for at, each in enumerate(found) if isinstance(each, Instead)}
        for at, answer in zip(again, self.answers(again, case)):
            spoilt[at] = lines[at] if "refused" in answer else {**answer, "id": lines[at]["id"]}
        return spoilt

    def answers(self, again: dict[int, Instead], case: Case) -> list[Json]:
        """The program's own answers to the other queries, all of which have a predicate or none."""
        if not again:
            return []
        document = {name: member for name, member in case.document.items() if name != "guard"}
        document["requests"] = [{**case.document["requests"][at], "query": each.query} for at, each in again.items()]
        predicate = next(iter(again.values())).predicate
        if predicate is not None:
            document["guard"] = {**case.document["guard"], "predicate": predicate}
        return self.plain(["guard" if "guard" in document else "build"], document)

    def is_asked_about(self, command: str, at: int) -> bool:
        """Lines that are as they were are left out; texts that are audited have to be built."""
        return "audit" in self.spoiling.commands or (command in self.spoiling.commands and at in self.changed)
