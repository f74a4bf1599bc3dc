"""An accepted line, and what is asked of lines alone, without a server: the types of their columns, and what one line says of another."""
from __future__ import annotations

from typing import Any, Iterator, Sequence

import values
from column_types import columns_of
from statements import Combination, Schema, Statement, clauses, nodes, python_value, sources_in, statement, statements_in, tables_of


class Fault(Exception):
    """Something is not as the line says; the text says what."""


class Line:
    """An accepted line, and what it answers."""

    def __init__(self, schema: Schema, request: dict[str, Any], answer: dict[str, Any]) -> None:
        self.request = request
        self.sql: str = answer["sql"]
        self.columns: list[str] = answer["columns"]
        self.kinds = [values.kind(told, value) for told, value in answer["binds"]]
        self.values = [python_value(told, value) for told, value in answer["binds"]]
        self.is_safe: bool = answer["safe"]
        self.id: int | None = answer["id"]
        self.answer = answer
        self.statement = statement(schema, request["query"])

    def prepared(self) -> tuple[Any, ...]:
        """What a program that prepared the text relies on."""
        return self.request["dialect"], self.sql, self.columns, self.kinds


Lines = Sequence["Line | dict[str, Any]"]  # a refusal is as it was answered


class Asked:
    """The lines of a document's requests, of the same ones with other values, and of those with lists of other lengths."""

    def __init__(self, schema: Schema, policies: Sequence[dict[str, Any]], groups: Sequence[Sequence[dict[str, Any]]],
                 answers: Sequence[dict[str, Any]]) -> None:
        self.schema = schema
        self.policies = policies
        found: list[Line | dict[str, Any]] = [Line(schema, request, answer) if "sql" in answer else answer
                 for request, answer in zip([each for group in groups for each in group], answers)]
        count = len(groups[0])
        self.all: Lines = found
        self.first, self.others, self.lengths = found[:count], found[count:2 * count], found[2 * count:]

    def accepted(self) -> Iterator[tuple[int, Line]]:
        for at, line in enumerate(self.first):
            if isinstance(line, Line):
                yield at, line

    def faults(self, at: int) -> Iterator[str]:
        """What is wrong with a line, whatever a server does with it."""
        line, other, longer = self.first[at], self.others[at], self.lengths[at]
        assert isinstance(line, Line)
        wanted = columns_of(self.schema, line.statement)
        if wanted != line.columns:
            yield f"columns {line.columns}, should be {wanted}"
        if not isinstance(other, Line) or not isinstance(longer, Line):
            yield f"with other values: {other if not isinstance(other, Line) else longer}"
            return
        if other.prepared() != line.prepared():
            yield f"with other values: {other.answer}"
        yield from self.faults_of_safe(line, longer)
        yield from self.faults_of_id(at, line, other, longer)

    def holds_list(self, line: Line) -> bool:
        return has_list(line.statement) or self.guard_has_list(line)

    def guard_has_list(self, line: Line) -> bool:
        """Whether a policy puts a list of values into the line."""
        read = tables_of(line.statement)
        return any(holds_member(policy.get("predicate"), "list") and policy["table"] in read for policy in self.policies)

    def faults_of_safe(self, line: Line, longer: Line) -> Iterator[str]:
        """A text is safe to be prepared once where it serves lists of each length."""
        serves = line.sql == longer.sql and (line.request["dialect"] == "Pg" or not self.guard_has_list(line))
        if line.is_safe != serves or longer.is_safe != serves:
            yield f"safe is {line.is_safe}, and with lists of other lengths the text is {longer.sql}"

    def faults_of_id(self, at: int, line: Line, other: Line, longer: Line) -> Iterator[str]:
        if (line.id is None) != self.lacks_id(line):
            yield f"the id is {line.id}"
        if other.id != line.id or longer.id != line.id:
            yield f"the id is {line.id}, that with other values {other.id} and {longer.id}"
        if line.id is None:
            return
        first = self.all[line.id - 1] if 1 <= line.id <= at + 1 else None
        if not isinstance(first, Line) or first.id != line.id:
            yield f"the id is {line.id}, and is not the number of the first request of the shape"
        elif first.prepared() != line.prepared():
            yield f"the id is that of {first.answer}"

    def lacks_id(self, line: Line) -> bool:
        return self.holds_list(line) or any(is_without_id(inner) for inner in statements_in(line.statement))


def is_without_id(s: Statement) -> bool:
    """Whether the statement itself is boxed, ordered by positions, or of a sample."""
    if isinstance(s, Combination):
        return bool(s.order)
    return s.is_boxed or (s.source is not None and any(source[0] == "table" and source[3] for source in sources_in(s.source)))


def has_list(s: Statement) -> bool:
    return any(node[0] == "among_values" for inner in statements_in(s) if not isinstance(inner, Combination)
               for e in clauses(inner) for node in nodes(e))


def holds_member(part: Any, name: str) -> bool:
    """Whether a member of this name stands anywhere in a part of a document."""
    if isinstance(part, dict):
        return name in part or any(holds_member(each, name) for each in part.values())
    return isinstance(part, list) and any(holds_member(each, name) for each in part)
