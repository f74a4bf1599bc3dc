"""Statements, each asked for once.

Queries that differ only in values break the same rules and have one text (docs/PROMISES.md, `values_can_be_exchanged`; for lists of other
lengths `list_lengths_can_be_exchanged`, where the answer says `safe`). So an engine is asked for a shape once, and from then on its
values are put in order here. Which value goes where is learned from the engine too: it is asked for the same shape with values that
tell their places.
"""
from __future__ import annotations

import collections
import json
import threading
from typing import Any, Callable, Dict, FrozenSet, Iterable, Iterator, List, NamedTuple, Optional, Sequence, Tuple, Union

from .asking import answers
from .engines import Engine, KeepsSession, lines
from .errors import EngineError, HardieflaxError, Refused, SchemaError
from .explain import as_told, why
from .expressions import Values, filled, tables_of
from .guards import Guard, places_of, values_at_places
from .queries import Statement
from .rules import refusal
from .schema import Schema
from .sql_types import BigInt, Bound
from .tables import near

Json = Any
# The number that a text may bind of its own: the limit of a single value. So it is no mark of a value.
OWN = 1
FIRST_MARK = 2
# Of more values than a SmallInt has numbers, places cannot be told apart.
MOST_VALUES = 32767 - FIRST_MARK
# A longer shape is not kept: it hardly comes again, and a few thousand such would fill the memory.
MOST_KEPT = 65536
# Of more tables, the pairs that may stand together are too many for one document: then each has the tables that it needs.
MOST_TABLES = 300
_planners_lock = threading.Lock()


class Plan(NamedTuple):
    """What is known of a shape: its text, and which value each placeholder takes: (the number of a value, the number in a list).

    The number after the last value's stands for OWN.
    """

    sql: str
    order: Tuple[Tuple[int, Optional[int]], ...]
    columns: Tuple[str, ...]
    safe: bool
    id: Optional[int]

    def binds(self, values: Values) -> Tuple[Bound, ...]:
        """The values in the order of their placeholders."""
        values = (*values, _OWN)
        return tuple(values[at] if element is None else Bound(values[at].type, values[at].wire[element]) for at, element in self.order)


class Request(NamedTuple):
    """A query in a dialect, restricted by a guard or not."""

    dialect: str
    query: Statement[Any]
    guard: Optional[Guard]

    @property
    def values(self) -> Values:
        """The values of the guard, and then those of the query."""
        return self.query.values if self.guard is None else self.guard.values + self.query.values

    def key(self, with_lengths: bool) -> Tuple[Any, ...]:
        """What requests of one plan have in common: all but the values, and all but the lengths of lists where those do not matter."""
        lengths = tuple(value.length for value in self.values if value.is_list) if with_lengths else None
        return (self.dialect, "" if self.guard is None else self.guard.key, self.query.shape, lengths)


Outcome = Union[Plan, HardieflaxError]
_OWN = Bound(BigInt, OWN)


class Planner:
    """The plans over one schema by one engine. Threads may share it."""

    def __init__(self, schema: Schema, engine: Engine, capacity: int = 4096) -> None:
        self.schema, self.engine, self.capacity = schema, engine, capacity
        self._plans: collections.OrderedDict[Tuple[Any, ...], Outcome] = collections.OrderedDict()
        self._lock = threading.Lock()
        self._count = 0
        self.asked = 0

    def plans(self, requests: Sequence[Request]) -> List[Outcome]:
        """A plan for each request, or why there is none. What is not known yet is asked for at once."""
        found = [self._known(each) for each in requests]
        missing: Dict[Tuple[Any, ...], Request] = {each.key(True): each for each, plan in zip(requests, found) if plan is None}
        if missing:
            made = dict(zip(missing, self._made(list(missing.values()))))
            found = [made[each.key(True)] if plan is None else plan for each, plan in zip(requests, found)]
        return [each for each in found if each is not None]

    def knows(self, request: Request) -> bool:
        """Whether the request's plan needs no question."""
        return self._known(request) is not None

    def _known(self, request: Request) -> Optional[Outcome]:
        has_lists = any(value.is_list for value in request.values)
        with self._lock:
            for with_lengths in (False, True) if has_lists else (True,):
                key = request.key(with_lengths)
                found = self._plans.get(key)
                if found is not None:
                    self._plans.move_to_end(key)
                    return found
        return None

    def _keep(self, request: Request, outcome: Outcome) -> None:
        if len(request.query.shape) > MOST_KEPT:
            return
        has_lists = any(value.is_list for value in request.values)
        any_length = has_lists and isinstance(outcome, Plan) and outcome.safe
        with self._lock:
            self._plans[request.key(not any_length)] = outcome
            while len(self._plans) > self.capacity:
                self._plans.popitem(last=False)

    def _made(self, requests: List[Request]) -> List[Outcome]:
        outcomes: List[Optional[Outcome]] = [None] * len(requests)
        groups: Dict[Tuple[Any, ...], List[int]] = {}
        for at, request in enumerate(requests):
            try:
                groups.setdefault(self._document_key(request), []).append(at)
            except HardieflaxError as error:
                outcomes[at] = error
        for places in groups.values():
            for at, outcome in zip(places, self._asked([requests[at] for at in places])):
                outcomes[at] = outcome
                if not isinstance(outcome, EngineError):
                    self._keep(requests[at], outcome)
        return [outcome for outcome in outcomes if outcome is not None]

    def _document_key(self, request: Request) -> Tuple[Any, ...]:
        """What requests of one document have in common: the guard and its values. HardieflaxError: the request is not asked for."""
        if len(request.values) > MOST_VALUES:
            raise SchemaError(f"the query has more than {MOST_VALUES} values: give many values as a list, by in_")
        tables = tables_of(json.loads(filled(request.query.shape, request.query.values)))
        for each in tables:
            if each not in self.schema.names:
                raise SchemaError(f"the query reads {each}, which is not in the schema{near(each, self.schema.names)}")
        if request.guard is None:
            return ()
        request.guard.look_at(tables)
        return (request.guard.key, json.dumps([value.wire for value in request.guard.values]))

    def _asked(self, requests: List[Request]) -> Iterator[Outcome]:
        """Asks for requests of one document."""
        guard = requests[0].guard
        asker, trials = _Asker(self, guard), [_Trials(each) for each in requests]
        of_guard = 0 if guard is None else len(guard.values)
        values = [[each.values for each in requests]]
        values += [[trial.values(number) for trial in trials] for number in range(max(each.count for each in trials))]
        texts = [[(each.dialect, filled(each.query.shape, these[of_guard:])) for each, these in zip(requests, row)] for row in values]
        if of_guard:
            told = [asker.ask(row, these[0][:of_guard]) for row, these in zip(texts, values)]
        else:  # a document has one guard, so only without values of it do all go together
            together, count = asker.ask([each for row in texts for each in row]), len(requests)
            told = [together[at:at + count] for at in range(0, len(together), count)]
        for at, (request, trial) in enumerate(zip(requests, trials)):
            yield self._outcome(request, trial, [each[at] for each in told], asker)

    def _outcome(self, request: Request, trial: _Trials, told: List[Json], asker: _Asker) -> Outcome:
        answer = told[0]
        if isinstance(answer, HardieflaxError):
            return answer
        if "refused" in answer:
            query = request.query.json()

            def ask(queries: Sequence[Json]) -> List[Json]:
                return asker.ask([(request.dialect, json.dumps(each)) for each in queries])

            parts = as_told(asker.explained(request), query, answer["refused"]) or why(ask, query, answer["refused"])
            return refusal(answer["refused"], parts, query)
        return self._plan(request, trial, told)

    def _next_id(self) -> int:
        """An id of this planner's own: that of an answer means nothing beyond its document."""
        with self._lock:
            self._count += 1
            return self._count

    def _plan(self, request: Request, trial: _Trials, told: List[Json]) -> Outcome:
        answer = told[0]
        if any(isinstance(each, HardieflaxError) or each.get("sql") != answer["sql"] for each in told[1:1 + trial.count]):
            return EngineError(0, detail=f"with other values {answer['sql']} is another text")
        number = None if answer["id"] is None else self._next_id()
        plan = Plan(answer["sql"], trial.order(told), tuple(answer["columns"]), answer["safe"], number)
        binds = [[each.type.document_name, list(each.wire) if each.is_list else each.wire] for each in plan.binds(request.values)]
        expected = [name for output in request.query.outputs for name in output.document_names()]
        if binds != answer["binds"]:
            return EngineError(0, detail=f"the values of {answer['sql']} are not where they were found")
        if list(plan.columns) != expected:
            return EngineError(0, detail=f"the columns of {answer['sql']} are {list(plan.columns)}, and {expected} were expected")
        return plan


class _Asker:
    """Asks an engine for queries, restricted by a guard or not."""

    def __init__(self, planner: Planner, guard: Optional[Guard]) -> None:
        self.planner, self.guard = planner, guard
        self.open = planner.schema.names if guard is None else guard.tables

    def ask(self, queries: Sequence[Tuple[str, str]], values: Optional[Values] = None) -> List[Any]:
        """The answer to each query, or the error for it. The guard may have other values than its own."""
        if values is None:
            values = () if self.guard is None else self.guard.values
        requests = [f'{{"dialect":"{dialect}","query":{query}}}' for dialect, query in queries]
        of_guard: Values = values
        return answers(lambda batch: self._run(batch, of_guard), requests)

    def explained(self, request: Request) -> List[Any]:
        """What the engine's command `explain` says of a request; nothing, where it has none."""
        engine = self.planner.engine
        if not engine.has("explain"):
            return []
        body = f'{{"dialect":"{request.dialect}","query":{filled(request.query.shape, request.query.values)}}}'
        document = self._document([body], () if self.guard is None else self.guard.values)
        try:
            return lines(engine.run(["explain"] if self.guard is None else ["explain", "tenant"], document))
        except EngineError:  # a refusal is told without it
            return []

    def _run(self, requests: Sequence[str], values: Values) -> bytes:
        self.planner.asked += 1
        engine = self.planner.engine
        is_small = len(self.open) <= MOST_TABLES
        if isinstance(engine, KeepsSession) and (is_small if self.guard is None else engine.has_policies()):
            return self._next(engine, self.open if is_small else self._read(requests), requests, values)
        return engine.run(["build" if self.guard is None else "tenant"], self._document(requests, values))

    def _next(self, engine: KeepsSession, tables: FrozenSet[str], requests: Sequence[str], values: Values) -> bytes:
        """Asks in a session over these tables. A session with policies has places for the guard's values, so one serves all tenants."""
        lengths = tuple(value.length for value in values)
        owner = (self.planner.schema, tables, None if self.guard is None else (self.guard.key, lengths))
        given = "" if self.guard is None else f'"values":{json.dumps(values_at_places(values), ensure_ascii=False)},'

        def opening() -> Json:
            members = self._members(tables, places_of(values))
            return members if self.guard is None else {**members, "values": values_at_places(values)}

        return engine.next(owner, opening, f'{given}"requests":[{",".join(requests)}]')

    def _document(self, requests: Sequence[str], values: Values) -> bytes:
        """A document with these requests, and with what they need of the schema."""
        members = self._members(self._read(requests), values)
        return f'{json.dumps(members, ensure_ascii=False)[:-1]},"requests":[{",".join(requests)}]}}'.encode()

    def _read(self, requests: Sequence[str]) -> FrozenSet[str]:
        """The tables that requests read, of those that are open."""
        return self.open & {name for each in requests for name in tables_of(json.loads(each))}

    def _members(self, tables: FrozenSet[str], values: Values) -> Dict[str, Json]:
        """The members of a document but for its requests. What is closed is not even declared, so the engine knows nothing of it."""
        members: Dict[str, Json] = {"schema": self.planner.schema.document(tables)}
        if self.guard is not None:
            members["tenant"] = self.guard.policies(values, tables)
        return members


def planner_of(schema: Schema, engine: Engine) -> Planner:
    """The planner of a schema by an engine: sessions share it."""
    with _planners_lock:
        found = schema.planners.get(id(engine))
        if found is None or found.engine is not engine:
            found = schema.planners[id(engine)] = Planner(schema, engine)
        return found


class _Trials:
    """A request with values that tell their places: all but truth values at once, and these by a trial for each bit of a number."""

    def __init__(self, request: Request) -> None:
        self._bounds = request.values
        self._is_pg = request.dialect == "Pg"
        has_bool = any(each.type.base == "Bool" for each in self._bounds)
        self.count = (max(1, (len(self._bounds) - 1).bit_length()) if has_bool else 1) if self._bounds else 0

    def values(self, number: int) -> Values:
        """The values of a trial."""
        return tuple(self._marked(at, each, number) for at, each in enumerate(self._bounds))

    def _marked(self, at: int, bound: Bound, number: int) -> Bound:
        wire = _MARKS[bound.type.base](at, number)
        if not bound.is_list:
            return Bound(bound.type, wire)
        # An empty list is a value on PostgreSQL, which has to tell its place too.
        return Bound(bound.type, (wire,) * max(len(bound.wire), int(self._is_pg)), is_list=True)

    def order(self, answers: Sequence[Json]) -> Tuple[Tuple[int, Optional[int]], ...]:
        """Which value each placeholder takes, by the answers to the request and to the trials."""
        seen: collections.Counter[int] = collections.Counter()
        made: List[Tuple[int, Optional[int]]] = []
        for place in range(len(answers[0]["binds"])):
            marks = [each["binds"][place] for each in answers[1:1 + self.count]]
            at = _place(marks) if marks else OWN - FIRST_MARK
            if at == OWN - FIRST_MARK:
                made.append((len(self._bounds), None))
            elif isinstance(marks[0][1], list) or not self._bounds[at].is_list:
                made.append((at, None))
            else:
                made.append((at, seen[at] % len(self._bounds[at].wire)))
                seen[at] += 1
        return tuple(made)


def _number_mark(at: int, number: int) -> int:
    return at + FIRST_MARK


_MARKS: Dict[str, Callable[[int, int], Any]] = {
    "SmallInt": _number_mark, "Integer": _number_mark, "BigInt": _number_mark,
    "Text": lambda at, number: str(at), "Binary": lambda at, number: f"{at:08x}", "Bool": lambda at, number: bool(at >> number & 1),
}


def _place(marks: Iterable[Json]) -> int:
    """The number that a placeholder's values in the trials tell."""
    at = 0
    for number, (name, value) in enumerate(marks):
        mark = value[0] if isinstance(value, list) else value
        if not isinstance(mark, bool):
            return int(mark, 16 if name.startswith("Binary") else 10) if isinstance(mark, str) else int(mark) - FIRST_MARK
        at |= mark << number
    return at


__all__ = ["Outcome", "Plan", "Planner", "Refused", "Request", "planner_of", "tables_of"]
