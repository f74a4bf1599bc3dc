"""What a statement may answer over a database: docs/MEANING.md, evaluated. SQL leaves the order of rows and other choices open, so an
expression has a tuple of values that it may give, and a statement several answers. The definitions are those of the crate sql_rows_meaning,
`specs/Values.antt`, `Rows.antt`, `Groups.antt` and `Answers.antt`, whose names stand in brackets.

Rows are tuples; NULL is None. A frame is a dictionary from origins to rows. An answer is held as cells: of each group of rows whose order
is open, so many are taken, in any order.
"""
from __future__ import annotations

import functools
import itertools
import math
from collections import Counter
from dataclasses import dataclass, replace
from typing import Any, Callable, Dict, Iterable, Iterator, List, Optional, Sequence, Tuple, Union

from statements import Combination, Database, Expr, Origin, Row, Schema, Select, Source, Statement, has_count, is_aggregated, leaves

BUDGET = 20000

Values = Tuple[Any, ...]  # those that an expression may give
Frame = Dict[Origin, Row]
Places = Tuple[bool, bool]  # whether NULL comes first in ascending and in descending order
Line = Tuple[Row, Row, Row]  # what a row shows, the key by which it is distinct, and that by which it is ordered
Cells = List[Tuple[List[Row], int]]


# Where a dialect's server puts NULL, and every choice. [null_places]
NULL_PLACES: Dict[str, Places] = {"Pg": (False, True), "Mysql": (True, False), "Sqlite": (True, False)}
EVERY_PLACES: Tuple[Places, ...] = ((False, True), (True, False), (False, False), (True, True))


class NoMeaning(Exception):
    """An aggregate stands in ON, where servers refuse it."""


class TooManyAnswers(Exception):
    """More choices than this script follows."""


@dataclass
class Group:
    """The rows of a group, and the one from which its columns take their values. [one_row]"""
    rows: List[Frame]
    one: Frame


At = Union[Frame, Group]


def frame_of(at: At) -> Frame:
    return at.one if isinstance(at, Group) else at


# ---- values

def compared(operator: str, x: Any, y: Any) -> Any:
    """[compared_value]"""
    if x is None or y is None:
        return None
    return {"eq": x == y, "ne": x != y, "lt": x < y, "le": x <= y, "gt": x > y, "ge": x >= y}[operator]


def connected(operator: str, x: Any, y: Any) -> Any:
    """[joined_value]"""
    decisive = operator == "or"
    if x is decisive or y is decisive:
        return decisive
    return None if x is None or y is None else not decisive


def negated(x: Any) -> Any:
    """[not_value]"""
    return None if x is None else not x


def among(is_negated: bool, x: Any, values: Iterable[Any]) -> Any:
    """[among_value]"""
    start: Any = False
    found = functools.reduce(lambda so_far, y: connected("or", so_far, compared("eq", x, y)), values, start)
    return negated(found) if is_negated else found


def distinct(values: Iterable[Any]) -> Values:
    return tuple(dict.fromkeys(values))


# ---- orders and pages

def comes_before(places: Places, descends: bool, x: Any, y: Any) -> bool:
    """[comes_before]"""
    if x is None or y is None:
        return x is not y and (places[descends] if x is None else not places[descends])
    return bool(y < x if descends else x < y)


def compare_keys(places: Places, descending: Sequence[bool], xs: Row, ys: Row) -> int:
    """Negative where xs comes before ys, by the first item in which they differ. [row_before]"""
    for descends, x, y in zip(descending, xs, ys):
        if comes_before(places, descends, x, y):
            return -1
        if comes_before(places, descends, y, x):
            return 1
    return 0


def tied(lines: Iterable[Tuple[Row, Row]], descending: Sequence[bool], places: Places) -> List[List[Row]]:
    """The rows of lines (key, row) in order, as groups that no item tells apart. [IsOrdered]"""
    def compare(a: Tuple[Row, Row], b: Tuple[Row, Row]) -> int:
        return compare_keys(places, descending, a[0], b[0])

    by_key = functools.cmp_to_key(compare)
    return [[row for _, row in group] for _, group in itertools.groupby(sorted(lines, key=by_key), key=by_key)]


def cells_of(groups: Iterable[List[Row]], limit: Optional[int], offset: Optional[int]) -> Cells:
    """Of each group how many rows the page has. [page]"""
    start = max(offset or 0, 0)
    end = math.inf if limit is None or limit < 0 else start + limit
    cells: Cells = []
    at = 0
    for group in groups:
        taken = min(at + len(group), end) - max(at, start)
        if taken > 0:
            cells.append((group, int(taken)))
        at += len(group)
    return cells


def is_page(cells: Cells, rows: Sequence[Row]) -> bool:
    """Whether the rows are an answer of these cells."""
    if len(rows) != sum(taken for _, taken in cells):
        return False
    at = 0
    for group, taken in cells:
        if Counter(rows[at:at + taken]) - Counter(group):
            return False
        at += taken
    return True


def bags_of(cells: Cells) -> Iterator[Counter[Row]]:
    """The bags of rows that answers of these cells are in some order."""
    choices = [set(itertools.combinations(sorted(group, key=repr), taken)) for group, taken in cells]
    for choice in itertools.product(*choices):
        yield Counter(itertools.chain(*choice))


def combined(operator: str, keeps_all: bool, m: int, n: int) -> int:
    """[combined]"""
    if operator == "union":
        return m + n if keeps_all else min(1, m + n)
    if operator == "intersect":
        return min(m, n) if keeps_all else min(1, m, n)
    return max(m - n, 0) if keeps_all else (min(1, m) if n == 0 else 0)


# ---- the meaning

class Meaning:
    """The answers over one database: for each table's name a list of rows."""

    def __init__(self, schema: Schema, database: Database) -> None:
        self.schema = schema
        self.database = database
        self.budget = BUDGET
        self.places = EVERY_PLACES[0]

    def allows(self, statement: Statement, rows: Sequence[Row], choices: Iterable[Places] = EVERY_PLACES) -> bool:
        """Whether these rows, in this order, are an answer of the statement, for one of these choices of where NULL comes."""
        return any(self.is_answer(statement, rows, places) for places in choices)

    def is_answer(self, statement: Statement, rows: Sequence[Row], places: Places) -> bool:
        self.budget, self.places = BUDGET, places
        return any(is_page(cells, rows) for cells in self.pages(statement, {}))

    def an_answer(self, statement: Statement, places: Places) -> List[Row]:
        """One answer, to show beside rows that are none."""
        self.budget, self.places = BUDGET, places
        return [row for group, taken in next(self.pages(statement, {})) for row in group[:taken]]

    def spend(self, cost: int = 1) -> None:
        self.budget -= cost
        if self.budget < 0:
            raise TooManyAnswers

    # -- expressions [Gives]

    def values(self, e: Expr, at: At) -> Values:
        """The values that an expression may give, at a row or for a group."""
        if isinstance(at, Group):
            return self.group_values(e, at)
        if e[0] == "column":
            return (at[e[1]][self.schema.index[e[1][1]][e[2]]],)
        if e[0] in ("exists", "single", "skipped"):
            return self.subselect_values(e[0], e[1], at)
        return self.compound_values(e, at)

    def group_values(self, e: Expr, group: Group) -> Values:
        """A count of the group's rows, or the value at its one row. [Gives: count_star, count, column]"""
        if e[0] == "count_star":
            return (len(group.rows),)
        if e[0] == "count":
            given = [self.values(e[1], row) for row in group.rows]
            least = sum(None not in values for values in given)
            most = sum(any(x is not None for x in values) for values in given)
            return tuple(range(least, most + 1))
        if has_count(e):
            return self.compound_values(e, group)
        return self.values(e, group.one)

    def compound_values(self, e: Expr, at: At) -> Values:
        tag = e[0]
        if tag == "value":
            return (e[2],)
        if tag == "nullable":
            return self.values(e[1], at)
        if tag == "list":  # of one element, under a nullable or in a selection
            (only,) = e[1]
            return self.values(only, at)
        if tag == "compare":
            return self.both(compared, e, at)
        if tag == "connect":
            return self.both(connected, e, at)
        if tag == "not":
            return distinct(negated(x) for x in self.values(e[1], at))
        if tag == "null_test":
            return distinct((x is None) != e[1] for x in self.values(e[2], at))
        if tag == "either":
            return True, False, None
        if tag == "among_values":
            return distinct(among(e[1], x, e[4]) for x in self.values(e[2], at))
        if tag == "among_rows":
            pages = list(self.pages(e[3], frame_of(at)))
            return distinct(negated(found) if e[1] else found for x in self.values(e[2], at) for cells in pages for found in found_in(x, cells))
        raise NoMeaning

    def both(self, operation: Callable[[str, Any, Any], Any], e: Expr, at: At) -> Values:
        return distinct(operation(e[1], x, y) for x in self.values(e[2], at) for y in self.values(e[3], at))

    def subselect_values(self, tag: str, inner: Statement, frame: Frame) -> Values:
        if tag == "exists":
            return distinct(bool(cells) for cells in self.pages(inner, frame))
        found = distinct(x for cells in self.pages(inner, frame) for x in first_values(cells))
        if tag == "single" or None not in found:
            return found
        everything = self.pages(replace(inner, limit=None, offset=None), frame)
        return distinct((*found, *(row[0] for cells in everything for group, _ in cells for row in group)))

    def lists(self, e: Expr, at: At) -> List[Values]:
        """The same of each element of a selection. [AllGive]"""
        if e[0] == "list":
            return [values for each in e[1] for values in self.lists(each, at)]
        if e[0] == "nullable":
            return self.lists(e[1], at)
        return [self.values(e, at)]

    # -- sources [SourceRows]

    def sources(self, source: Source) -> Iterator[List[Frame]]:
        """The lists of frames that a source may give, their order aside."""
        if source[0] == "join":
            for left in self.sources(source[2]):
                for right in self.sources(source[3]):
                    yield from self.joins(source, left, right)
            return
        origin: Origin = (None, source[1]) if source[0] == "table" else (source[1], source[2])
        is_partial = source[0] == "table" and source[2]
        rows: List[Frame] = [{origin: row} for row in self.database[origin[1]]]
        for taken in range(0 if is_partial else len(rows), len(rows) + 1):
            yield from (list(some) for some in itertools.combinations(rows, taken))

    def joins(self, source: Source, left: List[Frame], right: List[Frame]) -> Iterator[List[Frame]]:
        """[Joined]"""
        _, kind, _, right_source, on = source
        padding = self.lacking(right_source)
        options: List[List[List[Frame]]] = []
        for x in left:
            pairs = self.passing(on, [{**x, **y} for y in right], itself)
            options.append([some or ([{**x, **padding}] if kind == "left" else []) for some in pairs])
        self.spend(math.prod(map(len, options)))
        for choice in itertools.product(*options):
            yield list(itertools.chain(*choice))

    def lacking(self, source: Optional[Source]) -> Frame:
        """NULL in each column."""
        return {} if source is None else {origin: (None,) * len(self.schema.columns(origin[1])) for origin, _ in leaves(source)}

    def passing(self, condition: Optional[Expr], rows: Sequence[Any], sees: Callable[[Any], Any]) -> List[List[Any]]:
        """The lists of rows, or groups, for which the condition may be true. [Filtered, Holds]"""
        self.spend(len(rows) + 1)
        options: List[List[List[Any]]] = []
        for row in rows:
            truths = {True} if condition is None else {x is True for x in self.values(condition, sees(row))}
            options.append([kept for truth, kept in ((True, [row]), (False, [])) if truth in truths])
        self.spend(math.prod(map(len, options)))
        return [list(itertools.chain(*choice)) for choice in itertools.product(*options)]

    # -- statements [Answers]

    def pages(self, s: Statement, outer: Frame) -> Iterator[Cells]:
        """The answers of a statement, as cells. [Answers]"""
        if isinstance(s, Combination):
            yield from self.combination_pages(s, outer)
            return
        descending = [descends for _, descends in s.order or []]
        for lines in self.lines(s, outer):
            for left in self.left_by(s.distinct, lines, descending):
                self.spend(len(left) + 1)
                yield cells_of(tied([(order, shown) for shown, _, order in left], descending, self.places), s.limit, s.offset)

    def combination_pages(self, s: Combination, outer: Frame) -> Iterator[Cells]:
        descending = [descends for _, descends in s.order]
        for xs in self.bags(s.left, outer):
            for ys in self.bags(s.right, outer):
                rows = [row for row in {**xs, **ys} for _ in range(combined(s.operator, s.keeps_all, xs[row], ys[row]))]
                lines = [(tuple(value_at(number, row) for number, _ in s.order), row) for row in rows]
                yield cells_of(tied(lines, descending, self.places), s.limit, s.offset)

    def bags(self, s: Statement, outer: Frame) -> Iterator[Counter[Row]]:
        seen = set()
        for cells in self.pages(s, outer):
            self.spend(math.prod(math.comb(len(group), taken) for group, taken in cells))
            for bag in bags_of(cells):
                if frozenset(bag.items()) not in seen:
                    seen.add(frozenset(bag.items()))
                    yield bag

    def lines(self, s: Select, outer: Frame) -> Iterator[List[Line]]:
        """The lists of lines (shown, key, order) that a statement may have before DISTINCT."""
        nothing: List[Frame] = [{}]
        for rows in self.sources(s.source) if s.source is not None else iter([nothing]):
            for passing in self.passing(s.where, rows, lambda row: where_sees(s, row, outer)):
                for units in self.units(s, passing):
                    options = [self.line_options(s, unit) for unit in units]
                    self.spend(math.prod(map(len, options)))
                    for choice in itertools.product(*options):
                        yield [line for line in choice if line is not None]

    def units(self, s: Select, rows: List[Frame]) -> Iterator[Sequence[Union[Frame, List[Frame]]]]:
        """What a statement gives a line for: each of the rows, or each group of them."""
        if not is_aggregated(s):
            yield rows
            return
        for taken in range(0 if s.modifier == "skip_locked" else len(rows), len(rows) + 1):
            for some in itertools.combinations(rows, taken):
                yield from self.groups(s, some)

    def groups(self, s: Select, rows: Sequence[Frame]) -> Iterator[List[List[Frame]]]:
        """The lists of groups: one for each list of values of GROUP BY, and one in all where there is none. [GroupedBy]"""
        keys = [list(itertools.product(*self.lists(s.group_by, row))) for row in rows] if s.group_by is not None else [[()]] * len(rows)
        self.spend(math.prod(map(len, keys)) + len(rows))
        for choice in itertools.product(*keys):
            found: Dict[Row, List[Frame]] = {} if s.group_by is not None else {(): []}
            for key, row in zip(choice, rows):
                found.setdefault(key, []).append(row)
            yield list(found.values())

    def line_options(self, s: Select, unit: Union[Frame, List[Frame]]) -> List[Optional[Line]]:
        """The lines of a row or a group; none at all is one where HAVING may not be true, or SKIP LOCKED may leave the row out."""
        if not isinstance(unit, list):
            lines = self.lines_at(s, unit)
            return [*lines, None] if s.modifier == "skip_locked" else lines
        found = {line: None for one in unit or [self.lacking(s.source)] for line in self.lines_at(s, Group(unit, one))}
        self.spend(len(unit) + len(found))
        return list(found)

    def lines_at(self, s: Select, at: At) -> List[Optional[Line]]:
        """The same of a row, or of a group of which one row is chosen."""
        truths = {True} if s.having is None else {x is True for x in self.values(s.having, at)}
        if True not in truths:
            return [None]
        shown = self.lists(s.selection, at)
        key = self.lists(s.distinct, at) if isinstance(s.distinct, tuple) else []
        order = [self.values(e, at) for e, _ in s.order or []]
        self.spend(math.prod(map(len, shown + key + order)))
        lines: List[Optional[Line]] = list(itertools.product(*(list(itertools.product(*part)) for part in (shown, key, order))))
        return [*lines, None] if False in truths else lines

    def left_by(self, how: Union[str, Expr, None], lines: List[Line], descending: Sequence[bool]) -> Iterable[Sequence[Line]]:
        """Any one line of each key; under DISTINCT ON one that none of its key comes before. [left_by, ordered_by]"""
        if how is None:
            return [lines]
        at = 0 if how == "distinct" else 1
        groups: Dict[Row, Dict[Line, None]] = {}
        for line in lines:
            groups.setdefault(line[at], {})[line] = None
        choices = [list(group) if at == 0 else self.first_of(group, descending) for group in groups.values()]
        self.spend(math.prod(map(len, choices)))
        return itertools.product(*choices)

    def first_of(self, lines: Iterable[Line], descending: Sequence[bool]) -> List[Line]:
        """Those that none of the lines comes before."""
        found: List[Line] = []
        for line in lines:
            order = compare_keys(self.places, descending, line[2], found[0][2]) if found else -1
            found = [line] if order < 0 else [*found, line] if order == 0 else found
        return found


def itself(at: At) -> At:
    return at


def where_sees(s: Select, row: Frame, outer: Frame) -> Frame:
    """[where_sees]"""
    if s.source is None:
        return {} if not s.is_boxed else row
    return row if s.is_boxed else {**outer, **row}


def value_at(number: int, row: Row) -> Any:
    """[value_at]"""
    return row[number - 1] if 1 <= number <= len(row) else None


def first_values(cells: Cells) -> List[Any]:
    """The first value of the first row of answers of these cells, NULL where there is none. [single_value]"""
    return [row[0] for row in cells[0][0]] if cells else [None]


def found_in(x: Any, cells: Cells) -> List[Any]:
    """What `x = ANY` may be over answers of these cells: true where a value equals it, else NULL where a comparison is. [any_value]"""
    counts = []
    for group, taken in cells:
        equalities = Counter(compared("eq", x, row[0]) for row in group)
        counts.append((taken, equalities[True], equalities[None], equalities[False]))
    found: List[Any] = []
    if any(equal for _, equal, _, _ in counts):
        found.append(True)
    if all(taken <= unknown + other for taken, _, unknown, other in counts):
        if any(unknown for _, _, unknown, _ in counts):
            found.append(None)
        if all(taken <= other for taken, _, _, other in counts):
            found.append(False)
    return found
