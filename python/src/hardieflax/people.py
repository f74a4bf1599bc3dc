"""SQL as people write it, read by sqlglot, in the words of the grammar (docs/GRAMMAR.md): for audits alone.

What is written reads the same columns of the same tables, in the same order. It need not compute the same: values become placeholders, and a
function of columns becomes its columns, joined by AND. What the grammar has no place for is said, and nothing is written.
"""
from __future__ import annotations

import re
from typing import Any, Dict, List, Optional, Sequence, Tuple

from .schema import Schema

Scopes = Sequence[Sequence[Tuple[str, str]]]
_READS = {"Pg": "postgres", "Mysql": "mysql", "Sqlite": "sqlite", "Bracket": "tsql"}
_QUOTES = {"Pg": ('"', '"'), "Mysql": ("`", "`"), "Sqlite": ("`", "`"), "Bracket": ("[", "]")}
# The schema of a server that names stand in without a word.
_USUAL = {"Pg": "public", "Sqlite": "main"}
_COMPARED = {"EQ": "=", "NEQ": "!=", "LT": "<", "LTE": "<=", "GT": ">", "GTE": ">=", "And": "AND", "Or": "OR"}
# How a note ends that says what was read as the columns in it.
REDUCED = " is reduced to its columns"
_COMBINED = {"Union": "UNION", "Except": "EXCEPT", "Intersect": "INTERSECT"}


class Lacks(Exception):
    """What the grammar has no place for."""


def in_grammar(sql: str, schema: Schema, dialect: str) -> Tuple[Optional[str], Tuple[str, ...]]:
    """The statement in the words of the grammar, with notes of what was changed; or None, with the reason."""
    try:
        import sqlglot
        import sqlglot.errors
    except ImportError:
        return None, ("the grammar has another spelling; with sqlglot installed SQL as people write it is read too",)
    columns = {_sql_name(table): [column.sql_name for column in table.__columns__.values()] for table in schema}
    writer = _Writer(dialect, columns, sqlglot.exp)
    try:
        parsed = sqlglot.parse_one(_without_lock_modifier(sql), read=_READS[dialect])
        return writer.query(parsed, ()), tuple(sorted(writer.notes))
    except Lacks as error:
        return None, (f"the grammar has no {error}",)
    except (sqlglot.errors.SqlglotError, RecursionError, ValueError, AttributeError, IndexError) as error:
        return None, (f"sqlglot does not read it: {str(error)[:200]}",)


def _sql_name(table: Any) -> str:
    name: str = table.__sql_name__ or table.__table__
    return name


def _without_lock_modifier(sql: str) -> str:
    return re.sub(r"\s+(SKIP\s+LOCKED|NOWAIT)\s*;?\s*$", "", sql, flags=re.IGNORECASE)


class _Writer:
    """Writes what sqlglot has parsed. `exp` is its module of expressions."""

    def __init__(self, dialect: str, columns: Dict[str, List[str]], exp: Any) -> None:
        self.dialect, self.columns, self.exp = dialect, columns, exp
        self.notes: set[str] = set()
        self._count = 0

    def quoted(self, name: str) -> str:
        """A name as the dialect quotes it."""
        begin, end = _QUOTES[self.dialect]
        return begin + name.replace(end, end * 2) + end

    def placeholder(self) -> str:
        """The next placeholder."""
        self._count += 1
        return {"Pg": f"${self._count}", "Bracket": f"@p{self._count}"}.get(self.dialect, "?")

    def query(self, x: Any, outer: Scopes) -> str:
        """A select statement, or a combination."""
        if isinstance(x, (self.exp.Subquery, self.exp.Paren)):
            return self.query(x.this, outer)
        if _given(x, "with"):
            raise Lacks("WITH")
        word = type(x).__name__
        if word in _COMBINED:
            return self._combination(x, outer, _COMBINED[word] + ("" if x.args.get("distinct") else " ALL"))
        if not isinstance(x, self.exp.Select):
            raise Lacks(f"statement of the kind {word.upper()}")
        return self._select(x, outer)

    def _combination(self, x: Any, outer: Scopes, word: str) -> str:
        left, right = self.query(x.this, outer), self.query(x.expression, outer)
        shape = "SELECT * FROM ({}) {} SELECT * FROM ({})" if self.dialect == "Sqlite" else "({}) {} ({})"
        text = shape.format(left, word, right)
        order = x.args.get("order")
        if order:
            names = [each.alias_or_name for each in _leftmost(x, self.exp).expressions]
            places = [self._place_of(item, names) for item in order.expressions]
            text += " ORDER BY " + ", ".join(places)
        return text + self._page(x)

    def _place_of(self, item: Any, names: Sequence[str]) -> str:
        by = item.this
        if isinstance(by, self.exp.Literal) and not by.is_string:
            return f"{by.this}{_direction(item)}"
        if by.name not in names:
            raise Lacks("order of a combination by an expression")
        return f"{names.index(by.name) + 1}{_direction(item)}"

    def _select(self, x: Any, outer: Scopes) -> str:
        leaves: List[Tuple[str, str]] = []
        source = self._sources(x, leaves, outer)
        scopes = [leaves, *outer]
        for clause in ("windows", "qualify", "laterals"):
            if _given(x, clause):
                raise Lacks(clause.upper())
        aliases = {each.alias: each.this for each in x.expressions if isinstance(each, self.exp.Alias)}
        text = "SELECT " + self._distinct(x, scopes) + ", ".join(self._selection(x, leaves, scopes))
        text += f" FROM {source}" if source else ""
        if x.args.get("where"):
            text += " WHERE " + self.expr(x.args["where"].this, scopes)
        if x.args.get("group"):
            text += " GROUP BY " + ", ".join(self.expr(self._meant(each, x, aliases, leaves), scopes) for each in x.args["group"].expressions)
        if x.args.get("having"):
            text += " HAVING " + self.expr(x.args["having"].this, scopes)
        if x.args.get("order"):
            items = x.args["order"].expressions
            text += " ORDER BY " + ", ".join(self.expr(self._meant(each.this, x, aliases, leaves), scopes) + _direction(each) for each in items)
        return text + self._page(x) + self._lock(x)

    def _lock(self, x: Any) -> str:
        lock = x.args.get("lock") or (x.args.get("locks") or [None])[0]
        if not lock or self.dialect in ("Sqlite", "Bracket"):
            return ""
        return " FOR UPDATE" if lock.args.get("update") else " FOR SHARE"

    def _sources(self, x: Any, leaves: List[Tuple[str, str]], outer: Scopes) -> str:
        begin = _given(x, "from")
        if not begin:
            return ""
        listed = begin.expressions or [begin.this]
        if len(listed) != 1:
            raise Lacks("join by a comma")
        source = self._source(listed[0], leaves)
        for join in x.args.get("joins") or []:
            side, kind = str(join.args.get("side") or "").upper(), str(join.args.get("kind") or "").upper()
            if side in ("RIGHT", "FULL") or kind == "CROSS" or not join.args.get("on"):
                raise Lacks(f"{side} {kind} JOIN without ON".replace("  ", " ").strip() if not join.args.get("on") else f"{side} JOIN")
            right = self._source(join.this, leaves)
            condition = self.expr(join.args["on"], [leaves, *outer])
            source = f"({source} {'LEFT OUTER' if side == 'LEFT' else 'INNER'} JOIN {right} ON {condition})"
        return source

    def _source(self, x: Any, leaves: List[Tuple[str, str]]) -> str:
        if isinstance(x, self.exp.Subquery):
            raise Lacks("subquery in FROM")
        if not isinstance(x, self.exp.Table):
            raise Lacks(f"source of the kind {type(x).__name__.upper()}")
        leaves.append((x.alias or x.name, x.name))
        db = x.text("db")
        if db and db == _USUAL.get(self.dialect):
            self.notes.add(f"{db}. is left out")
            db = ""
        begin = self.quoted(db) + "." if db else ""
        return begin + self.quoted(x.name) + (f" AS {self.quoted(x.alias)}" if x.alias else "")

    def _distinct(self, x: Any, scopes: Scopes) -> str:
        distinct = x.args.get("distinct")
        if not distinct:
            return ""
        on = distinct.args.get("on")
        if not on:
            return "DISTINCT "
        listed = on.expressions if isinstance(on, self.exp.Tuple) else [on.this if isinstance(on, self.exp.Paren) else on]
        return f"DISTINCT ON ({', '.join(self.expr(each, scopes) for each in listed)}) "

    def _selection(self, x: Any, leaves: Sequence[Tuple[str, str]], scopes: Scopes) -> List[str]:
        made: List[str] = []
        for each in x.expressions:
            inner = each.this if isinstance(each, self.exp.Alias) else each
            is_star = isinstance(inner, self.exp.Star)
            if is_star or isinstance(inner, self.exp.Column) and isinstance(inner.this, self.exp.Star):
                self.notes.add("* is written out")
                of = "" if is_star else inner.text("table")
                made += [f"{self.quoted(name)}.{self.quoted(column)}" for name, table in leaves if of in ("", name)
                         for column in self.columns.get(table, [])]
            else:
                made.append(self.expr(inner, scopes))
        return made

    def _meant(self, x: Any, select: Any, aliases: Dict[str, Any], leaves: Sequence[Tuple[str, str]]) -> Any:
        """What an item of an order or a group stands for: a position, an alias of the selection, or itself."""
        if isinstance(x, self.exp.Literal) and not x.is_string:
            found = select.expressions[int(x.this) - 1]
            return found.this if isinstance(found, self.exp.Alias) else found
        is_bare = isinstance(x, self.exp.Column) and not x.text("table")
        return aliases[x.name] if is_bare and x.name in aliases else x

    def _page(self, x: Any) -> str:
        if self.dialect == "Bracket":
            return ""
        words = [("limit", " LIMIT ")] + [("offset", " OFFSET ")] * bool(x.args.get("limit") or self.dialect == "Pg")
        return "".join(word + self.placeholder() for key, word in words if x.args.get(key))

    def expr(self, x: Any, scopes: Scopes) -> str:
        """An expression."""
        word = type(x).__name__
        if isinstance(x, self.exp.Paren):
            return self.expr(x.this, scopes)
        if isinstance(x, self.exp.Column):
            return self._column(x, scopes)
        if word in ("Literal", "Boolean", "Null", "Neg", "Parameter", "Placeholder", "SessionParameter"):
            return self.placeholder()
        member = self._membership(x, scopes)
        if member is not None:
            return member
        if word in _COMPARED and not self._is_quantified(x.expression):
            return f"({self.expr(x.this, scopes)} {_COMPARED[word]} {self.expr(x.expression, scopes)})"
        if isinstance(x, self.exp.Not) and not isinstance(x.this, (self.exp.In, self.exp.Is)):
            return f"NOT ({self.expr(x.this, scopes)})"
        return self._operation(x, scopes, word)

    def _operation(self, x: Any, scopes: Scopes, word: str) -> str:
        if isinstance(x, self.exp.Not):
            return self._operation(x.this, scopes, type(x.this).__name__)
        if isinstance(x, self.exp.Is):
            return f"({self.expr(x.this, scopes)} IS NULL)"
        if isinstance(x, self.exp.Between):
            low, high = self.expr(x.args["low"], scopes), self.expr(x.args["high"], scopes)
            of = self.expr(x.this, scopes)
            return f"(({of} >= {low}) AND ({of} <= {high}))"
        member = self._membership(x, scopes)
        if member is not None:
            return member
        if isinstance(x, self.exp.Exists):
            return f"EXISTS ({self.query(x.this, scopes)})"
        if isinstance(x, (self.exp.Subquery, self.exp.Select)):
            return f"({self.query(x, scopes)})"
        if isinstance(x, self.exp.Count) and isinstance(x.this, self.exp.Star):
            return "COUNT(*)"
        return self._reduced(x, scopes, word)

    def _is_quantified(self, x: Any) -> bool:
        """Whether it is ANY or ALL of something. Older releases of sqlglot take them for functions."""
        return type(x).__name__ in ("Any", "All") or isinstance(x, self.exp.Anonymous) and str(x.this).upper() in ("ANY", "SOME", "ALL")

    def _membership(self, x: Any, scopes: Scopes) -> Optional[str]:
        """IN, = ANY and <> ALL, of a query or of values; None where it is no such, or the list has columns in it."""
        if isinstance(x, self.exp.In):
            query, listed = _given(x, "query"), x.expressions
        elif type(x).__name__ in ("EQ", "NEQ") and self._is_quantified(x.expression):
            right = x.expression.expressions[0] if x.expression.expressions else x.expression.this
            query, listed = (right, []) if isinstance(right, (self.exp.Subquery, self.exp.Select)) else (None, [right])
        else:
            return None
        read = (self.exp.Column, self.exp.Subquery, self.exp.Select)
        if query is None and (not listed or any(each.find(*read) is not None for each in listed)):
            return None
        begin = f"({self.expr(x.this, scopes)} {'= ANY(' if self.dialect == 'Pg' else 'IN ('}"
        if query is not None:
            return f"{begin}{self.query(query, scopes)}))"
        return f"{begin}{', '.join(self.placeholder() for _ in (listed[:1] if self.dialect == 'Pg' else listed))}))"

    def _column(self, x: Any, scopes: Scopes) -> str:
        if x.text("table"):
            return f"{self.quoted(x.text('table'))}.{self.quoted(x.name)}"
        for leaves in scopes:
            found = [name for name, table in leaves if x.name in self.columns.get(table, ())]
            if len(found) > 1:
                raise Lacks(f"meaning for {x.name}, which two tables have")
            if found:
                self.notes.add("columns are qualified by the schema")
                return f"{self.quoted(found[0])}.{self.quoted(x.name)}"
        if x.name.startswith("$") or x.name == "?":
            return self.placeholder()
        raise Lacks(f"meaning for {x.name}, which no table has")

    def _reduced(self, x: Any, scopes: Scopes, word: str) -> str:
        """An expression that the grammar lacks, as the columns and subselects in it."""
        self.notes.add(word + REDUCED)
        found: List[str] = []
        todo: List[Any] = [x]
        while todo:
            each = todo.pop(0)
            for argument in each.args.values():
                for inner in argument if isinstance(argument, list) else [argument]:
                    if isinstance(inner, (self.exp.Column, self.exp.Subquery, self.exp.Select, self.exp.Exists)):
                        found.append(self.expr(inner, scopes))
                    elif isinstance(inner, self.exp.Expression) and type(inner).__name__ not in ("DataType", "Identifier", "Var"):
                        todo.append(inner)
        text = found[-1] if found else self.placeholder()
        for each in reversed(found[:-1]):
            text = f"({each} AND {text})"
        return text


def _given(x: Any, name: str) -> Any:
    """An argument of an expression; newer releases of sqlglot put an underscore behind words of Python's."""
    return x.args.get(name) or x.args.get(name + "_")


def _leftmost(x: Any, exp: Any) -> Any:
    while not isinstance(x, exp.Select):
        x = x.this
    return x


def _direction(item: Any) -> str:
    return " DESC" if item.args.get("desc") else ""
