"""What each rule asks, and how a query is mended that breaks it, in the words of this package (docs/RULES.md has more)."""
from __future__ import annotations

from typing import Any, Dict, Sequence, Tuple

from .errors import Refused
from .rendering import rendered_query

MOST = 300

RULES: Dict[str, Tuple[str, str]] = {
    "UnknownName": ("the schema has no such table or column",
                    "add it to the schema, or mend its name"),
    "Incompatible": ("calls do not go together: a lock with distinct, group_by or having, a second lock, having without group_by, "
                     "skip_locked without a lock, find on a join",
                     "leave one of them out"),
    "EmptyList": ("a selection, an order or a group_by has no element",
                  "give it one, or leave the call out"),
    "NoRelation": ("a join has no ON, and the schema has no relation between its tables",
                   "give the condition, as join(Posts, Posts.author_id == Users.id), or declare Column(.., references=Users). None is "
                   "declared where a table references another twice, or itself"),
    "Ambiguous": ("a table stands twice in one view",
                  "read it a second time as alias(Users, 'u2'), and take the columns of that"),
    "NotTogether": ("tables stand in one query that were not allowed together",
                    "put both into one Schema"),
    "NameClash": ("two sources of one view can be named alike",
                  "give the alias another name"),
    "NotInScope": ("a column belongs to a table or an alias that its clause does not see",
                   "join the table, or take the column of the alias that the query reads"),
    "TypeMismatch": ("types do not go together: the sides of a comparison have one type, a condition is Bool, and so on",
                     "compare columns of one type. SmallInt, Integer and BigInt are three types, and SQL's casts are not here: bind a "
                     "value of the column's type, or declare both columns alike"),
    "NeedsNullable": ("a column of the right side of a left join is selected as one that is never NULL",
                      "select it as Posts.title.nullable(), or all of the table as nullable(Posts)"),
    "Grouping": ("an aggregate stands where none may, or beside columns that have no one value in a group",
                 "group by the columns that are selected, or by the primary key"),
    "InvalidDistinctOrder": ("distinct_on and the order begin with different expressions",
                             "begin the order with those of distinct_on"),
    "Unsupported": ("the dialect lacks something: a lock on SQLite, distinct_on outside PostgreSQL, INTERSECT ALL on SQLite, an offset "
                    "without a limit on MySQL",
                    "leave it out, or on MySQL set a limit too"),
    "TooManyBinds": ("the text has more than 4294967295 placeholders",
                     "bind fewer values"),
    "BadPredicate": ("the guard's predicate is no condition on the columns of its own table alone",
                     "write it with that table's own columns and values, without count, subselects and aliases, and with no ~ inside a "
                     "comparison"),
    "LacksPolicy": ("a guarded query reads a table that has no policy, or two declarations of one table",
                    "name the table in guards or in shared, and declare it once"),
}


def refusal(rule: str, parts: Sequence[str], query: Any) -> Refused:
    """The error of a query that breaks a rule."""
    meaning, mend = RULES.get(rule, ("the query breaks this rule", "see docs/RULES.md"))
    return Refused(rule, meaning, mend, [cut(part) for part in parts], cut(rendered_query(query)))


def cut(text: str) -> str:
    """A text for a message, cut where it is long."""
    return text if len(text) <= MOST else text[:MOST - 2] + ".."
