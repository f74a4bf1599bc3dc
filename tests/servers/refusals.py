"""What servers are known to refuse: the server, a pattern of its message, a pattern of the text or None, and why. Any other refusal
fails. docs/SERVERS.md has each with an example."""
from __future__ import annotations

import re

KNOWN: list[tuple[str, str, str | None, str]] = [
    ("PostgreSQL", r"(LIMIT|OFFSET) must not be negative", None, "a negative limit or offset"),
    ("PostgreSQL", r"zero-length delimited identifier", None, "an empty name"),
    ("PostgreSQL", r"sample percentage must be between", "TABLESAMPLE", "a portion below 0 or above 100"),
    ("PostgreSQL", r"invalid byte sequence for encoding", None, "a NUL in a text value"),
    ("PostgreSQL", r"FOR .* is not allowed with UNION/INTERSECT/EXCEPT", " FOR ", "a lock in a side of a combination"),
    ("PostgreSQL", r"FOR .* is not allowed with aggregate functions", " FOR ", "a lock beside COUNT"),
    ("PostgreSQL", r"cannot be applied to the nullable side of an outer join", " FOR ", "a lock over the right side of a left join"),
    ("PostgreSQL", r"for SELECT DISTINCT, ORDER BY expressions must appear in select list", "DISTINCT",
     "DISTINCT, and an order by an expression that is not selected, or that holds a value"),
    ("PostgreSQL", r"SELECT DISTINCT ON expressions must match initial ORDER BY", "DISTINCT ON",
     "DISTINCT ON, and an order by an expression that holds a value"),
    ("PostgreSQL", r"must appear in the GROUP BY clause or be used in an aggregate", "HAVING", "a column in HAVING that is not grouped"),
    ("PostgreSQL", r"aggregate functions are not allowed in JOIN conditions", "COUNT", "COUNT in ON"),
    ("MariaDB", r"Unknown column '.*' in 'HAVING'", "HAVING", "a column in HAVING that is not grouped"),
    ("MariaDB", r"Unknown column '.*\..*' in '", r"\(\(SELECT .*(UNION|INTERSECT|EXCEPT).*(UNION|INTERSECT|EXCEPT)",
     "a combination as a side of a combination, that sees a column of the statement around it"),
    ("MariaDB", r"Can't group on", r"GROUP BY", "a bound whole number alone in GROUP BY, which is the position of a column"),
    ("MariaDB", r"Invalid use of group function", r"ON .*COUNT", "COUNT in ON"),
    ("MariaDB", r"Incorrect (table|column|database) name ''", None, "an empty name"),
    ("MariaDB", r"syntax to use near 'SHARE", " FOR SHARE", "FOR SHARE, which MySQL has from 8.0 on and MariaDB not"),
    ("MariaDB", r"syntax to use near 'NOT \(", r"(=|<|>) NOT \(", "NOT as the right operand of a comparison"),
    ("MariaDB", r"doesn't yet support 'LIMIT & IN/ALL/ANY/SOME subquery'", r" IN \(.* LIMIT ", "a limit in the subselect of a membership"),
    ("MariaDB", r"Unknown column '-?\d+' in '(ORDER BY|GROUP BY|order clause|group statement)'", r"(ORDER|GROUP) BY ",
     "a bound whole number alone in ORDER BY or GROUP BY, which is the position of a column"),
    ("MariaDB", r"Duplicate column name", r"UNION|INTERSECT|EXCEPT",
     "a combination as a side of a combination, with two columns of one name"),
    ("MariaDB", r"SELECT statements have a different number of columns", r"EXISTS \(\(.*(UNION|INTERSECT|EXCEPT).*(UNION|INTERSECT|EXCEPT)",
     "EXISTS of a combination with a combination as a side: a fault of MariaDB"),
    ("SQLite", r"misuse of aggregate", r"ON .*COUNT", "COUNT in ON"),
    ("SQLite", r"ambiguous column name", None, "two names that differ in the case of letters alone"),
    ("SQLite", r"parser stack overflow", None, "a text that nests deeper than SQLite's parser goes"),
]


def template(message: str) -> str:
    """A message without the names, numbers and places that it quotes; a keyword stays."""
    message = re.sub(r"near '(\w*).*'", r"near \1 ..", message, flags=re.S)
    message = re.sub(r"column (name: |['\"]).*? (in|must) ", r"column .. \2 ", message, flags=re.S)
    message = re.sub(r"(?<!\w)'(?![A-Z ]+')[^']*'|\".*\"", "..", message, flags=re.S)
    return re.sub(r"\d+", "N", message)


def reason(server: str, message: str, sql: str) -> str | None:
    """Why a server is known to refuse a text with this message, or None."""
    for name, pattern, of_text, why in KNOWN:
        if name == server and re.search(pattern, message) and (of_text is None or re.search(of_text, sql)):
            return why
    return None
