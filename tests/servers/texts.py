"""Where the names stand in a text that the program wrote: its leaves and its column paths, in the order of the text."""
from __future__ import annotations

import re
from dataclasses import dataclass, field

NAME = {"Pg": r'"(?:[^"]|"")*"', "Mysql": r"`(?:[^`]|``)*`", "Sqlite": r"`(?:[^`]|``)*`"}


@dataclass
class Names:
    """The names of each leaf's table with its alias, and those of each path with its place in bytes."""
    leaves: list[tuple[tuple[str, ...], str | None]] = field(default_factory=list)
    paths: list[tuple[int, tuple[str, ...]]] = field(default_factory=list)


def tokens(dialect: str, sql: str) -> list[tuple[int, str]]:
    """The paths of names, words, placeholders and signs, each with its place in characters."""
    name = NAME[dialect]
    return [(found.start(), found.group()) for found in re.finditer(rf"{name}(?:\.{name})*|\w+|\$\d+|\S", sql, re.S)]


def unquoted(dialect: str, path: str) -> tuple[str, ...]:
    return tuple(each[1:-1].replace(each[0] * 2, each[0]) for each in re.findall(NAME[dialect], path, re.S))


def names(dialect: str, sql: str) -> Names:
    """The names of a text, which it doesn't check."""
    found, before = Names(), ""
    for at, token in tokens(dialect, sql):
        if token[0] not in "\"`":
            # A bracket stands before a table as well as before an expression, so what stands before it counts.
            before = before if token == "(" and before in ("FROM", "JOIN") else token
            continue
        path = unquoted(dialect, token)
        if before in ("FROM", "JOIN", "ONLY"):
            found.leaves.append((path, None))
        elif before == "AS":
            table, _ = found.leaves[-1]
            found.leaves[-1] = table, path[0]
        else:
            found.paths.append((len(sql[:at].encode()), path))
        before = token
    return found


def filled(sql: str, nulls: list[str]) -> str:
    """The text of PostgreSQL with NULLs of these types in place of its placeholders."""
    parts, end = [], 0
    for at, token in tokens("Pg", sql):
        if token[0] == "$":
            parts += [sql[end:at], f"CAST(NULL AS {nulls[int(token[1:]) - 1]})"]
            end = at + len(token)
    return "".join(parts) + sql[end:]
