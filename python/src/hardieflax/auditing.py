"""SQL that people wrote: which tables and columns it uses, and whether it has a reading at all.

Files are split into statements, each with the line where it begins. Where sqlglot is installed, SQL as people write it is first written in
the words of the grammar (`people.py`); else it has to be written so (docs/TEXTS.md).
"""
from __future__ import annotations

import dataclasses
import json
from typing import Any, Iterator, List, Optional, Sequence, Tuple

from .engines import Engine, default_engine, lines
from .people import REDUCED, in_grammar
from .schema import Schema

MEANINGS = {
    "NotInGrammar": "has no reading in the dialect's grammar",
    "UnknownTable": "reads a table that the schema has not",
    "NotInScope": "names a column that no table around it has",
    "Ambiguous": "names a column that two tables around it have",
}


@dataclasses.dataclass(frozen=True)
class Text:
    """A statement of a file, and the line where it begins."""

    file: str
    line: int
    sql: str


@dataclasses.dataclass(frozen=True)
class Use:
    """What a statement uses: the tables of its leaves, and the table and column of each path; or why that is not known."""

    text: Text
    tables: Tuple[str, ...] = ()
    columns: Tuple[Tuple[str, str], ...] = ()
    refused: Optional[str] = None
    notes: Tuple[str, ...] = ()

    def __str__(self) -> str:
        where = f"{self.text.file}:{self.text.line}"
        if self.refused is not None:
            is_told = self.refused == "NotInGrammar" and bool(self.notes)
            return f"{where}: {self.refused}: {self.notes[0] if is_told else MEANINGS.get(self.refused, 'is not audited')}"
        listed = ", ".join(sorted({f"{table}.{column}" for table, column in self.columns}))
        told = f"{where}: {', '.join(sorted(set(self.tables)))}" + (f" ({listed})" if listed else "")
        return told + (f" [{'; '.join(self.reduced)}]" if self.reduced else "")

    @property
    def reduced(self) -> Tuple[str, ...]:
        """What the grammar lacks, so that of it the columns alone were read."""
        return tuple(note for note in self.notes if note.endswith(REDUCED))


def split(sql: str, file: str = "-", backslash: bool = False) -> Iterator[Text]:
    """The statements of a file, which semicolons end. Comments are taken out; quoted texts and names stay as they are."""
    parts: List[str] = []
    line, begin, at = 1, 0, 0
    while at < len(sql):
        end, is_kept = _token(sql, at, backslash)
        token = sql[at:end]
        if token == ";":
            yield from _made(file, begin, parts)
            parts, begin = [], 0
        else:
            if not begin and is_kept and not token.isspace():
                begin = line
            parts.append(token if is_kept else " ")
        line += token.count("\n")
        at = end
    yield from _made(file, begin, parts)


def _made(file: str, line: int, parts: Sequence[str]) -> Iterator[Text]:
    sql = "".join(parts).strip()
    if sql:
        yield Text(file, line, sql)


def _token(sql: str, at: int, backslash: bool) -> Tuple[int, bool]:
    """Where the token ends that begins here, and whether it is no comment."""
    two = sql[at:at + 2]
    if two == "--" or backslash and sql[at] == "#":
        end = sql.find("\n", at)
        return (len(sql) if end < 0 else end), False
    if two == "/*":
        return _after_comment(sql, at), False
    if sql[at] in "'\"`":
        return _after_quote(sql, at, backslash and sql[at] != "`"), True
    if sql[at] == "$":
        return _after_dollars(sql, at), True
    return at + 1, True


def _after_comment(sql: str, at: int) -> int:
    depth, at = 1, at + 2
    while at < len(sql) and depth:
        two = sql[at:at + 2]
        depth += (two == "/*") - (two == "*/")
        at += 2 if two in ("/*", "*/") else 1
    return at


def _after_quote(sql: str, at: int, backslash: bool) -> int:
    quote, at = sql[at], at + 1
    while at < len(sql):
        if backslash and sql[at] == "\\":
            at += 2
        elif sql[at] == quote:
            if sql[at + 1:at + 2] != quote:
                return at + 1
            at += 2
        else:
            at += 1
    return len(sql)


def _after_dollars(sql: str, at: int) -> int:
    """A text of PostgreSQL in dollars, as $tag$..$tag$; else the sign alone."""
    end = sql.find("$", at + 1)
    tag = sql[at:end + 1]
    if end < 0 or not (tag == "$$" or tag[1:-1].isidentifier()):
        return at + 1
    close = sql.find(tag, end + 1)
    return len(sql) if close < 0 else close + len(tag)


def audited(texts: Sequence[Text], schema: Schema, dialect: str, engine: Optional[Engine] = None, people: bool = True) -> List[Use]:
    """What each statement uses. With `people` SQL as people write it is read too, where sqlglot is installed."""
    engine = engine or default_engine()
    made = _asked([each.sql for each in texts], schema, dialect, engine)
    uses = [_use(text, answer) for text, answer in zip(texts, made)]
    if people:
        _read_as_written(uses, schema, dialect, engine)
    return uses


def _read_as_written(uses: List[Use], schema: Schema, dialect: str, engine: Engine) -> None:
    for at, use in enumerate(uses):
        if use.refused != "NotInGrammar":
            continue
        sql, notes = in_grammar(use.text.sql, schema, dialect)
        if sql is None:
            uses[at] = dataclasses.replace(use, notes=notes)
        else:
            uses[at] = dataclasses.replace(_use(use.text, _asked([sql], schema, dialect, engine)[0]), notes=notes)


def _asked(texts: Sequence[str], schema: Schema, dialect: str, engine: Engine) -> List[Any]:
    document = {"schema": schema.document(), "texts": list(texts)}
    return lines(engine.run(["audit", dialect], json.dumps(document, ensure_ascii=False).encode("utf-8", "replace")))


def _use(text: Text, answer: Any) -> Use:
    if "refused" in answer:
        return Use(text, refused=answer["refused"])
    return Use(text, tuple(answer["tables"]), tuple((table, column) for table, column in answer["columns"]))
