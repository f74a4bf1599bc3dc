"""What makes typed rows of the columns that a driver gives."""
from __future__ import annotations

from typing import Any, Callable, Dict, List, Optional, Protocol, Sequence, Tuple, Type

from .errors import RowError
from .expressions import Expr
from .sql_types import Decoder, SqlType
from .tables import Table, declared

Columns = Sequence[Any]


class Output(Protocol):
    """A part of a row: so many columns, and what makes a value of them."""

    @property
    def width(self) -> int:
        """How many columns it takes."""

    def document_names(self) -> List[str]:
        """The types of its columns, as an answer tells them."""

    def reader(self, dialect: str) -> Callable[[Columns], Any]:
        """What makes its value of its columns."""

    def decoders(self, dialect: str) -> List[Optional[Decoder]]:
        """What makes a value of each column; None where the driver's is the value already."""


class Scalar:
    """One column."""

    width = 1

    def __init__(self, type: SqlType[Any], expression: Optional[Expr[Any]] = None) -> None:
        self.type, self.expression = type, expression

    def document_names(self) -> List[str]:
        """The column's type."""
        return [self.type.document_name]

    def decoders(self, dialect: str) -> List[Optional[Decoder]]:
        """The type's."""
        return [self.type.decoder(dialect)]

    def reader(self, dialect: str) -> Callable[[Columns], Any]:
        """The column's value."""
        return lambda columns: columns[0]


class WholeTable:
    """All columns of a table: a row of it, or None where it is optional and missing."""

    def __init__(self, table: Type[Table], is_optional: bool) -> None:
        self.table, self.is_optional = table, is_optional
        self.names = tuple(table.__columns__)
        self.width = len(self.names)

    def document_names(self) -> List[str]:
        """The types of the columns; with NULL where the row may be missing."""
        types = [column.type for column in self.table.__columns__.values()]
        return [(type.nullable_form() if self.is_optional else type).document_name for type in types]

    def decoders(self, dialect: str) -> List[Optional[Decoder]]:
        """Those of the columns' types."""
        types = [column.type for column in self.table.__columns__.values()]
        return [(type.nullable_form() if self.is_optional else type).decoder(dialect) for type in types]

    def reader(self, dialect: str) -> Callable[[Columns], Any]:
        """A row of the table. An optional one is missing where a column is NULL that never is, or where all are."""
        table, names = declared(self.table), self.names
        if not self.is_optional:
            return lambda columns: _row(table, zip(names, columns))
        never = [at for at, column in enumerate(self.table.__columns__.values()) if not column.type.nullable]
        tested = never or range(self.width)

        def read(columns: Columns) -> Any:
            missing = sum(columns[at] is None for at in tested)
            if not missing:
                return _row(table, zip(names, columns))
            if missing == len(tested):
                return None
            if never:
                raise RowError(f"a row of {table.__name__} has NULL in a column that the schema declares without it")
            return _row(table, zip(names, columns))

        return read


def _row(table: Type[Table], values: Any) -> Table:
    made = table.__new__(table)
    made.__dict__.update(values)
    return made


class RowReader:
    """Makes the rows of a statement of a driver's."""

    def __init__(self, outputs: Tuple[Output, ...], is_row_alone: bool, dialect: str) -> None:
        self._decoders: Dict[int, Decoder] = {}
        self._parts: List[Tuple[slice, Callable[[Columns], Any]]] = []
        self._is_plain = all(isinstance(each, Scalar) for each in outputs)
        self._is_row_alone = is_row_alone
        at = 0
        for output in outputs:
            self._parts.append((slice(at, at + output.width), output.reader(dialect)))
            self._decoders.update({at + n: decoder for n, decoder in enumerate(output.decoders(dialect)) if decoder is not None})
            at += output.width
        self.width = at

    def __call__(self, row: Columns) -> Any:
        if self._decoders:
            decoded = list(row)
            for at, decode in self._decoders.items():
                decoded[at] = decode(decoded[at])
            row = decoded
        if self._is_plain:
            return tuple(row)
        if self._is_row_alone:
            return self._parts[0][1](row)
        return tuple(read(row[columns]) for columns, read in self._parts)
