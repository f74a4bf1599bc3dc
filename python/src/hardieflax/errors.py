"""The errors of this package. Each is an `HardieflaxError`; what a caller of Python's own calls expects is one of those besides."""
from __future__ import annotations

from typing import Optional, Sequence


class HardieflaxError(Exception):
    """Something that this package could not do."""


class ValueRefused(HardieflaxError, ValueError):
    """A value is not of the type that it is bound as, so nothing was sent."""


class RowError(HardieflaxError):
    """The database has something else than the schema says."""


class NoRow(HardieflaxError, LookupError):
    """`one` found no row."""


class SeveralRows(HardieflaxError, LookupError):
    """`one` found more than one row."""


class SchemaError(HardieflaxError):
    """Tables contradict each other, or a query reads a table that the schema has not."""


class EngineMissing(HardieflaxError):
    """Neither the library nor the program is there."""


class EngineError(HardieflaxError):
    """The library or the program has not answered all. `status` is the program's exit status (docs/DOCUMENT.md), `answered` the lines before."""

    MEANINGS = {
        2: "Usage: it does not know this command",
        3: "BadDocument: the input is not what it reads",
        4: "ReadFault: it could not read its input",
        5: "WriteFault: it could not write its output",
        6: "NoMemory: out of memory, or a request nests deeper than 2,500 levels",
        7: "TooLarge: the input has more than 16777216 bytes",
    }

    def __init__(self, status: int, answered: bytes = b"", detail: str = "") -> None:
        super().__init__(status, answered, detail)
        self.status, self.answered, self.detail = status, answered, detail

    def __str__(self) -> str:
        meaning = self.MEANINGS.get(self.status, f"status {self.status}")
        return f"{meaning}; {self.detail}" if self.detail else meaning


class NotShared(HardieflaxError):
    """A query of a guarded session reads a table that is neither guarded nor shared."""


class Refused(HardieflaxError):
    """A query breaks a rule (docs/RULES.md).

    `rule` is its name, `meaning` what it asks, `parts` the smallest parts of the query without which it does not break that rule (of
    several such parts the first), and `mend` what to do. A message tells types and no values, so it may be logged.
    """

    def __init__(self, rule: str, meaning: str, mend: str, parts: Sequence[str] = (), query: Optional[str] = None) -> None:
        super().__init__(rule, meaning, mend, tuple(parts), query)
        self.rule, self.meaning, self.mend, self.parts, self.query = rule, meaning, mend, tuple(parts), query

    def __str__(self) -> str:
        lines = [f"{self.rule}: {self.meaning}"]
        lines += [f"  part: {part}" for part in self.parts]
        if not self.parts and self.query:
            lines.append(f"  query: {self.query}")
        return "\n".join([*lines, f"  mend: {self.mend}"])
