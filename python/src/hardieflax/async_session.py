"""Sessions on connections of asyncio: those of psycopg 3."""
from __future__ import annotations

import asyncio
from typing import Any, AsyncIterator, Iterable, List, Mapping, Optional, Tuple, Type, TypeVar

from .drivers import FETCHED, Psycopg
from .engines import Engine
from .errors import HardieflaxError, NoRow, SeveralRows
from .expressions import Expr
from .queries import Statement
from .schema import Schema
from .session import Builder, Built
from .tables import Table

R = TypeVar("R")
A = TypeVar("A")
T = TypeVar("T", bound=Table)


class AsyncSession(Builder):
    """As Session, on a `psycopg.AsyncConnection`: what reads rows is awaited. A shape that is new is asked for in a thread."""

    def __init__(self, schema: Schema, connection: Any, *, engine: Optional[Engine] = None,
                 guards: Optional[Mapping[Type[T], Expr[Any]]] = None, shared: Iterable[Type[Table]] = ()) -> None:
        kinds = {(base.__module__.split(".")[0], base.__name__) for base in type(connection).__mro__}
        if ("psycopg", "AsyncConnection") not in kinds:
            raise HardieflaxError(f"a psycopg.AsyncConnection is wanted, and not {type(connection).__module__}.{type(connection).__qualname__}")
        self._driver = Psycopg(connection)
        super().__init__(schema, None, self._driver.dialect, engine, guards, shared)

    async def all(self, query: Statement[R]) -> List[R]:
        """All rows."""
        return [row async for row in self.rows(query)]

    async def rows(self, query: Statement[R]) -> AsyncIterator[R]:
        """The rows one after the other, once all are received."""
        built = await self._built_aside(query)
        async with self._driver.async_cursor() as cursor:
            await cursor.execute(*self._driver.words(built.sql, built.binds), prepare=built.safe)
            while True:
                some = await cursor.fetchmany(FETCHED)
                for each in some:
                    yield built.row(each)
                if len(some) < FETCHED:
                    return

    async def first(self, query: Statement[R]) -> Optional[R]:
        """The first row, or None. It sets no limit."""
        found = await self.all(query)
        return found[0] if found else None

    async def one(self, query: Statement[R]) -> R:
        """The one row. NoRow, SeveralRows: there is none, or more than one."""
        found = await self.all(query)
        if len(found) == 1:
            return found[0]
        raise SeveralRows(f"more than one row of {query!r}") if found else NoRow(f"no row of {query!r}")

    async def value(self, query: Statement[Tuple[A]]) -> A:
        """The one value of the one row, as of `query(Users).count()`."""
        return (await self.one(query))[0]

    async def values(self, query: Statement[Tuple[A]]) -> List[A]:
        """The values of the one column."""
        return [row[0] for row in await self.all(query)]

    async def _built_aside(self, query: Statement[R]) -> Built[R]:
        """The statement; where its shape is new, asked for in a thread, so that others go on meanwhile."""
        if self._planner.knows(self._request(query)):
            return self.build(query)
        loop = asyncio.get_running_loop()
        return await loop.run_in_executor(None, self.build, query)
