"""Many queries on many workers: by dask.distributed, or as a program of a pipe, as Spark's `RDD.pipe` starts it.

Queries are cut into documents. A worker answers a document by an engine of its own, and needs no more than this package and the library
or the program. The answers are in the order of the queries, each a line of the program (docs/DOCUMENT.md) as a dictionary without `id`,
which means nothing beyond a document; or {"error": text} where a query got none.

    python3 -m hardieflax.partitions SCHEMA DIALECT < queries.jsonl > answers.jsonl
"""
from __future__ import annotations

import collections
import dataclasses
import io
import itertools
import json
import sys
from typing import IO, Any, Callable, Deque, Dict, Iterable, Iterator, List, Optional, Sized, Tuple, Union

from .asking import answers
from .checking import read_schema
from .engines import DIALECTS, Engine, default_engine
from .errors import EngineError, HardieflaxError
from .expressions import filled, tables_of
from .queries import Statement
from .schema import Schema

Answer = Dict[str, Any]
# A query of this package, or the JSON of one.
AnyQuery = Union[Statement[Any], Dict[str, Any]]

SIZE = 1000
# So many documents are under way for each worker.
AHEAD = 3


class PartitionLost(HardieflaxError):
    """A document was asked for again and again, and its workers died."""


@dataclasses.dataclass(frozen=True)
class Progress:
    """How far it is: queries that are answered, documents that were asked for again, and how many queries there are, where that is known."""

    answered: int
    again: int
    total: Optional[int]

    def __str__(self) -> str:
        of = "" if self.total is None else f" of {self.total}"
        return f"{self.answered}{of} queries answered" + (f", {self.again} documents asked for again" if self.again else "")


def answered(schema: str, dialect: str, queries: List[str], engine: Optional[Engine] = None) -> List[Answer]:
    """The answers to the JSON of queries, in order: what a worker does for a document."""
    by = engine or default_engine()

    def run(requests: Any) -> bytes:
        return by.run(["build"], f'{{"schema":{schema},"requests":[{",".join(requests)}]}}'.encode())

    told = answers(run, [f'{{"dialect":"{dialect}","query":{query}}}' for query in queries])
    return [_line(each) for each in told]


def _line(answer: Any) -> Answer:
    if isinstance(answer, EngineError):
        return {"error": str(answer)}
    return {key: each for key, each in answer.items() if key != "id"}


def map_partitions(client: Any, schema: Schema, dialect: str, queries: Iterable[AnyQuery], *, size: int = SIZE, retries: int = 3,
                   on_progress: Optional[Callable[[Progress], None]] = None) -> Iterator[Answer]:
    """The answers to queries, in order, by the workers of a client of dask.distributed.

    Queries are read as they are needed, so there may be more than fit into memory. Each document has `size` of them. A document whose worker
    died is asked for again, `retries` times; then PartitionLost is raised, and nothing is left out in silence.
    """
    if dialect not in DIALECTS:
        raise HardieflaxError(f"{dialect!r} is no dialect: one of {', '.join(DIALECTS)}")
    total = len(queries) if isinstance(queries, Sized) else None
    return _Partitions(client, schema, dialect, retries, on_progress, total).run(iter(queries), size)


class _Partitions:
    """Documents under way, the oldest first."""

    def __init__(self, client: Any, schema: Schema, dialect: str, retries: int, on_progress: Optional[Callable[[Progress], None]],
                 total: Optional[int]) -> None:
        self.client, self.schema, self.dialect, self.retries = client, schema, dialect, retries
        self.on_progress, self.total = on_progress, total
        self.count, self.again = 0, 0
        self.waiting: Deque[Tuple[List[str], str, Any]] = collections.deque()

    def run(self, queries: Iterator[AnyQuery], size: int) -> Iterator[Answer]:
        """The answers of each document, once those before it are given."""
        try:
            while True:
                ahead = AHEAD * max(1, len(self.client.scheduler_info()["workers"]))
                while len(self.waiting) < ahead:
                    some = [_json_of(each) for each in itertools.islice(queries, size)]
                    if not some:
                        break
                    self._send(some)
                if not self.waiting:
                    return
                yield from self._next()
        finally:
            for _, _, future in self.waiting:
                future.cancel()

    def _send(self, queries: List[str]) -> None:
        tables = {name for each in queries for name in tables_of(json.loads(each))}
        schema = json.dumps(self.schema.document(tables), ensure_ascii=False)
        self.waiting.append((queries, schema, self._submitted(queries, schema)))

    def _submitted(self, queries: List[str], schema: str) -> Any:
        return self.client.submit(answered, schema, self.dialect, queries, pure=False)

    def _next(self) -> List[Answer]:
        queries, schema, future = self.waiting.popleft()
        for turn in itertools.count():
            try:
                made: List[Answer] = future.result()
                break
            except Exception as error:
                if not _is_lost(error):
                    raise
                if turn >= self.retries:
                    raise PartitionLost(f"the queries {self.count + 1} to {self.count + len(queries)} were asked for {turn + 1} times, and "
                                        f"each time their worker died: {error}") from error
                self.again += 1
                future = self._submitted(queries, schema)
        self.count += len(made)
        if self.on_progress is not None:
            self.on_progress(Progress(self.count, self.again, self.total))
        return made


def _is_lost(error: Exception) -> bool:
    """Whether a document was lost with its worker, rather than refused by it."""
    names = {base.__name__ for base in type(error).__mro__}
    return bool(names & {"KilledWorker", "CommClosedError", "CancelledError", "FutureCancelledError", "TimeoutError"})


def _json_of(query: AnyQuery) -> str:
    return filled(query.shape, query.values) if isinstance(query, Statement) else json.dumps(query, ensure_ascii=False)


def pipe(queries: IO[str], output: IO[str], schema: Schema, dialect: str, engine: Optional[Engine] = None, size: int = SIZE) -> None:
    """Answers the JSON of a query on each line by a line of JSON, in order. A line that is no JSON gets an error too."""
    while True:
        some = [line.rstrip("\n") for line in itertools.islice(queries, size)]
        if not some:
            return
        good = {at: line for at, line in enumerate(some) if _is_json(line)}
        tables = {name for line in good.values() for name in tables_of(json.loads(line))}
        told = answered(json.dumps(schema.document(tables), ensure_ascii=False), dialect, list(good.values()), engine)
        by_place = dict(zip(good, told))
        for at in range(len(some)):
            print(json.dumps(by_place.get(at, {"error": "the line is no JSON"}), ensure_ascii=False), file=output)
        output.flush()


def _is_json(line: str) -> bool:
    try:
        json.loads(line)
    except ValueError:
        return False
    return True


def main() -> int:
    """The program of a pipe."""
    if len(sys.argv) != 3 or sys.argv[2] not in DIALECTS:
        print(f"usage: python3 -m hardieflax.partitions SCHEMA {{{','.join(DIALECTS)}}}", file=sys.stderr)
        return 2
    try:
        queries = io.TextIOWrapper(sys.stdin.buffer, encoding="utf-8", newline="\n")
        output = io.TextIOWrapper(sys.stdout.buffer, encoding="utf-8", newline="\n")
        pipe(queries, output, read_schema(sys.argv[1]), sys.argv[2])
    except HardieflaxError as error:
        print(f"hardieflax: {error}", file=sys.stderr)
        return 2
    return 0


if __name__ == "__main__":
    sys.exit(main())
