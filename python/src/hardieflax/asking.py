"""Asking an engine for many requests: each gets its answer, or its own error, whatever becomes of the others."""
from __future__ import annotations

from typing import Any, Callable, Iterator, List, Sequence

from .engines import BAD_DOCUMENT, MOST_BYTES, NO_MEMORY, TOO_LARGE, lines
from .errors import EngineError

# What the engine writes for a document with these requests.
Run = Callable[[Sequence[str]], bytes]


def answers(run: Run, requests: Sequence[str]) -> List[Any]:
    """The answer to each request, in order, or the EngineError of it. A request is text: the JSON of it in a document."""
    made: List[Any] = []
    for batch in batches(requests):
        made += _answers(run, batch)
    return made


def batches(requests: Sequence[str]) -> Iterator[List[str]]:
    """The requests, so many at a time as fit a document. The schema is not counted: it has as much room as they leave."""
    batch: List[str] = []
    size = 0
    for each in requests:
        length = len(each.encode()) + 1
        if batch and size + length > MOST_BYTES // 2:
            yield batch
            batch, size = [], 0
        batch.append(each)
        size += length
    if batch:
        yield batch


def _answers(run: Run, requests: Sequence[str]) -> List[Any]:
    made: List[Any] = []
    rest = list(requests)
    while rest:
        try:
            told = lines(run(rest))
            if len(told) != len(rest):
                raise EngineError(0, detail=f"{len(told)} lines for {len(rest)} requests")
            return made + told
        except EngineError as error:
            if error.status == NO_MEMORY:  # it was the request after those that are answered
                before = lines(error.answered)
                made += [*before, error]
                rest = rest[len(before) + 1:]
            else:
                return made + _halved(run, rest, error)
    return made


def _halved(run: Run, requests: Sequence[str], error: EngineError) -> List[Any]:
    """Where one is none, or all are too much, all of a document are refused: so halves of it are asked, and only that one has the error."""
    if error.status not in (BAD_DOCUMENT, TOO_LARGE) or error.status == TOO_LARGE and len(requests) == 1:
        return [error] * len(requests)
    if len(requests) == 1:
        return [EngineError(BAD_DOCUMENT, detail="a value has another form than its type's, or values nest deeper than 127: join many "
                                                 "conditions by all_of and any_of")]
    half = len(requests) // 2
    return _answers(run, requests[:half]) + _answers(run, requests[half:])
