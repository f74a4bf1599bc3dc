"""Calls the library from eight threads, over one handle that they share and over one each: `python3 threads.py LIBRARY` (tests/embed.sh).

Every answer has to be the stored one of its document. It ends with status 1 where one is not, and then says which.
"""

from __future__ import annotations

import pathlib
import sys
from concurrent.futures import ThreadPoolExecutor

TOP = pathlib.Path(__file__).resolve().parent.parent.parent
sys.path.insert(0, str(TOP / "examples/python"))

from hardieflax import Dialect, Hardieflax  # noqa: E402

THREADS = 8
TURNS = 20


def answer(handle: Hardieflax, document: pathlib.Path) -> bytes:
    """What the call for this document gives."""
    data = document.read_bytes()
    if document.stem == "audit":
        return handle.audit(Dialect.PG, data)
    return handle.guard(data) if document.stem == "guard" else handle.build(data)


def wrong(handle: Hardieflax) -> set[str]:
    """The documents with an answer that is not the stored one."""
    documents = sorted((TOP / "examples").glob("*.json"))
    return {it.name for _ in range(TURNS) for it in documents if answer(handle, it) != it.with_suffix(".jsonl").read_bytes()}


def main(library: str) -> int:
    shared = Hardieflax(library)
    found: set[str] = set()
    with ThreadPoolExecutor(THREADS) as pool:
        for handles in ([shared] * THREADS, [Hardieflax(library) for _ in range(THREADS)]):
            found = found.union(*pool.map(wrong, handles))
    if found:
        print("wrong answers:", ", ".join(sorted(found)))
    return bool(found)


if __name__ == "__main__":
    sys.exit(main(sys.argv[1]))
