"""Calls of the library a second from Python: by ctypes, as the package calls it, beside cffi's API mode, in one run.

    HARDIEFLAX_LIBRARY=.. python3 bench/calls_a_second.py [SECONDS]

A call goes on in a session with one request, whose statement the session has kept: the least that the library does in a call. cffi compiles
a module against the header, so it needs a C compiler. The best of five rounds of each way is told; the ways take turns.
"""
from __future__ import annotations

import importlib
import json
import os
import pathlib
import sys
import tempfile
import time
from typing import Any, Callable, Dict

HERE = pathlib.Path(__file__).resolve().parent
sys.path.insert(0, str(HERE.parent / "src"))

from hardieflax import Library  # noqa: E402

SCHEMA = {"tables": [{"name": "users", "columns": [{"name": "id", "type": "BigInt"}, {"name": "name", "type": "Text"}]}]}
QUERY = {"from": {"table": "users"}, "calls": [["filter", {"eq": [{"col": ["users", "name"]}, {"bind": ["Text", "Sean"]}]}]]}
BODY = f'"requests":[{json.dumps({"dialect": "Pg", "query": QUERY})}]'
OPENING = json.dumps({"schema": SCHEMA, "requests": []}).encode()
DOCUMENT = f'{{"schema":{{"tables":[]}},{BODY}}}'.encode()
DECLARED = """
typedef struct { const uint8_t *bytes; size_t length; uint8_t *owned; bool in_use; } hardieflax;
uint32_t hardieflax_open(hardieflax *handle, const uint8_t *document, size_t length);
uint32_t hardieflax_next(hardieflax *handle, const uint8_t *document, size_t length);
"""


def by_ctypes(path: str) -> Callable[[], bytes]:
    """A call as the package makes it, with its locks and checks."""
    library = Library(path)
    return lambda: library.next("owner", lambda: {"schema": SCHEMA}, BODY)


def by_bare_ctypes(path: str) -> Callable[[], bytes]:
    """The call alone, without the package's look-up of the session."""
    handle = Library(path)._handle()
    handle.call("open", (), OPENING)
    return lambda: handle.call("next", (), DOCUMENT)


def by_cffi(path: str, folder: str) -> Callable[[], bytes]:
    """The same call by a module that cffi compiles."""
    cffi: Any = importlib.import_module("cffi")
    builder = cffi.FFI()
    builder.cdef(DECLARED)
    library = pathlib.Path(path).resolve()
    header = HERE.parent.parent / "examples/c"
    builder.set_source("_hardieflax_cffi", '#include "hardieflax.h"', include_dirs=[str(header)], extra_objects=[str(library)],
                       extra_link_args=[f"-Wl,-rpath,{library.parent}"])
    builder.compile(tmpdir=folder)
    sys.path.insert(0, folder)
    made: Any = importlib.import_module("_hardieflax_cffi")
    handle = made.ffi.new("hardieflax *")
    if made.lib.hardieflax_open(handle, OPENING, len(OPENING)):
        raise OSError("the session was not opened")

    def call() -> bytes:
        if made.lib.hardieflax_next(handle, DOCUMENT, len(DOCUMENT)):
            raise OSError("the call was refused")
        return bytes(made.ffi.buffer(handle.bytes, handle.length))

    return call


def timed(way: Callable[[], bytes], seconds: float) -> float:
    """Calls a second."""
    begin, count = time.perf_counter(), 0
    while time.perf_counter() - begin < seconds:
        for _ in range(100):
            way()
        count += 100
    return count / (time.perf_counter() - begin)


def main() -> None:
    """Prints a line for each way."""
    seconds = float(sys.argv[1]) if len(sys.argv) > 1 else 2.0
    path = os.environ["HARDIEFLAX_LIBRARY"]
    with tempfile.TemporaryDirectory() as folder:
        ways: Dict[str, Callable[[], bytes]] = {
            "ctypes, by Library.next": by_ctypes(path), "ctypes, the call alone": by_bare_ctypes(path), "cffi's API mode": by_cffi(path, folder)}
        best = dict.fromkeys(ways, 0.0)
        for _ in range(5):
            for name, way in ways.items():
                best[name] = max(best[name], timed(way, seconds / 5))
    for name, each in best.items():
        print(f"{each:10,.0f} calls a second: {name}")


if __name__ == "__main__":
    main()
