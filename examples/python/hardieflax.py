"""The commands of Hardieflax, over bytes in memory, through ctypes and a shared library (docs/EMBEDDING.md).

The declarations below are written by hand after hardieflax.h. `tests/wrappers.sh` tries them on a stand-in that is compiled with that
header; nothing compares the header with the library.
"""

from __future__ import annotations

import ctypes
import enum
import os
import threading
import weakref
from types import TracebackType
from typing import Callable, NoReturn


class Dialect(enum.IntEnum):
    """The dialect of a text."""

    PG = 0
    MYSQL = 1
    SQLITE = 2
    BRACKET = 3


class Status(enum.IntEnum):
    """Why a call has not answered all: the program's exit status."""

    USAGE = 2
    BAD_DOCUMENT = 3
    NO_MEMORY = 6
    TOO_LARGE = 7


_MEANINGS = {
    Status.USAGE: "no session is open",
    Status.BAD_DOCUMENT: "the input is not what the call reads",
    Status.NO_MEMORY: "out of memory, or a request or a text nests too deep",
    Status.TOO_LARGE: "the input has more than 16777216 bytes",
}


class HardieflaxError(Exception):
    """A call that has not answered all. `status` says why: a `Status`, or a number that the header does not name.

    On NO_MEMORY `answered` has the lines before: where it has n lines, it is the request or the text after the first n of the input that
    nests too deep, or for which memory ran out. On any other status it is empty.

    A request that breaks a rule is no error: the answer has the line {"refused":RULE} for it.
    """

    status: int
    answered: bytes

    def __init__(self, status: int, answered: bytes = b"") -> None:
        super().__init__(status, answered)
        self.status = Status(status) if status in _MEANINGS else status
        self.answered = answered

    def __str__(self) -> str:
        if isinstance(self.status, Status):
            return f"{self.status.name}: {_MEANINGS[self.status]}"
        return f"status {self.status}"


class _Handle(ctypes.Structure):
    """`hardieflax` of the header."""

    _fields_ = [
        ("bytes", ctypes.c_void_p),
        ("length", ctypes.c_size_t),
        ("owned", ctypes.c_void_p),
        ("in_use", ctypes.c_bool),
    ]


_INPUT = [ctypes.c_char_p, ctypes.c_size_t]
_CALLS = {
    "build": _INPUT,
    "guard": _INPUT,
    "read": [ctypes.c_uint32, *_INPUT],
    "audit": [ctypes.c_uint32, *_INPUT],
    "open": _INPUT,
    "next": _INPUT,
    "open_within": [*_INPUT, ctypes.c_size_t],
    "reset": [],
    "audit_next": [ctypes.c_uint32, *_INPUT],
}


class Hardieflax:
    """Answers calls, and keeps at most one session. It frees what it owns when it is closed, or when nothing refers to it any more.

    Threads may share one: a call waits for the one that is running. Each may as well have its own. Call none from a signal handler, nor in
    the forked child of a process with threads.

    with Hardieflax("./libhardieflax.so") as session:
        session.open(document)
        lines = session.next(b'{"schema":{"tables":[]},"requests":[..]}')
    """

    def __init__(self, path: str | os.PathLike[str]) -> None:
        """Loads the library. OSError: there is none at this path, or it is not a shared library."""
        library = ctypes.CDLL(os.fspath(path))
        self._calls: dict[str, Callable[..., int]] = {}
        for name, arguments in _CALLS.items():
            function = library["hardieflax_" + name]
            function.argtypes = [ctypes.POINTER(_Handle), *arguments]
            function.restype = ctypes.c_uint32
            self._calls[name] = function
        self._free = library["hardieflax_free"]
        self._free.argtypes = [ctypes.POINTER(_Handle)]
        self._free.restype = None
        self._handle = _Handle()
        self._lock = threading.Lock()
        # The end of the process frees its memory, so there is nothing to do then.
        weakref.finalize(self, self._free, self._handle).atexit = False

    def __enter__(self) -> Hardieflax:
        return self

    def __exit__(self, kind: type[BaseException] | None, error: BaseException | None, trace: TracebackType | None) -> None:
        self.close()

    def __reduce__(self) -> NoReturn:
        raise TypeError("a Hardieflax is not copied or pickled: a handle has one owner")

    def close(self) -> None:
        """Frees what the handle owns, a session too. It may be used again."""
        with self._lock:
            self._free(self._handle)

    def _call(self, name: str, data: bytes, *dialect: int, more: tuple[int, ...] = ()) -> bytes:
        if not isinstance(data, bytes):
            raise TypeError(f"the input is bytes, and not {type(data).__name__}")
        return self._ask(name, *dialect, data, len(data), *more)

    def _ask(self, name: str, *arguments: int | bytes) -> bytes:
        with self._lock:
            status = self._calls[name](self._handle, *arguments)
            if status not in (0, Status.NO_MEMORY):
                raise HardieflaxError(status)
            lines = ctypes.string_at(self._handle.bytes, self._handle.length)
        if status != 0:
            raise HardieflaxError(status, lines)
        return lines

    def build(self, document: bytes) -> bytes:
        """A line for each request of the document. HardieflaxError: not all of it is answered."""
        return self._call("build", document)

    def guard(self, document: bytes) -> bytes:
        """The same, each statement restricted to the rows of the document's tenant."""
        return self._call("guard", document)

    def read(self, dialect: Dialect, text: bytes) -> bytes:
        """A line with the text, as the dialect's grammar reads it. ValueError: no such dialect."""
        return self._call("read", text, Dialect(dialect))

    def audit(self, dialect: Dialect, texts: bytes) -> bytes:
        """A line for each text, with the tables and columns that it uses. ValueError: no such dialect."""
        return self._call("audit", texts, Dialect(dialect))

    def open(self, document: bytes, capacity: int = 0) -> bytes:
        """Opens a session over the document's schema, in place of an earlier one, and answers the document.

        Once so many shapes have an id as the capacity says, all are forgotten: 16,384 for 0. ValueError: it is no size.
        Its member `tenant` has policies, with places for the values that each document of the session gives (docs/GUARD.md).
        Where a request nests too deep the session is open, and has answered the requests before it. After any other error there is none.
        """
        if not 0 <= capacity < 2**32:
            raise ValueError(f"{capacity} is no capacity")
        return self._call("open_within", document, more=(capacity,)) if capacity else self._call("open", document)

    def reset(self) -> None:
        """Has the session begin anew: its schema, policies and capacity stay, and ids are counted from 1 again. Drop what you kept by id."""
        self._ask("reset")

    def audit_next(self, dialect: Dialect, texts: bytes) -> bytes:
        """A line for each text of a document that declares no table, over the session's schema. The session stays as it is."""
        return self._call("audit_next", texts, Dialect(dialect))

    def next(self, document: bytes) -> bytes:
        """Answers the requests of a document that declares no table, over the session's schema.

        Where a request nests too deep the session has answered the requests before it, and goes on. Where memory runs out it is gone, and
        the next call raises USAGE: open it again. Other errors leave it as it was.
        """
        return self._call("next", document)
