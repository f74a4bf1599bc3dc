"""What answers documents: the C library by ctypes, or else the program, which stays for sessions and is run once for any other batch.

Both answer the same bytes. `default_engine()` finds one, and says what to do where there is none.
"""
from __future__ import annotations

import collections
import ctypes
import ctypes.util
import json
import os
import pathlib
import shutil
import subprocess
import threading
import weakref
from typing import Any, Callable, Dict, Hashable, List, NoReturn, Optional, Protocol, Sequence, Tuple, Type, Union, runtime_checkable
from types import TracebackType

from .errors import EngineError, EngineMissing

DIALECTS = ("Pg", "Mysql", "Sqlite", "Bracket")
Path = Union[str, "os.PathLike[str]"]
# The members of a document.
Members = Dict[str, Any]
USAGE, BAD_DOCUMENT, WRITE_FAULT, NO_MEMORY, TOO_LARGE = 2, 3, 5, 6, 7
# The size of an input that the program refuses is beyond 16777216.
MOST_BYTES = 16_000_000
# So many sessions an engine keeps at a time, of which each has read a schema.
MOST_SESSIONS = 8

MISSING = """neither the library nor the program of Hardieflax is there. One of these helps:
  - install a wheel of hardieflax for your system, which brings the library
  - HARDIEFLAX_LIBRARY=PATH names the shared library libhardieflax.so (docs/EMBEDDING.md says how to link it)
  - HARDIEFLAX_PROGRAM=PATH names the program sql_tool, which may as well be on PATH"""


class Engine(Protocol):
    """Answers documents."""

    def run(self, command: Sequence[str], document: bytes) -> bytes:
        """What the program would write for this document. EngineError: it has not answered all."""

    def has(self, command: str) -> bool:
        """Whether it knows a command."""


@runtime_checkable
class KeepsSession(Engine, Protocol):
    """An engine that reads a schema once, and its policies: the library, or a program that stays and answers over a pipe."""

    def next(self, owner: Hashable, opening: Callable[[], Members], body: str) -> bytes:
        """The lines of requests in the session of an owner, which is opened where there is none. The body has all members but `schema`."""

    def has_policies(self) -> bool:
        """Whether its sessions restrict statements by policies."""


# Opens a session with no policy, and asks for a table: where policies are known it is refused.
_PROBE = (b'{"schema":{"tables":[{"name":"t","columns":[{"name":"id","type":"Integer"}]}]},"tenant":[],'
          b'"requests":[{"dialect":"Pg","query":{"from":{"table":"t"}}}]}')
_PROBED = b'{"refused":"LacksPolicy"}'


def restricts(engine: Engine) -> bool:
    """Whether the engine restricts statements by policies, in sessions or by the command `tenant`."""
    return isinstance(engine, KeepsSession) and engine.has_policies() or engine.has("tenant")


def _opened_by(members: Members) -> str:
    """The document that opens a session, without requests."""
    return json.dumps({**members, "requests": []}, ensure_ascii=False)


def _continued_by(body: str) -> str:
    """The document that goes on in a session."""
    return f'{{"schema":{{"tables":[]}},{body}}}'


class _Structure(ctypes.Structure):
    """`hardieflax` of the header."""

    _fields_ = [
        ("bytes", ctypes.c_void_p),
        ("length", ctypes.c_size_t),
        ("owned", ctypes.c_void_p),
        ("in_use", ctypes.c_bool),
    ]


_INPUT: List[Any] = [ctypes.c_char_p, ctypes.c_size_t]
_OF_DOCUMENTS = ("build", "guard", "open", "next")
_OF_DIALECTS = ("read", "audit")


class _Handle:
    """A handle of the library. It has a lock, by which threads wait in turn, and is freed when nothing refers to it any more."""

    def __init__(self, calls: Dict[str, Callable[..., int]], free: Callable[[_Structure], None]) -> None:
        self._calls, self._free = calls, free
        self._structure = _Structure()
        self._lock = threading.Lock()
        self._process = os.getpid()
        # The end of the process frees its memory, so there is nothing to do then.
        weakref.finalize(self, _free_in, self._process, free, self._structure).atexit = False

    def free(self) -> None:
        """Frees what the handle owns, a session too. It may be used again."""
        with self._lock:
            _free_in(self._process, self._free, self._structure)

    def call(self, name: str, dialect: Sequence[int], document: bytes) -> bytes:
        """The answer of a call. EngineError: its status is not 0."""
        if not isinstance(document, bytes):
            raise TypeError(f"a document is bytes, and not {type(document).__name__}")
        if os.getpid() != self._process:
            raise EngineError(USAGE, detail="the library's handle is of the process that forked this one: make an engine of its own")
        with self._lock:
            status = self._calls[name](self._structure, *dialect, document, len(document))
            answered = ctypes.string_at(self._structure.bytes, self._structure.length) if status in (0, NO_MEMORY) else b""
        if status != 0:
            raise EngineError(status, answered)
        return answered


def _free_in(process: int, free: Callable[[_Structure], None], structure: _Structure) -> None:
    """Frees a handle, in the process that made it."""
    if os.getpid() == process:
        free(structure)


class Library:
    """The shared library. It has a handle for documents, and one for each of the latest sessions.

    Threads may share it. A forked child makes its own.
    """

    def __init__(self, path: Path) -> None:
        """Loads the library. EngineMissing: there is none, or it is another one."""
        try:
            library = ctypes.CDLL(os.fspath(path))
            self._calls = {name: self._function(library, name, _INPUT) for name in _OF_DOCUMENTS}
            self._calls.update({name: self._function(library, name, [ctypes.c_uint32, *_INPUT]) for name in _OF_DIALECTS})
            free = library["hardieflax_free"]
        except (OSError, AttributeError) as error:
            raise EngineMissing(f"{os.fspath(path)} is not the library: {error}\n{MISSING}") from error
        free.argtypes, free.restype = [ctypes.POINTER(_Structure)], None
        self._free: Callable[[_Structure], None] = free
        self._documents = self._handle()
        self._sessions: collections.OrderedDict[Hashable, _Handle] = collections.OrderedDict()
        self._sessions_lock = threading.Lock()
        self._has_policies: Optional[bool] = None

    def _handle(self) -> _Handle:
        return _Handle(self._calls, self._free)

    @staticmethod
    def _function(library: ctypes.CDLL, name: str, arguments: Sequence[Any]) -> Callable[..., int]:
        function = library["hardieflax_" + name]
        function.argtypes = [ctypes.POINTER(_Structure), *arguments]
        function.restype = ctypes.c_uint32
        made: Callable[..., int] = function
        return made

    def __enter__(self) -> Library:
        return self

    def __exit__(self, kind: Optional[Type[BaseException]], error: Optional[BaseException], trace: Optional[TracebackType]) -> None:
        self.close()

    def __reduce__(self) -> NoReturn:
        raise TypeError("a Library is not copied or pickled: a handle has one owner")

    def close(self) -> None:
        """Frees what the handles own, sessions too. The library may be used again."""
        with self._sessions_lock:
            while self._sessions:
                self._sessions.popitem()[1].free()
        self._documents.free()

    def next(self, owner: Hashable, opening: Callable[[], Members], body: str) -> bytes:
        """The lines of requests in the session of an owner. It is opened where there is none, as after memory ran out."""
        with self._sessions_lock:
            handle = self._sessions.pop(owner, None)
            if handle is None:
                handle = self._handle()
                handle.call("open", (), _opened_by(opening()).encode())
            try:
                answered = handle.call("next", (), _continued_by(body).encode())
            except EngineError as error:
                if error.status in (BAD_DOCUMENT, TOO_LARGE) or error.answered:  # the session goes on
                    self._keep(owner, handle)
                raise
            self._keep(owner, handle)
            return answered

    def _keep(self, owner: Hashable, handle: _Handle) -> None:
        self._sessions[owner] = handle
        while len(self._sessions) > MOST_SESSIONS:
            self._sessions.popitem(last=False)[1].free()

    def has_policies(self) -> bool:
        """Whether its sessions restrict statements by policies. It is asked once."""
        if self._has_policies is None:
            handle = self._handle()
            self._has_policies = handle.call("open", (), _PROBE).strip() == _PROBED
            handle.free()
        return self._has_policies

    def has(self, command: str) -> bool:
        """Whether the library has a call for the command."""
        return command in self._calls

    def run(self, command: Sequence[str], document: bytes) -> bytes:
        """Calls the library. EngineError: not all is answered."""
        name, *words = command
        if name not in self._calls:
            raise EngineError(USAGE, detail=f"the library has no call {name!r}")
        return self._documents.call(name, [DIALECTS.index(word) for word in words], document)


class Program:
    """The program, started once for each call."""

    def __init__(self, *words: Path) -> None:
        """The words that start it, as "sql_tool". EngineMissing: there is no such program."""
        self.words: Tuple[str, ...] = tuple(os.fspath(word) for word in words) or ("sql_tool",)
        if shutil.which(self.words[0]) is None:
            raise EngineMissing(f"there is no program {self.words[0]}\n{MISSING}")
        self._known: Dict[str, bool] = {}

    def has(self, command: str) -> bool:
        """Whether the program knows a command: with words that are none it ends with 2, and has read nothing."""
        if command in ("open", "next"):
            return False
        if command not in self._known:
            run = subprocess.run([*self.words, command], stdin=subprocess.DEVNULL, stdout=subprocess.DEVNULL, stderr=subprocess.DEVNULL)
            self._known[command] = run.returncode != USAGE
        return self._known[command]

    def run(self, command: Sequence[str], document: bytes) -> bytes:
        """Runs the program. EngineError: it ended with another status than 0."""
        try:
            run = subprocess.run([*self.words, *command], input=document, stdout=subprocess.PIPE, stderr=subprocess.PIPE)
        except OSError as error:
            raise EngineMissing(f"{self.words[0]} did not start: {error}") from error
        if run.returncode != 0:
            answered = run.stdout if run.returncode == NO_MEMORY else b""
            raise EngineError(run.returncode, answered, run.stderr.decode(errors="replace").strip()[:300])
        return run.stdout


_ERRORS = {"BadDocument": BAD_DOCUMENT, "TooLarge": TOO_LARGE, "TooDeep": NO_MEMORY}


class _Talk:
    """A process of the command `session`. It ends with this object; a forked child leaves it alone."""

    def __init__(self, words: Sequence[str]) -> None:
        try:
            self._process = subprocess.Popen([*words, "session"], stdin=subprocess.PIPE, stdout=subprocess.PIPE, stderr=subprocess.DEVNULL)
        except OSError as error:
            raise EngineMissing(f"{words[0]} did not start: {error}") from error
        self._end = weakref.finalize(self, _end_process, os.getpid(), self._process)
        self.is_idle = True

    def end(self) -> None:
        """Ends the process."""
        self._end()

    def ask(self, document: str) -> bytes:
        """The answer to a line. EngineError: the line is refused. OSError: the process has ended."""
        process = self._process
        assert process.stdin is not None and process.stdout is not None
        self.is_idle = False
        # A text of JSON has no newline that is not white space.
        process.stdin.write(document.replace("\n", " ").encode() + b"\n")
        process.stdin.flush()
        answered: List[bytes] = []
        for line in iter(process.stdout.readline, b"\n"):
            if not line.endswith(b"\n"):
                raise BrokenPipeError("the program has ended")
            answered.append(line)
        self.is_idle = True
        if answered and answered[-1].startswith(b'{"error":'):
            word = json.loads(answered[-1])["error"]
            raise EngineError(_ERRORS.get(word, BAD_DOCUMENT), b"".join(answered[:-1]), word)
        return b"".join(answered)

    def status(self) -> int:
        """The status of a process that is of no more use."""
        self._process.kill()
        return self._process.wait()


def _end_process(started_by: int, process: subprocess.Popen[bytes]) -> None:
    """Ends a process that this one has started: its input ends, so it does. A forked child closes its own ends alone."""
    for stream in (process.stdin, process.stdout):
        if stream is not None:
            try:
                stream.close()
            except OSError:
                pass
    if os.getpid() == started_by:
        process.wait()
    else:
        process.returncode = 0  # it is no child of this process, so nothing is to be said of it


class Conversation(Program):
    """The program, of which a process stays for each of the latest sessions, by its command `session`; for the rest it is started once
    for each call. Threads wait in turn. The processes end with this object, or by `close`; a forked child starts its own."""

    def __init__(self, *words: Path) -> None:
        """The words that start it. EngineMissing: there is no such program, or it has no command `session`."""
        super().__init__(*words)
        if not self.has("session"):
            raise EngineMissing(f"{self.words[0]} has no command session\n{MISSING}")
        self._lock = threading.Lock()
        self._talks: collections.OrderedDict[Hashable, _Talk] = collections.OrderedDict()
        self._started_by = os.getpid()
        self._has_policies: Optional[bool] = None

    def __enter__(self) -> Conversation:
        return self

    def __exit__(self, kind: Optional[Type[BaseException]], error: Optional[BaseException], trace: Optional[TracebackType]) -> None:
        self.close()

    def __reduce__(self) -> Tuple[Type[Conversation], Tuple[str, ...]]:
        return (Conversation, self.words)

    def close(self) -> None:
        """Ends the processes, where there are any. The next question starts another."""
        with self._lock:
            self._close()

    def _close(self) -> None:
        while self._talks:
            self._talks.popitem()[1].end()

    def next(self, owner: Hashable, opening: Callable[[], Members], body: str) -> bytes:
        """The lines of requests in the session of an owner. A process is started where there is none for it."""
        with self._lock:
            if self._started_by != os.getpid():
                self._close()
                self._started_by = os.getpid()
            talk = self._talks.pop(owner, None)
            if talk is None:
                talk = _Talk(self.words)
                self._asked(talk, _opened_by(opening()))
            try:
                return self._asked(talk, _continued_by(body))
            finally:
                if talk.is_idle:
                    self._keep(owner, talk)

    def _keep(self, owner: Hashable, talk: _Talk) -> None:
        self._talks[owner] = talk
        while len(self._talks) > MOST_SESSIONS:
            self._talks.popitem(last=False)[1].end()

    @staticmethod
    def _asked(talk: _Talk, document: str) -> bytes:
        """The answer to a line. Where the process has ended, or its answer is cut off, the next question starts another."""
        try:
            return talk.ask(document)
        except OSError as error:
            status = talk.status()
            raise EngineError(status if status > 0 else WRITE_FAULT, detail=f"the program has ended: {error}") from error

    def has_policies(self) -> bool:
        """Whether its sessions restrict statements by policies. It is asked once."""
        if self._has_policies is None:
            run = subprocess.run([*self.words, "session"], input=_PROBE + b"\n", stdout=subprocess.PIPE, stderr=subprocess.DEVNULL)
            self._has_policies = run.stdout.strip() == _PROBED
        return self._has_policies


def _program(*words: Path) -> Program:
    """The program, which stays where it knows how."""
    try:
        return Conversation(*words)
    except EngineMissing:
        return Program(*words)


def lines(answered: bytes) -> List[Any]:
    """The lines of an answer. A text may hold what Unicode calls the end of a line, so they are split at byte 10 alone."""
    return [json.loads(line) for line in answered.split(b"\n")[:-1]]


def found_engine() -> Engine:
    """The library, or else the program: named by the environment, of this package, or installed on the system."""
    own = pathlib.Path(__file__).resolve().parent
    named_library, named_program = os.environ.get("HARDIEFLAX_LIBRARY"), os.environ.get("HARDIEFLAX_PROGRAM")
    if named_library:
        return Library(named_library)
    if named_program:
        return _program(named_program)
    for library in (own / "libhardieflax.so", own / "libhardieflax.dylib"):
        if library.exists():
            return Library(library)
    for program in (str(own / "sql_tool"), "sql_tool"):
        if shutil.which(program):
            return _program(program)
    installed = ctypes.util.find_library("hardieflax")
    if installed:
        return Library(installed)
    raise EngineMissing(MISSING)


_default: Dict[int, Engine] = {}
_default_lock = threading.Lock()


def default_engine() -> Engine:
    """The engine of this process, found once. A forked child has its own."""
    process = os.getpid()
    found = _default.get(process)
    if found is None:
        with _default_lock:
            if process not in _default:
                _default[process] = found_engine()
            found = _default[process]
    return found
