"""Starts and ends the servers: PostgreSQL and MariaDB of Debian's packages on unix sockets in a folder of their own. A server runs as another
user where this script runs as root, since PostgreSQL insists. Only processes that were started here are ended, and all of them are: at the
end, on a signal, and where one does not come up.
"""
from __future__ import annotations

import contextlib
import glob
import os
import pathlib
import pwd
import shutil
import signal
import subprocess
import tempfile
import time
from typing import Any, Callable, Iterable, Iterator, Protocol, Sequence

from values import Kind

USERS = ("postgres", "mysql", "nobody")
START_PATIENCE = 120
STOP_PATIENCE = 60
POSTGRES_OPTIONS = ("fsync=off", "full_page_writes=off", "synchronous_commit=off", "shared_buffers=16MB", "max_connections=10",
                    "listen_addresses=", "autovacuum=off", "jit=off", "lc_messages=C", "statement_timeout=120s")
MARIADB_OPTIONS = ("skip-networking", "skip-log-bin", "innodb-flush-log-at-trx-commit=0", "innodb-flush-method=nosync",
                   "innodb-buffer-pool-size=16M", "innodb-log-file-size=8M", "character-set-server=utf8mb4",
                   "collation-server=utf8mb4_nopad_bin")


class Missing(Exception):
    """A package is not installed; the text says which."""


class Refused(Exception):
    """A server's message."""


class NotStarted(Exception):
    """A server that is installed did not come up; the text says why."""


class Server(Protocol):
    """What each server can be asked."""
    name: str
    dialect: str
    has_types: bool
    types: dict[str, str]
    version: str

    def run(self, sql: str) -> object:
        """Executes a text without placeholders."""

    def prepare(self, sql: str, kinds: Sequence[Kind]) -> tuple[int, list[Any] | None]:
        """The number of placeholders by the server's count, and the types of the columns where it tells them now."""

    def execute(self, kinds: Sequence[Kind], values: Sequence[Any]) -> tuple[list[Any], list[tuple[Any, ...]]]:
        """What the prepared text gives with these values: the types of the columns where it tells them, and the rows."""

    def close(self) -> None:
        """Forgets the prepared statement, where there is one."""

    def open_schemas(self, names: Iterable[str]) -> dict[str, str]:
        """Makes the schemas of a document, and gives those that the server refuses with its message."""

    def drop_schemas(self) -> None:
        """Drops them with all that is in them."""

    def quoted(self, name: str) -> str:
        """A name as the server takes it."""


class Signals:
    """A signal ends the run, but never between the start of a process and its entry in the list of what has to be ended."""

    def __init__(self) -> None:
        self.is_held = False
        self.came: int | None = None

    def install(self) -> None:
        """Once in each process."""
        self.is_held, self.came = False, None
        for number in (signal.SIGTERM, signal.SIGINT, signal.SIGHUP):
            if signal.getsignal(number) != signal.SIG_IGN:  # as nohup has it
                signal.signal(number, self.handle)

    def handle(self, number: int, _: object) -> None:
        if self.is_held:
            self.came = number
        else:
            raise SystemExit(f"stopped by signal {number}")

    @contextlib.contextmanager
    def held(self) -> Iterator[None]:
        was_held, self.is_held = self.is_held, True
        try:
            yield
        finally:
            self.is_held = was_held
        if self.came is not None and not was_held:
            number, self.came = self.came, None
            raise SystemExit(f"stopped by signal {number}")


SIGNALS = Signals()
STARTED: list[Process] = []


def stop_all() -> None:
    """Ends every server that runs, and removes its folder."""
    with SIGNALS.held():
        while STARTED:
            STARTED[-1].stop()


def unprivileged() -> dict[str, Any]:
    """The arguments of Popen by which a server runs as another user than root."""
    if os.getuid() != 0:
        return {}
    for name in USERS:
        try:
            user = pwd.getpwnam(name)
        except KeyError:
            continue
        return {"user": user.pw_uid, "group": user.pw_gid, "extra_groups": []}
    raise Missing("no user to run a server as: " + " or ".join(USERS))


def binary(name: str, *folders: str) -> str:
    """The path of a server's program."""
    for folder in folders:
        for path in sorted(glob.glob(os.path.join(folder, name)), reverse=True):
            return path
    found = shutil.which(name)
    if found is None:
        raise Missing(f"{name} is not installed")
    return found


class Process:
    """A server in a folder of its own, and in a process group of its own."""

    def __init__(self, name: str) -> None:
        self.name = name
        self.user = unprivileged()
        self.process: subprocess.Popen[bytes] | None = None
        self.end: signal.Signals | None = None
        with SIGNALS.held():
            # A socket's path has room for 107 bytes, so the folder is not below a long one.
            self.folder = pathlib.Path(tempfile.mkdtemp(prefix=f"hardieflax-{name}-", dir="/tmp"))
            self.log = open(self.folder / "log", "wb")
            STARTED.append(self)
        if self.user:
            os.chown(self.folder, self.user["user"], self.user["group"])

    def begin(self, *words: str) -> None:
        with SIGNALS.held():
            self.process = subprocess.Popen(words, stdout=self.log, stderr=self.log, stdin=subprocess.DEVNULL, cwd=self.folder,
                                            start_new_session=True, **self.user)

    def call(self, *words: str) -> None:
        """Runs a program to its end."""
        self.begin(*words)
        assert self.process is not None
        if not self.has_ended(START_PATIENCE):
            raise NotStarted(f"{words[0]} did not end in {START_PATIENCE} s: {self.tail()}")
        status = self.process.wait()
        if status != 0:
            raise NotStarted(f"{words[0]} ended with {status}: {self.tail()}")

    def has_ended(self, patience: float = 0) -> bool:
        """Whether the process ended in so many seconds. Its number stays taken, so that no other process can get it."""
        assert self.process is not None
        until = time.monotonic() + patience
        while os.waitid(os.P_PID, self.process.pid, os.WEXITED | os.WNOHANG | os.WNOWAIT) is None:
            if time.monotonic() >= until:
                return False
            time.sleep(0.02)
        return True

    def start(self, *words: str, end: signal.Signals) -> None:
        """Starts the server itself, which `end` asks to end."""
        self.end = end
        self.begin(*words)

    def connected(self, connect: Callable[[], Any], fault: type[Exception]) -> Any:
        """What `connect` gives once the server takes connections."""
        until = time.monotonic() + START_PATIENCE
        while True:
            if self.has_ended():
                raise NotStarted(f"{self.name} ended: {self.tail()}")
            try:
                return connect()
            except fault as error:
                if time.monotonic() > until:
                    raise NotStarted(f"{self.name} takes no connection: {error}; {self.tail()}") from error
                time.sleep(0.1)

    def tail(self) -> str:
        return (self.folder / "log").read_bytes()[-2000:].decode(errors="replace")

    def stop(self) -> None:
        """Ends what runs, asking it first, and removes the folder. A second call does nothing."""
        with SIGNALS.held():
            if self not in STARTED:
                return
            if self.process is not None and self.process.returncode is None:
                if self.end is not None:  # a server gets time to end; what prepares its folder gets none
                    os.kill(self.process.pid, self.end)
                    self.has_ended(STOP_PATIENCE)
                os.killpg(self.process.pid, signal.SIGKILL)  # it, if it is deaf, and what it left
                self.process.wait()
            self.log.close()
            shutil.rmtree(self.folder, ignore_errors=True)
            STARTED.remove(self)


def start_postgres() -> Process:
    """A PostgreSQL that orders texts byte by byte, with its socket in its folder."""
    folders = ["/usr/lib/postgresql/*/bin"]
    initdb, postgres = binary("initdb", *folders), binary("postgres", *folders)
    server = Process("postgres")
    server.call(initdb, "-D", f"{server.folder}/data", "-U", "postgres", "-A", "trust", "--locale=C", "--encoding=UTF8", "--no-sync")
    options = [word for option in (*POSTGRES_OPTIONS, f"unix_socket_directories={server.folder}") for word in ("-c", option)]
    server.start(postgres, "-D", f"{server.folder}/data", *options, end=signal.SIGINT)
    return server


def start_mariadb() -> Process:
    """A MariaDB that orders texts byte by byte, with the file `socket` in its folder."""
    mariadbd, install = binary("mariadbd", "/usr/sbin"), binary("mariadb-install-db", "/usr/bin")
    binary("my_print_defaults", "/usr/bin")  # of another package, and called by mariadb-install-db
    server = Process("mariadb")
    data = f"--datadir={server.folder}/data"
    options = [f"--{option}" for option in MARIADB_OPTIONS]
    server.call(install, "--no-defaults", data, "--auth-root-authentication-method=normal", "--skip-test-db", *options)
    server.start(mariadbd, "--no-defaults", data, f"--socket={server.folder}/socket", f"--pid-file={server.folder}/pid", *options,
                 end=signal.SIGTERM)
    return server
