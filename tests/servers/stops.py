"""Asks that what servers.py starts is ended: on each signal, while it comes up, where it does not listen, and where it never takes a
connection. The servers here are shells that sleep.

    python3 tests/servers/stops.py WAY      one of them, to be ended by a signal
"""
from __future__ import annotations

import os
import pathlib
import signal
import subprocess
import sys
import time
from typing import Iterator, NoReturn

sys.dont_write_bytecode = True

import servers  # noqa: E402

PATIENCE = 60
SLEEP = "sleep 300 & wait"
SIGNALS = (signal.SIGTERM, signal.SIGINT, signal.SIGHUP)
# By the name of the way: what the shell does.
WAYS = {"preparing": SLEEP, "coming up": SLEEP, "deaf": f"trap '' TERM; {SLEEP}; {SLEEP}", "never": SLEEP, "ending": "exit 1"}


def never() -> NoReturn:
    raise OSError("no connection")


def sleeper(way: str) -> None:
    """A server of this way, whose folder and process are printed."""
    for number in SIGNALS:
        signal.signal(number, signal.SIG_DFL)
    servers.SIGNALS.install()
    servers.STOP_PATIENCE = 1
    servers.START_PATIENCE = 1 if way == "never" else PATIENCE
    server = servers.Process("sleeper")
    words = ("sh", "-c", f"echo $$ >pid; {WAYS[way]}")
    print(server.folder, flush=True)
    try:
        if way == "preparing":
            server.call(*words)
        server.start(*words, end=signal.SIGTERM)
        server.connected(never, OSError)
    finally:
        servers.stop_all()


class Run:
    """A script of this way, which gets a signal unless it ends by itself."""

    def __init__(self, way: str, number: signal.Signals) -> None:
        self.name = f"{way}, at {number.name}"
        self.number = None if way in ("never", "ending") else number
        self.script = subprocess.Popen([sys.executable, __file__, way], stdout=subprocess.PIPE, stderr=subprocess.DEVNULL)
        self.folder = pathlib.Path("/")
        self.group: int | None = None

    def ask_to_end(self) -> None:
        assert self.script.stdout is not None
        self.folder = pathlib.Path(self.script.stdout.readline().decode().strip())
        self.group = shell_of(self.folder)
        if self.number is not None:
            self.script.send_signal(self.number)

    def left(self) -> Iterator[str]:
        """What is left of it."""
        try:
            status = self.script.wait(PATIENCE)
        except subprocess.TimeoutExpired:
            yield "the script did not end"
            return
        if status == 0:
            yield "it ended with 0"
        if self.folder.exists():
            yield f"its folder is left: {self.folder}"
        if self.group is not None and is_left(self.group):
            yield f"processes are left: group {self.group}"

    def close(self) -> None:
        if self.script.poll() is None:
            self.script.terminate()
            self.script.wait()
        assert self.script.stdout is not None
        self.script.stdout.close()


def faults() -> list[tuple[str, list[str]]]:
    """For each way, and each signal on one that comes up, what is left."""
    runs = [Run(way, number) for way in WAYS for number in (SIGNALS if way == "coming up" else SIGNALS[:1])]
    try:
        for each in runs:
            each.ask_to_end()
        return [(each.name, list(each.left())) for each in runs]
    finally:
        for each in runs:
            each.close()


def shell_of(folder: pathlib.Path) -> int | None:
    """The number of the shell, once it has told it; none where its folder is gone by then."""
    until = time.monotonic() + PATIENCE
    while time.monotonic() < until and folder.exists():
        try:
            return int((folder / "pid").read_text())
        except (OSError, ValueError):
            time.sleep(0.02)
    return None


def is_left(group: int) -> bool:
    """Whether the group still has a process after a while."""
    until = time.monotonic() + 5
    while time.monotonic() < until:
        try:
            os.killpg(group, 0)
        except ProcessLookupError:
            return False
        time.sleep(0.05)
    return True


if __name__ == "__main__":
    sleeper(sys.argv[1])
