"""Random documents, for a number of lines or for a time, by one worker or by several with servers of their own."""
from __future__ import annotations

import argparse
import dataclasses
import multiprocessing
import random
import time
from multiprocessing.connection import Connection
from multiprocessing.process import BaseProcess
from typing import Any, Callable

import documents
import servers
import tenants
from mariadb import Mariadb
from postgres import Postgres
from program import Program
from report import Place, Report
from runner import Document, Runner
from servers import Server
from spoilings import SPOILINGS, SpoiltProgram
from sqlite import Sqlite

DIALECTS: dict[str, Callable[[], Server]] = {"Pg": Postgres, "Mysql": Mariadb, "Sqlite": Sqlite}
GUARD_EVERY = 4  # in a campaign every so many documents have a guard, and as many have policies
END_PATIENCE = 150


@dataclasses.dataclass(frozen=True)
class Options:
    """What a campaign is to do."""
    program: str
    dialects: list[str]
    rows: int
    shown: int
    seed: int
    count: int | None
    minutes: float | None
    is_guarded: bool
    has_tenant: bool
    spoiling: str | None
    jobs: int

    @classmethod
    def of(cls, given: argparse.Namespace) -> Options:
        shown = 0 if given.spoil else given.show
        return cls(given.program, given.dialect or list(DIALECTS), given.rows, shown, given.seed, given.random, given.minutes, given.guard,
                   given.tenant, given.spoil, given.jobs)


def start(wanted: list[str], report: Report) -> dict[str, Server]:
    """The servers whose packages are installed. One that does not come up is a failure."""
    started: dict[str, Server] = {}
    for dialect in wanted:
        began = time.monotonic()
        try:
            server = started[dialect] = DIALECTS[dialect]()
        except servers.Missing as error:
            print(f"skipped {dialect}: {error} (tests/servers/install.sh)", flush=True)
            continue
        except servers.NotStarted as error:
            report.fail(Place(f"the start of {dialect}'s server"), str(error))
            continue
        report.versions[server.name] = server.version
        print(f"{server.name} {server.version}, started in {time.monotonic() - began:.1f} s", flush=True)
    return started


def tenant_document(seed: int) -> Document:
    return Document(f"document of --seed {seed} --tenant", tenants.document(random.Random(seed)), seed)


def random_document(seed: int, is_guarded: bool) -> Document:
    content = documents.document(random.Random(seed), is_guarded=is_guarded)
    return Document(f"document of --seed {seed}" + " --guard" * is_guarded, content, seed)


def run_random(runner: Runner, options: Options, worker: int) -> None:
    """Documents of this worker's seeds until the lines or the minutes are full. Each is made from a seed of its own."""
    until = time.monotonic() + 60 * options.minutes if options.minutes is not None else None
    most = None if options.count is None else -(-options.count // options.jobs)
    done, seed, documents_run = 0, options.seed + worker, 0
    while (most is None or done < most) and (until is None or time.monotonic() < until):
        turn = (seed // options.jobs) % GUARD_EVERY if options.minutes is not None else None
        if options.has_tenant or (turn == 1 and not options.is_guarded):
            done += runner.run(tenant_document(seed))
        else:
            done += runner.run(random_document(seed, options.is_guarded or turn == 0))
        seed += options.jobs
        documents_run += 1
    print(f"worker {worker}: {done} lines accepted in {documents_run} documents, up to seed {seed - options.jobs}", flush=True)


def work(options: Options, worker: int, results: Connection) -> None:
    """One worker, with servers of its own."""
    servers.SIGNALS.install()
    report = Report(options.shown)
    try:
        program = Program(options.program)
        spoilt = SpoiltProgram(program.ask, SPOILINGS[options.spoiling]) if options.spoiling else None
        started = start(options.dialects, report)
        run_random(Runner(program.ask, started, report, options.rows, spoilt), options, worker)
    finally:
        servers.stop_all()
        results.send(report)


def run_jobs(options: Options, report: Report) -> bool:
    """The campaign by several workers, whose reports are added to this one. Whether all is well."""
    context: Any = multiprocessing.get_context("fork")
    workers: list[tuple[BaseProcess, Connection]] = []
    try:
        for worker in range(options.jobs):
            here, there = context.Pipe(duplex=False)
            process = context.Process(target=work, args=(options, worker, there))
            with servers.SIGNALS.held():
                process.start()
                workers.append((process, here))
            there.close()
        for process, results in workers:
            gather(report, process, results)
    finally:
        with servers.SIGNALS.held():
            end(workers)
    return report.failed == 0


def gather(report: Report, process: BaseProcess, results: Connection) -> None:
    try:
        report.merge(results.recv())
    except EOFError:
        report.fail(Place(f"worker {process.pid}"), "it ended without a report")


def end(workers: list[tuple[BaseProcess, Connection]]) -> None:
    """Asks those that still run to end, which end their servers."""
    for process, _ in workers:
        if process.is_alive():
            process.terminate()
    for process, _ in workers:
        process.join(END_PATIENCE)
