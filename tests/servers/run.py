#!/usr/bin/env python3
"""Runs every accepted line of documents on PostgreSQL, MariaDB and SQLite.

    tests/servers/run.py                                 what the gate runs
    tests/servers/run.py examples/filter.json ..         these documents, as they stand
    tests/servers/run.py --random 20000 [--seed 1]       random documents, until so many lines were accepted
    tests/servers/run.py --minutes 30 --jobs 4           random documents for so long, by so many workers, each with servers of its own
    tests/servers/run.py --spoil NAME [--random 2000]    a spoilt program: it has to be found (--spoil list: their names)

The program has to be built (--program names another). The script starts the servers on unix sockets in folders of its own, and docs/SERVERS.md
says what it asks of each line. With no arguments these are the lines of the examples and of the stored run in three dialects, those of a few
random documents, and what servers make of names; before them the evaluator is asked what is worked out by hand, and each spoilt program
has to be found. Ends with a table of what each server refused, and with 'N passed, M failed'. What is known to be refused (refusals.py) does
not fail. A server whose package is missing is skipped; one that is installed and does not start fails. Bracket has no server.
"""
from __future__ import annotations

import argparse
import json
import os
import pathlib
import sys
import time
from typing import Any, Callable, Iterator

sys.dont_write_bytecode = True
HERE = pathlib.Path(__file__).resolve().parent
TOP = HERE.parent.parent
sys.path.insert(0, str(HERE))
DEBIAN = "/usr/bin/python3"

import campaign  # noqa: E402
import collations  # noqa: E402
import names  # noqa: E402
import servers  # noqa: E402
import spoilt  # noqa: E402
import stops  # noqa: E402
import tenants  # noqa: E402
import worked  # noqa: E402
from campaign import DIALECTS, Options, start  # noqa: E402
from program import Program  # noqa: E402
from report import Place, Report  # noqa: E402
from runner import Document, Runner  # noqa: E402
from servers import Server  # noqa: E402
from spoilings import SPOILINGS, SpoiltProgram  # noqa: E402

# The random documents of the gate: always the same.
GATE_SEEDS, GATE_GUARD_SEEDS, GATE_TENANT_SEEDS = range(1, 9), range(1, 9), range(1, 9)


def in_each_dialect(document: dict[str, Any]) -> dict[str, Any]:
    """The document with each request in the dialects that have a server."""
    everything = [{**request, "dialect": dialect} for request in document["requests"] for dialect in DIALECTS]
    return {**document, "requests": everything}


def stored() -> Iterator[tuple[str, dict[str, Any]]]:
    """The documents of the repository."""
    for path in [*sorted((TOP / "examples").glob("*.json")), TOP / "crates/sql_tool/stdin"]:
        document = json.loads(path.read_text())
        if "requests" in document:
            yield path.name, in_each_dialect(document)
    queries = [line.split("\t")[1] for line in (TOP / "tests/documents.tsv").read_text().splitlines() if line.startswith("yes\t")]
    users = {"tables": [{"name": "users", "columns": [{"name": "id", "type": "Integer"}]}]}
    requests = [{"dialect": "Pg", "query": json.loads(query)} for query in queries]
    yield "documents.tsv", in_each_dialect({"schema": users, "requests": requests})


def run_worked(runner: Runner) -> None:
    """What is worked out by hand, over its own rows."""
    requests = [{"dialect": "Pg", "query": query} for query, _, _ in worked.WORKED]
    runner.run(Document("worked.py", in_each_dialect({"schema": worked.DECLARED, "requests": requests}), 1, worked.DATABASE))


def check_evaluator(report: Report) -> None:
    """The answers that are worked out by hand."""
    wrong, asked = worked.faults()
    for query, rows in wrong:
        report.fail(Place("the evaluator"), f"{json.dumps(query)}: {rows}")
    report.passed += asked - len(wrong)


def check_spoilings(program: Program, started: dict[str, Server], report: Report) -> None:
    """Each spoilt program is found on lines on which the program itself is not."""
    before, chosen = report.failed, spoilt.chosen_documents()
    for document in chosen.values():
        Runner(program.ask, started, report, 0).run(document)
    if report.failed > before:
        return  # a line fails that is not spoilt
    tried = list(spoilt.trials(program.ask, started, chosen))
    faults = [each for each in tried if each.fault is not None]
    for each in faults:
        what = f"a program in which {each.spoiling.what} ({each.spoiling.name}, {each.command}): {each.fault}"
        report.fail(Place("spoilt programs"), what)
    report.passed += len(tried) - len(faults)
    left_out = set(SPOILINGS) - {each.spoiling.name for each in tried}
    print(f"spoilt programs: {len(tried) - len(faults)} of {len(tried)} found" + f", not tried: {sorted(left_out)}" * bool(left_out), flush=True)


def check_stops(report: Report) -> None:
    for what, found in stops.faults():
        for fault in found:
            report.fail(Place(f"a server that is {what}"), fault)
        report.passed += not found


def check_tenants(program: Program, started: dict[str, Server], report: Report, most: int) -> None:
    """A tenant's lines are right over chosen rows, and each of them that is spoilt is found."""
    found = tenants.faults(program.ask, started, most)
    for what in found:
        report.fail(Place("a spoilt tenant"), what)
    report.passed += not found


def check_names(program: Program, started: dict[str, Server], report: Report) -> None:
    for server in started.values():
        for what, found in [*names.faults(program.ask, server), *collations.faults(program.ask, server)]:
            for fault in found:
                report.fail(Place(what, server=server.name), fault)
            report.passed += not found


def run_gate(program: Program, started: dict[str, Server], report: Report, given: argparse.Namespace) -> None:
    """All that the gate asks."""
    steps: list[tuple[str, Callable[[], None]]] = [
        ("the evaluator", lambda: check_evaluator(report)),
        ("spoilt programs", lambda: check_spoilings(program, started, report)),
        ("what is started ends", lambda: check_stops(report)),
        ("names, rights and collations", lambda: check_names(program, started, report)),
        ("worked statements", lambda: run_worked(Runner(program.ask, started, report, given.rows))),
        ("stored documents", lambda: run_documents(Runner(program.ask, started, report, given.rows), list(stored()), given.seed, True)),
        ("a spoilt tenant", lambda: check_tenants(program, started, report, given.rows)),
        ("random documents", lambda: run_seeds(Runner(program.ask, started, report, given.rows), GATE_SEEDS, GATE_GUARD_SEEDS)),
    ]
    for what, step in steps:
        began = time.monotonic()
        step()
        print(f"{what}: {time.monotonic() - began:.1f} s", flush=True)


def run_documents(runner: Runner, documents: list[tuple[str, dict[str, Any]]], seed: int, are_ours: bool) -> None:
    for name, content in documents:
        runner.run(Document(name, content, seed, is_ours=are_ours))


def run_seeds(runner: Runner, seeds: range, guard_seeds: range) -> None:
    for seed in seeds:
        runner.run(campaign.random_document(seed, False))
    for seed in guard_seeds:
        runner.run(campaign.random_document(seed, True))
    for seed in GATE_TENANT_SEEDS:
        runner.run(campaign.tenant_document(seed))


def show_spoiling(spoilt_program: SpoiltProgram, report: Report) -> bool:
    """How often the spoilt program was found. Whether it was."""
    found = len({(place.document, place.request) for place in report.failing})
    print(f"\nspoilt by {spoilt_program.spoiling.name}: found in {found} of {spoilt_program.count} lines that it changes")
    return found > 0


def arguments() -> argparse.Namespace:
    parser = argparse.ArgumentParser(description=__doc__, formatter_class=argparse.RawDescriptionHelpFormatter)
    parser.add_argument("documents", nargs="*", type=pathlib.Path)
    parser.add_argument("--random", type=int, metavar="COUNT", help="random documents, until so many lines were accepted")
    parser.add_argument("--minutes", type=float, help="random documents, with and without a guard, for so long")
    parser.add_argument("--jobs", type=int, default=1, help="so many workers, with --minutes or --random")
    parser.add_argument("--seed", type=int, default=1, help="of the first random document, and of the random rows")
    parser.add_argument("--guard", action="store_true", help="random documents have a guard, and are run by the command guard")
    parser.add_argument("--tenant", action="store_true", help="random documents have policies, and are run by the command tenant")
    parser.add_argument("--spoil", choices=["list", *SPOILINGS], metavar="NAME", help="the program is spoilt in this way")
    parser.add_argument("--program", default=str(TOP / "crates/sql_tool/out/sql_tool"))
    parser.add_argument("--dialect", action="append", choices=sorted(DIALECTS), help="on this one's server alone")
    parser.add_argument("--rows", type=int, default=4, help="a table has at most so many")
    parser.add_argument("--show", type=int, default=20, help="so many failures are shown")
    return parser.parse_args()


def run(given: argparse.Namespace, report: Report) -> bool:
    """Whether all is well."""
    program = Program(given.program)
    started = start(given.dialect or list(DIALECTS), report)
    spoilt_program = SpoiltProgram(program.ask, SPOILINGS[given.spoil]) if given.spoil else None
    runner = Runner(program.ask, started, report, given.rows, spoilt_program)
    if given.documents:
        run_documents(runner, [(path.name, json.loads(path.read_text())) for path in given.documents], given.seed, False)
    elif given.random is not None or given.minutes is not None:
        campaign.run_random(runner, Options.of(given), 0)
    elif spoilt_program is not None:
        run_documents(runner, list(stored()), given.seed, True)
    else:
        run_gate(program, started, report, given)
    return show_spoiling(spoilt_program, report) if spoilt_program is not None else report.failed == 0


def main() -> int:
    given = arguments()
    if given.spoil == "list":
        for each in SPOILINGS.values():
            print(f"{each.name:22} {', '.join(each.commands):13} {each.what}")
        return 0
    if not os.access(given.program, os.X_OK):
        print(f"skipped: no program {given.program}")
        return 0
    servers.SIGNALS.install()
    report = Report(given.show if not given.spoil else 0)
    try:
        is_well = campaign.run_jobs(Options.of(given), report) if given.jobs > 1 else run(given, report)
    finally:
        servers.stop_all()
        report.show()
    return 0 if is_well else 1


if __name__ == "__main__":
    if os.path.realpath(sys.executable) != os.path.realpath(DEBIAN) and os.path.exists(DEBIAN):
        os.execv(DEBIAN, [DEBIAN, *sys.argv])  # Debian's drivers are of Debian's Python
    sys.exit(main())
