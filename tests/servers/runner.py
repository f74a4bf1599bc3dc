"""Asks each server about each accepted line of a document, over random or given rows."""
from __future__ import annotations

import functools
import json
import random
import traceback
from typing import Any, Callable, Sequence

import audits
import schema as schemas
import servers
import values
from checks import Checker, Policy, kept_rows
from lines import Asked, Fault, Line
from program import Ask, Failed, NoDocument
from report import Place, Report
from servers import Server
from spoilings import SpoiltProgram
from statements import Database, Row, Schema



class Document:
    """A document, what it is called, and the rows of its tables where they are given."""

    def __init__(self, name: str, content: dict[str, Any], seed: int, database: Database | None = None, is_ours: bool = True) -> None:
        self.name = name
        self.content = content
        self.seed = seed
        self.database = database
        self.is_ours = is_ours  # made here: then it has to be a document
        self.schema = Schema(content["schema"])
        self.policies: list[Policy] = content["tenant"] if "tenant" in content else [content["guard"]] if "guard" in content else []
        self.command = next((word for word in ("tenant", "guard") if word in content), "build")

    def rows(self, dialect: str, most: int) -> Database:
        if self.database is not None:
            return self.database
        return schemas.random_database(random.Random(f"{self.seed} {dialect}"), self.schema, most)


class Runner:
    """Where a spoilt program is given, its lines are asked about in place of the program's own, and those alone that differ."""

    def __init__(self, ask: Ask, started: dict[str, Server], report: Report, most: int, spoilt: SpoiltProgram | None = None) -> None:
        self.plain = ask
        self.spoilt = spoilt
        self.ask = ask if spoilt is None else spoilt.ask
        self.started = started
        self.report = report
        self.most = most

    def run(self, document: Document) -> int:
        """How many lines were accepted."""
        try:
            return self.asked_about(document)
        except NoDocument:
            if document.is_ours:
                self.report.fail(Place(document.name), "the program takes it for no document")
            else:
                print(f"no document: {document.name}")
        except Failed as error:
            self.report.fail(Place(document.name), str(error))
        except Exception:  # a fault of these scripts, or a server that is gone, is told, and the run goes on
            self.report.fail(Place(document.name), f"the script failed: {traceback.format_exc()}")
        return 0

    def asked_about(self, document: Document) -> int:
        command = document.command
        asked = self.lines(document, command, self.ask)
        plain = self.lines(document, "build", self.plain) if document.policies else asked
        by_dialect: dict[str, list[tuple[int, Line]]] = {}
        for at, line in asked.accepted():
            if self.spoilt is None or self.spoilt.is_asked_about(command, at):
                self.check_alone(document, asked, at, line)
                by_dialect.setdefault(line.request["dialect"], []).append((at, line))
        for dialect, found in by_dialect.items():
            if dialect in self.started:
                OnServer(self, document, self.started[dialect], asked, plain).run(found)
            else:
                self.report.counts[dialect, "lines without a server"] += len(found)
        return sum(1 for _ in asked.accepted())

    def lines(self, document: Document, command: str, ask: Ask) -> Asked:
        chance = random.Random(document.seed)
        requests = document.content["requests"]
        others = [values.other_values(chance, request) for request in requests]
        longer = [values.other_lengths(chance, request) for request in requests]
        answers = ask([command], {**document.content, "requests": [*requests, *others, *longer]})
        return Asked(document.schema, document.policies if command == document.command else [], [requests, others, longer], answers)

    def check_alone(self, document: Document, asked: Asked, at: int, line: Line) -> None:
        """What needs no server."""
        for what in asked.faults(at):
            self.report.fail_line(Place(document.name, at + 1), line, what)


class OnServer:
    """One document on one server."""

    def __init__(self, runner: Runner, document: Document, server: Server, asked: Asked, plain: Asked) -> None:
        self.ask = runner.ask
        self.audits = runner.spoilt is None or "audit" in runner.spoilt.spoiling.commands
        self.report = runner.report
        self.document = document
        self.server = server
        self.asked = asked
        self.plain = plain
        self.whole = document.rows(server.dialect, runner.most)
        self.refused: dict[str, str] = {}
        self.guarded: dict[int, list[Row]] = {}  # the rows of guarded lines, by the request

    def run(self, found: Sequence[tuple[int, Line]]) -> None:
        schema, policies = self.document.schema, self.document.policies
        try:
            self.refused = schemas.create(self.server, schema, self.whole)
            kept = kept_rows(schema, self.whole, policies)
            checker = Checker(self.server, schema, kept, self.refused)
            for at, line in found:
                self.run_line(checker, at, line)
            if self.audits:
                self.audit(checker, found)
            cut = {policy["table"] for policy in policies} - set(self.refused)
            for name in sorted(cut):
                schemas.replace_rows(self.server, schema, name, kept[name])
            if cut:
                self.compare(checker, found)
            self.report.add(self.server.name, checker.counts)
        finally:
            self.server.drop_schemas()

    def place(self, at: int, part: str = "") -> Place:
        return Place(self.document.name, at + 1, self.server.name, part)

    def run_line(self, checker: Checker, at: int, line: Line) -> None:
        checker.count("lines")
        missing = checker.missing_table(line)
        if missing is not None:
            self.report.refuse(self.place(at), line, "CREATE: " + missing)
            return
        checker.asked = line
        self.attempt(checker, self.place(at), line, functools.partial(self.check, checker, at, line))

    def check(self, checker: Checker, at: int, line: Line) -> None:
        other = self.asked.others[at]
        self.guarded[at] = checker.check(line, other if isinstance(other, Line) else None)

    def compare(self, checker: Checker, found: Sequence[tuple[int, Line]]) -> None:
        """The plain lines over the really cut database."""
        for at, guarded in found:
            line = self.plain.first[at]
            if not isinstance(line, Line):
                self.report.fail_line(self.place(at, "cut"), guarded, f"without the guard: {line}")
            elif at in self.guarded:
                ask = functools.partial(checker.check_cut, line, self.guarded[at], line.statement)
                self.attempt(checker, self.place(at, "cut"), guarded, ask)

    def audit(self, checker: Checker, found: Sequence[tuple[int, Line]]) -> None:
        """What the program says that the texts use is what the server says."""
        chosen = [(at, line) for at, line in found if at in self.guarded]
        document = {"schema": self.document.content["schema"], "texts": [line.sql for _, line in chosen]}
        told = self.ask(["audit", self.server.dialect], document) if chosen else []
        auditor = audits.auditor(self.server, self.document.schema)
        for (at, line), use in zip(chosen, told):
            checker.asked = line
            self.attempt(checker, self.place(at, "audit"), line, functools.partial(auditor.check, line, use))
        for what, count in auditor.counts.items():
            checker.counts[what] += count

    def attempt(self, checker: Checker, place: Place, line: Line, ask: Callable[[], None]) -> None:
        """Notes whether it passed, failed or was refused."""
        try:
            ask()
            self.report.passed += 1
        except servers.Refused as error:
            self.report.refuse(place, checker.asked or line, str(error))
        except Fault as error:
            asked = checker.asked or line
            self.report.fail_line(place, asked, f"{error}\n    request: {json.dumps(asked.request, ensure_ascii=False)}")
        except Exception:  # a fault of these scripts is told as one, and the run goes on
            self.report.fail_line(place, line, f"the script failed: {traceback.format_exc()}")
