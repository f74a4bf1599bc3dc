"""What a run found, to be printed at its end. Those of several workers are added up."""
from __future__ import annotations

from collections import Counter
from typing import NamedTuple

import refusals
from lines import Line


# How the counts begin that are added up for each column of the table of servers.
BEGINNINGS = ("lines", "executed", "executed, with rows", "rows allowed", "rows allowed,", "rows with too many", "audit: ", "rows of guard")


class Place(NamedTuple):
    """A request of a document, the server that was asked about it, and what it was asked."""
    document: str
    request: int = 0
    server: str = ""
    part: str = ""

    def __str__(self) -> str:
        request = f", request {self.request}" if self.request else ""
        return self.document + request + (f" on {self.server}" if self.server else "") + (f", {self.part}" if self.part else "")


class Report:
    """Counts, failures and refusals."""

    def __init__(self, shown: int) -> None:
        self.shown = shown
        self.passed = self.failed = self.refused = 0
        self.counts: Counter[tuple[str, str]] = Counter()
        self.messages: dict[tuple[str, str, str], tuple[int, str]] = {}
        self.versions: dict[str, str] = {}
        self.failing: set[Place] = set()

    def fail(self, place: Place, what: str) -> None:
        self.failed += 1
        self.failing.add(place)
        if self.failed <= self.shown:
            print(f"FAILED {place}: {what}", flush=True)

    def fail_line(self, place: Place, line: Line, what: str) -> None:
        self.fail(place, f"{what}\n    {line.sql}\n    values: {line.answer['binds']}, columns: {line.columns}")

    def refuse(self, place: Place, line: Line, message: str) -> None:
        """A known refusal is counted, a new one fails."""
        server = place.server
        why = refusals.reason(server, message, line.sql)
        self.note(server, refusals.template(message), why or "NEW", 1, f"{place}: {message}")
        if why is None:
            self.fail_line(place, line, f"{server} refuses it: {message}")
        else:
            self.refused += 1

    def note(self, server: str, message: str, why: str, count: int, example: str) -> None:
        before, first = self.messages.get((server, message, why), (0, example))
        self.messages[server, message, why] = before + count, first

    def add(self, server: str, counts: Counter[str]) -> None:
        for what, count in counts.items():
            self.counts[server, what] += count

    def merge(self, other: Report) -> None:
        """Adds what a worker found."""
        self.passed += other.passed
        self.failed += other.failed
        self.refused += other.refused
        self.counts.update(other.counts)
        self.versions.update(other.versions)
        for (server, message, why), (count, example) in other.messages.items():
            self.note(server, message, why, count, example)

    def shares(self) -> list[str]:
        """A row for each server: what was asked, what ran, and what the rows were."""
        rows = ["| server | lines | executed | with rows | rows allowed | of these otherwise | not followed | audited | cut | refused |",
                "|---|---|---|---|---|---|---|---|---|---|"]
        for server, version in sorted(self.versions.items()):
            told = {what: count for (of, what), count in self.counts.items() if of == server}
            counts = [sum(count for what, count in told.items() if what.startswith(start)) for start in BEGINNINGS]
            refused = sum(count for (of, _, _), (count, _) in self.messages.items() if of == server)
            rows.append(f"| {server} {version} | " + " | ".join(f"{count:,}" for count in (*counts, refused)) + " |")
        return rows

    def show(self) -> None:
        print("\n| server | what | times |\n|---|---|---|")
        for (server, what), count in sorted(self.counts.items()):
            print(f"| {server} | {what} | {count} |")
        if self.messages:
            print("\n| server | refused with the message | times | why |\n|---|---|---|---|")
        for (server, message, why), (count, example) in sorted(self.messages.items()):
            print(f"| {server} | {message} | {count} | {why if why != 'NEW' else 'NEW: ' + example} |")
        print("\n" + "\n".join(self.shares()))
        print(f"\n{self.refused} refused by servers as known")
        print(f"{self.passed} passed, {self.failed} failed", flush=True)
