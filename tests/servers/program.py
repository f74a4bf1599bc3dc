"""Asks the program: a document for its lines, and texts for what they use."""
from __future__ import annotations

import json
import subprocess
from typing import Any, Callable

PATIENCE = 120
DONE, BAD_DOCUMENT = 0, 3


class Failed(Exception):
    """The program ended as it must not; the text says how."""


class NoDocument(Exception):
    """The input is no document."""


Ask = Callable[["list[str]", "dict[str, Any]"], "list[dict[str, Any]]"]


class Program:
    """The built program."""

    def __init__(self, path: str) -> None:
        self.path = path

    def ask(self, words: list[str], document: dict[str, Any]) -> list[dict[str, Any]]:
        """The program's line for each item of the document."""
        try:
            run = subprocess.run([self.path, *words], input=json.dumps(document).encode(), capture_output=True, timeout=PATIENCE)
        except subprocess.TimeoutExpired as error:
            raise Failed(f"{words} did not end in {PATIENCE} s") from error
        if run.returncode == BAD_DOCUMENT and not run.stdout:
            raise NoDocument
        if run.returncode != DONE:
            raise Failed(f"{words} ended with {run.returncode}: {run.stderr.decode(errors='replace')}")
        lines = [json.loads(line) for line in run.stdout.decode().split("\n")[:-1]]
        asked = document["texts"] if words[0] == "audit" else document["requests"]
        if len(lines) != len(asked):
            raise Failed(f"{words} gave {len(lines)} lines for {len(asked)}")
        return lines
