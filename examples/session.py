#!/usr/bin/env python3
"""Requests over one schema, answered by one process that stays: `sql_tool session` over a pipe.

    examples/session.py ./sql_tool < examples/filter.json     writes the lines of `build`, a request at a time
"""
import json
import subprocess
import sys


class Session:
    """A process that answers requests over a schema, one call after the other."""

    def __init__(self, program, schema):
        """Starts it. ValueError: the schema is none."""
        self._process = subprocess.Popen([program, "session"], stdin=subprocess.PIPE, stdout=subprocess.PIPE)
        self._answer({"schema": schema, "requests": []})

    def ask(self, requests):
        """A line for each request. ValueError: the line is no document or too long, or a request nests too deep."""
        return self._answer({"schema": {"tables": []}, "requests": requests})

    def _answer(self, document):
        # A text of JSON has no newline but where dumps is asked for some, so this is one line.
        self._process.stdin.write(json.dumps(document, ensure_ascii=False).encode() + b"\n")
        self._process.stdin.flush()
        lines = []
        # An empty line ends the answer. Lines end at byte 10 alone.
        while (line := self._process.stdout.readline()) != b"\n":
            if not line.endswith(b"\n"):
                raise EOFError(f"the process has ended, with {self._process.wait()}")
            lines.append(json.loads(line))
        if lines and "error" in lines[-1]:
            raise ValueError(lines.pop()["error"], lines)
        return lines

    def close(self):
        """Ends the process, and returns its exit status."""
        self._process.stdin.close()
        return self._process.wait()


if __name__ == "__main__":
    whole = json.load(sys.stdin)
    session = Session(sys.argv[1], whole["schema"])
    for request in whole["requests"]:
        for answer in session.ask([request]):
            print(json.dumps(answer, ensure_ascii=False, separators=(",", ":"), sort_keys=True))
    sys.exit(session.close())
