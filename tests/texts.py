"""Reads random texts and mutants of accepted texts: `python3 tests/texts.py [COUNT]`, by hand, with the program built.

Takes the texts of the stored run, changes some bytes or tokens of each, and hands each to `sql_tool read D`. Each run has to end with
status 0 and one line: a refusal, or a text that is read as itself. A text of the stored run has to be written as it stands. Ends with
'N passed, M failed'.
"""
import json
import pathlib
import random
import re
import subprocess
import sys

TOP = pathlib.Path(__file__).resolve().parent.parent
PROGRAM = TOP / "crates/sql_tool/out/sql_tool"
PIECES = ["SELECT ", "(", ")", ", ", ".", "$1", "?", "@p1", " NOT ", " IN ", " UNION ", " FROM ", '"a"', "`a`", "[a]", "é", "1", " "]


def accepted():
    """The dialects and texts of the stored run's accepted requests."""
    requests = json.loads((TOP / "crates/sql_tool/stdin").read_text())["requests"]
    lines = (TOP / "crates/sql_tool/stdout").read_text().splitlines()
    for request, line in zip(requests, lines):
        answer = json.loads(line)
        if "sql" in answer:
            yield request["dialect"], answer["sql"]


def mutant(chance, text):
    """The text with one to three changes."""
    for _ in range(chance.randint(1, 3)):
        tokens = re.findall(r"\w+|\s+|.", text, re.S) or [""]
        at = chance.randrange(len(tokens))
        change = chance.randrange(5)
        if change == 0:
            tokens[at] = ""
        elif change == 1:
            tokens.insert(at, chance.choice(PIECES))
        elif change == 2:
            other = chance.randrange(len(tokens))
            tokens[at], tokens[other] = tokens[other], tokens[at]
        elif change == 3:
            tokens[at] = chance.choice(PIECES)
        else:
            tokens.insert(at, tokens[at])
        text = "".join(tokens)
    return text


def made(chance):
    """A text of random pieces."""
    return "".join(chance.choice(PIECES) for _ in range(chance.randint(0, 40)))


def read(dialect, text):
    """What the program says of a text, or none where it does not end well."""
    run = subprocess.run([PROGRAM, "read", dialect], input=text.encode() + b"\n", capture_output=True, timeout=60)
    lines = run.stdout.decode().splitlines()
    return json.loads(lines[0]) if run.returncode == 0 and len(lines) == 1 else None


def is_sound(dialect, text):
    answer = read(dialect, text)
    if answer == {"refused": "NotInGrammar"}:
        return True
    return answer is not None and "sql" in answer and read(dialect, answer["sql"]) == answer


def main():
    count = int(sys.argv[1]) if len(sys.argv) > 1 else 2000
    chance = random.Random(1)
    texts = list(accepted())
    passed = failed = 0
    for dialect, text in texts:
        answer = read(dialect, text)
        good = answer is not None and answer.get("sql") == text
        passed, failed = passed + good, failed + (not good)
    for _ in range(count):
        dialect, text = chance.choice(texts)
        text = mutant(chance, text) if chance.random() < 0.9 else made(chance)
        good = is_sound(dialect, text)
        passed, failed = passed + good, failed + (not good)
        if not good:
            print("FAILED", dialect, text)
    print(f"{passed} passed, {failed} failed")
    return failed > 0


if __name__ == "__main__":
    sys.exit(main())
