"""Prints a text of about so many bytes for `sql_tool read Sqlite`: `python3 bench/texts.py list 4000000 > text.sql`.

    flat      many selected comparisons, beside each other
    nested    many selected conditions, each of NOTs as deep as the reader goes
    list      one list of placeholders
    brackets  opening brackets alone: deeper than the reader goes
"""
import sys

DEPTH = 1000


def text(kind, size):
    if kind == "flat":
        part = ", (`users`.`name` = ?)"
        return "SELECT `users`.`id`" + part * (size // len(part))
    if kind == "nested":
        part = ", " + "NOT (" * DEPTH + "?" + ")" * DEPTH
        return "SELECT `users`.`id`" + part * max(1, size // len(part))
    if kind == "list":
        return "SELECT (`users`.`id` IN (?" + ", ?" * (size // 3) + "))"
    if kind == "brackets":
        return "SELECT " + "(" * size
    raise SystemExit(__doc__)


if __name__ == "__main__":
    if len(sys.argv) != 3:
        raise SystemExit(__doc__)
    print(text(sys.argv[1], int(sys.argv[2])))
