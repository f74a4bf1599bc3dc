"""Texts whose brackets nest, for `bench/scale.py --stack`: `python3 bench/nested_texts.py conditions 100 > text.sql`.

Each kind is a dialect and a function of how many brackets nest.
"""
import sys

# Brackets nest at most so deep in a text that is read (`MAX_DEPTH` of `sql_read`).
MAX_DEPTH = 2700
TABLES = [{"name": "a", "primary_key": ["b"], "columns": [{"name": "b", "type": "Integer"}]}]
COLUMN = '"a"."b"'
ALL = f'SELECT {COLUMN} FROM "a"'


def conditions(count):
    return f"{ALL} WHERE " + "(" * count + COLUMN + " IS NULL)" * count


def negations(count):
    return f"{ALL} WHERE " + "NOT (" * count + COLUMN + ")" * count


def right_sides(count):
    return f"{ALL} WHERE " + f"({COLUMN} AND " * count + COLUMN + ")" * count


def exists(count):
    return f"{ALL} WHERE " + f"EXISTS ({ALL} WHERE " * count + COLUMN + ")" * count


def selected(count):
    return "SELECT (" * count + ALL + ")" * count


def selected_last(count):
    return f"SELECT {COLUMN}, (" * count + ALL + ")" * count


def grouped(count):
    return f"{ALL} GROUP BY (" * count + ALL + ")" * count


def ordered(count):
    return f"{ALL} ORDER BY (" * count + ALL + ")" * count


def having(count):
    return f"{ALL} HAVING (" * count + ALL + ")" * count


def distinct(count):
    return "SELECT DISTINCT ON ((" * (count // 2) + ALL + f")) {COLUMN} FROM \"a\"" * (count // 2)


def joins(count):
    return f"SELECT {COLUMN} FROM " + "(" * count + '"a"' + f' INNER JOIN "a" ON {COLUMN})' * count


def joins_right(count):
    return f"SELECT {COLUMN} FROM " + '("a" INNER JOIN ' * count + '"a"' + f" ON {COLUMN})" * count


def unions(count):
    return "(" * count + ALL + f") UNION ({ALL})" * count


def unions_right(count):
    return f"({ALL}) UNION (" * count + ALL + ")" * count


def sides(count):
    """The same as Sqlite has it."""
    return ("SELECT * FROM (" * count + ALL + f") UNION SELECT * FROM ({ALL})" * count).replace('"', "`")


def spoilt(text):
    """The text with a word before it that no grammar has there, which is found out last."""
    return lambda count: "NULL " + text(count)


# Each kind of text, with its dialect.
KINDS = {
    "conditions": ("Pg", conditions),
    "negations": ("Pg", negations),
    "right_sides": ("Pg", right_sides),
    "exists": ("Pg", exists),
    "selected": ("Pg", selected),
    "selected_last": ("Pg", selected_last),
    "grouped": ("Pg", grouped),
    "ordered": ("Pg", ordered),
    "having": ("Pg", having),
    "distinct": ("Pg", distinct),
    "joins": ("Pg", joins),
    "joins_right": ("Pg", joins_right),
    "unions": ("Pg", unions),
    "unions_right": ("Pg", unions_right),
    "sides": ("Sqlite", sides),
    "spoilt_exists": ("Pg", spoilt(exists)),
    "spoilt_unions": ("Pg", spoilt(unions)),
}

if __name__ == "__main__":
    print(KINDS[sys.argv[1]][1](int(sys.argv[2])))
