"""Values: of which kind an answer tells them, random ones of each type, other ones in place of a request's, and whether a server's value
fits the type that was told."""
from __future__ import annotations

import random
from dataclasses import dataclass
from typing import Any, Callable

NUMBERS = {"SmallInt": 16, "Integer": 32, "BigInt": 64}
TEXTS = ["", "a", "b", "A", "ab", "é", "a ", "%", "'", "\U0001f600"]
BINARIES = ["", "00", "00ff", "61", "6100"]


@dataclass(frozen=True)
class Kind:
    """The type of a column or of a value; a list of values is bound as one on PostgreSQL."""
    base: str
    is_nullable: bool
    is_list: bool = False


def kind(told: str, value: Any = None) -> Kind:
    return Kind(told.rstrip("?"), told.endswith("?"), isinstance(value, list))


def some(chance: random.Random, told: str) -> Any:
    """A value of a type as a document has it. Few of each, so that equalities hold now and then."""
    base = told.rstrip("?")
    if told.endswith("?") and chance.random() < 0.3:
        return None
    if base == "Bool":
        return chance.random() < 0.5
    if base == "Text":
        return chance.choice(TEXTS[:4] if chance.random() < 0.8 else TEXTS)
    if base == "Binary":
        return chance.choice(BINARIES)
    if chance.random() < 0.05:
        return chance.choice((-1 << NUMBERS[base] - 1, (1 << NUMBERS[base] - 1) - 1))
    return chance.randint(-1, 3)


# ---- other values in place of a request's

Lengths = Callable[[int], int]


def other_values(chance: random.Random, request: dict[str, Any]) -> dict[str, Any]:
    """The same request with other values. A list's length changes on PostgreSQL alone: elsewhere the text depends on it."""
    def length(count: int) -> int:
        return chance.randint(0, 3) if request["dialect"] == "Pg" else count

    return {**request, "query": other(chance, request["query"], length)}


def other_lengths(chance: random.Random, request: dict[str, Any]) -> dict[str, Any]:
    """The same request with other values, and each list with another number of them."""
    return {**request, "query": other(chance, request["query"], lambda count: count + 1)}


def other(chance: random.Random, part: Any, length: Lengths) -> Any:
    if isinstance(part, dict):
        return {name: other_member(chance, name, value, length) for name, value in part.items()}
    if isinstance(part, list) and len(part) == 2 and part[0] in ("limit", "offset") and isinstance(part[1], int):
        return [part[0], chance.randint(0, 3)]
    if isinstance(part, list):
        return [other(chance, each, length) for each in part]
    return part


def other_member(chance: random.Random, name: str, value: Any, length: Lengths) -> Any:
    if name == "bind":
        return [value[0], some(chance, value[0])]
    if name == "list":
        return [value[0], [some(chance, value[0]) for _ in range(length(len(value[1])))]]
    if name == "sample":
        return [value[0], chance.randint(0, 100), *[chance.randint(-5, 5) for _ in value[2:]]]
    if name in ("table", "alias", "of", "col", "field"):
        return value
    return other(chance, value, length)


# ---- what a server gives

def fault(told: str, value: Any) -> str | None:
    """Why a server's value does not fit the type that was told, or nothing."""
    if value is None:
        return None if told.endswith("?") else f"NULL in a column of type {told}"
    base = told.rstrip("?")
    if base in NUMBERS:
        fits = isinstance(value, int) and -1 << NUMBERS[base] - 1 <= value < 1 << NUMBERS[base] - 1
    elif base == "Bool":
        fits = value in (False, True)
    else:
        fits = isinstance(value, str if base == "Text" else bytes)
    return None if fits else f"{value!r} in a column of type {told}"


def seen(told: str, value: Any) -> Any:
    """A server's value as the evaluator has it: truth values where the server gives 1 and 0."""
    return value if value is None or not told.startswith("Bool") else bool(value)
