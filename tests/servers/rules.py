"""What PostgreSQL makes of a text: the rule of a view (pg_rewrite), whose tree has each column that the text names, with the place where it
stands in the text and the leaf that it is of."""
from __future__ import annotations

import re
from typing import Any, Iterator, NamedTuple

Node = Any  # a dictionary, a list or a word


class Leaf(NamedTuple):
    """A table of a FROM: which one of the tree's, its number in PostgreSQL, and the name by which it is seen."""
    identity: int
    relation: int
    name: str


class Variable(NamedTuple):
    """A column of a leaf by its number, and its place in bytes; -1 where PostgreSQL does not tell it."""
    place: int
    leaf: Leaf
    column: int


def parsed(text: str) -> Node:
    """The tree of a rule (PostgreSQL, src/backend/nodes/outfuncs.c)."""
    words = re.findall(r"[(){}]|(?:\\.|[^\s(){}\\])+", text, re.S)
    at = 0

    def node() -> Node:
        nonlocal at
        word = words[at]
        at += 1
        if word == "(":
            return items(")")
        if word == "{":
            return members()
        return word

    def items(end: str) -> list[Node]:
        nonlocal at
        found = []
        while words[at] != end:
            found.append(node())
        at += 1
        return found

    def members() -> dict[str, Node]:
        nonlocal at
        found: dict[str, Node] = {"node": words[at]}
        at += 1
        while words[at] != "}":
            name = words[at][1:]
            at += 1
            values = []
            while words[at][0] != ":" and words[at] != "}":
                values.append(node())
            found[name] = values[0] if len(values) == 1 else values
        at += 1
        return found

    return node()


def unescaped(word: str) -> str:
    return re.sub(r"\\(.)", r"\1", word, flags=re.S)


def variables(tree: Node) -> Iterator[Variable]:
    """The columns of tables that a rule's tree names."""
    yield from inside(tree, [])


def inside(node: Node, scopes: list[list[Node]]) -> Iterator[Variable]:
    if isinstance(node, list):
        for each in node:
            yield from inside(each, scopes)
    if not isinstance(node, dict):
        return
    if node["node"] == "VAR":
        yield from variable(node, scopes)
    if node["node"] == "QUERY":
        scopes = [node["rtable"] if isinstance(node["rtable"], list) else [], *scopes]
    for name, member in node.items():
        # A join's own list of columns names all of both sides.
        if name != "joinaliasvars":
            yield from inside(member, scopes)


def variable(node: dict[str, Any], scopes: list[list[Node]]) -> Iterator[Variable]:
    entry = scopes[int(node["varlevelsup"])][int(node["varno"]) - 1]
    if entry["rtekind"] == "0":
        yield Variable(int(node["location"]), leaf_of(entry), int(node["varattno"]))


def leaf_of(entry: dict[str, Any]) -> Leaf:
    return Leaf(id(entry), int(entry["relid"]), unescaped(entry["eref"]["aliasname"]))
