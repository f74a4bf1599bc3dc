#!/usr/bin/env python3
"""Compares the public calls that can answer NoMemory, as the sources have them, with those that the tests `every_call_once` make.

A public call is a function, a method of a public type or a method of a public trait, of a library that is no crate of tests. It can answer
NoMemory where its result names the allocator's error, or a type with a variant or a field of that. A file of `every_call` makes it
- by its name, where the file imports it from its crate; or
- by a path, as `Table::try_clone(&users, alloc)`; or
- a method by a dot, where of the types and traits that have such a method the file names one alone.
A call is also made where it is all that the body of a made call consists of. Names each call that is not made, and ends with
'N passed, M failed'. Needs neither the toolchain nor the program.
  tests/calls.py [--list]     --list prints every call and where it is declared
"""

from __future__ import annotations

import re
import sys
from collections.abc import Iterator
from dataclasses import dataclass, field
from pathlib import Path

# Libraries of which tests and programs alone are made; so are those whose names end in _tests.
NO_LIBRARY = {"sql_test_kit", "sql_examples", "sql_tool"}
# The errors that std and the dialects have for the allocator's.
NO_MEMORY = {"AllocError", "NoMemory"}
CONTRACT = {"ensures", "requires", "decreases"}
BODIED = {"fn", "struct", "enum", "union", "impl", "trait", "mod"}
CLOSING = {"(": ")", "[": "]", "{": "}"}
TOKEN = re.compile(
    r"""(?P<space>\s+|//[^\n]*|/\*.*?\*/)
      | (?P<raw>b?r(?P<hashes>\#*)".*?"(?P=hashes))
      | (?P<text>b?"(?:\\.|[^"\\])*"|b?'(?:\\.[^']*|[^'\\])')
      | (?P<word>'?[^\W\d]\w*)
      | (?P<other>->|=>|::|.)""",
    re.VERBOSE | re.DOTALL,
)


def tokens_of(source: str) -> list[str]:
    """The tokens of a source, without comments; each text, byte text or character is one token `""`."""
    found = []
    for match in TOKEN.finditer(source):
        if match.lastgroup != "space":
            found.append('""' if match["text"] or match["raw"] else match.group())
    return found


def after_brackets(tokens: list[str], at: int) -> int:
    """The place after the bracket that closes the one at this place."""
    depth = 0
    for place in range(at, len(tokens)):
        depth += (tokens[place] in CLOSING) - (tokens[place] in CLOSING.values())
        if depth == 0:
            return place + 1
    raise ValueError("a bracket is not closed: " + " ".join(tokens[at : at + 12]))


def after_angles(tokens: list[str], at: int) -> int:
    """The place after the angle bracket that closes the one at this place; the same place where none stands there."""
    depth = 0
    for place in range(at, len(tokens)):
        depth += (tokens[place] == "<") - (tokens[place] == ">")
        if depth == 0:
            return place + (place > at)
    raise ValueError("an angle bracket is not closed: " + " ".join(tokens[at : at + 12]))


@dataclass(frozen=True)
class Item:
    """A declaration: its tokens before the body, without attributes and clauses of a contract, and those of its body."""

    head: list[str]
    body: list[str]

    @property
    def is_public(self) -> bool:
        return self.head[:1] == ["pub"] and self.head[1:2] != ["("]

    def named_after(self, word: str) -> str:
        return self.head[self.head.index(word) + 1]


def items_of(tokens: list[str]) -> Iterator[Item]:
    """The items that stand side by side in these tokens."""
    head: list[str] = []
    place = 0
    while place < len(tokens):
        token = tokens[place]
        end = after_brackets(tokens, place) if token in CLOSING else place + 1
        if token == "#" and not head:
            end = after_brackets(tokens, tokens.index("[", place))
        elif token == ";":
            yield Item(head, [])
            head = []
        elif token != "{" or not BODIED.intersection(head):
            head += tokens[place:end]
        elif clause := CONTRACT.intersection(head[-3:]):
            del head[max(head.index(word) for word in clause) :]
        else:
            yield Item(head, tokens[place + 1 : end - 1])
            head = []
        place = end


def result_of(head: list[str]) -> set[str]:
    """The words of a function's result."""
    place = after_brackets(head, after_angles(head, head.index("fn") + 2))
    end = head.index("where", place) if "where" in head[place:] else len(head)
    return set(head[place + 1 : end]) if head[place : place + 1] == ["->"] else set()


def implemented(head: list[str]) -> tuple[str | None, str]:
    """The trait and the type of an `impl`, by the last words of their paths; no trait where the methods are the type's own."""
    start = after_angles(head, head.index("impl") + 1)
    end = head.index("where", start) if "where" in head[start:] else len(head)
    middle = head.index("for", start) if "for" in head[start:end] else None
    sides = [head[start:end]] if middle is None else [head[start:middle], head[middle + 1 : end]]
    names = []
    for side in sides:
        path = side[: side.index("<")] if "<" in side else side
        names.append(next((word for word in reversed(path) if word.isidentifier()), "".join(side)))
    return (None, names[0]) if middle is None else (names[0], names[1])


def leaves_of(use: list[str]) -> dict[str, str]:
    """The names that a `use` brings in, each with the first word of its path."""
    root = use[use.index("use") + 1]
    return {word: root for word, after in zip(use, [*use[1:], "}"]) if word.isidentifier() and after in (",", "}")}


@dataclass(frozen=True)
class Function:
    """A function with its crate and file, the type or trait whose method it is, the words of its result, and the path of the call that is
    all of its body."""

    crate: str
    file: str
    owner: str | None
    name: str
    has_self: bool
    is_of_trait: bool
    result: frozenset[str]
    hands_on_to: tuple[str, str] | None

    def __str__(self) -> str:
        return f"{self.crate}: {self.owner}::{self.name}" if self.owner else f"{self.crate}: {self.name}"


def handed_on(body: list[str]) -> tuple[str, str] | None:
    """The path of the call that is the whole body, as in `{ FilterDsl::filter(self, alloc, predicate) }`."""
    if body[1:2] == ["::"] and body[3:4] == ["("] and after_brackets(body, 3) == len(body):
        return body[0], body[2]
    return None


@dataclass
class Crate:
    """What a crate declares: its functions, the crate from which each name comes that it exports, and the words that its types name."""

    name: str
    functions: list[Function] = field(default_factory=list)
    exports: dict[str, str] = field(default_factory=dict)
    types: dict[str, set[str]] = field(default_factory=dict)

    def take(self, file: str, item: Item, owner: str | None = None, is_of_trait: bool = False) -> None:
        """Takes in a declaration. Methods of a trait are public with it."""
        head = item.head
        if "fn" in head:
            if item.is_public or is_of_trait:
                name, result = item.named_after("fn"), frozenset(result_of(head))
                made = Function(self.name, file, owner, name, "self" in head, is_of_trait, result, handed_on(item.body))
                self.functions.append(made)
        elif "impl" in head[:2]:
            trait, of = implemented(head)
            for inner in items_of(item.body) if trait is None else ():
                self.take(file, inner, of)
        elif "trait" in head[:2] and item.is_public:
            for inner in items_of(item.body):
                self.take(file, inner, item.named_after("trait"), True)
        elif kind := {"struct", "enum", "union"}.intersection(head):
            self.types.setdefault(item.named_after(kind.pop()), set()).update(head, item.body)
        elif "type" in head[:2] and owner is None:
            self.types.setdefault(item.named_after("type"), set()).update(head[head.index("=") :])

    def export(self, tokens: list[str], crates: list[str]) -> None:
        """Takes in what the root, or a public module in it, makes public."""
        for item in items_of(tokens):
            if not item.is_public:
                continue
            if item.head[1] == "use":
                self.exports.update((name, root if root in crates else self.name) for name, root in leaves_of(item.head).items())
            elif item.head[1] == "mod":
                self.export(item.body, crates)
            else:
                self.exports.update((word, self.name) for word in item.head[1:4])


def libraries_of(top: Path) -> dict[str, Crate]:
    """The libraries of a repository that are no crates of tests."""
    lines = (top / "crates.txt").read_text(encoding="utf-8").splitlines()
    crates = [line.split(":")[0].split()[0] for line in lines if ":" in line and not line.startswith("#")]
    found = {}
    for name in crates:
        sources = top / "crates" / name / "src"
        if name.endswith("_tests") or name in NO_LIBRARY or not (sources / "lib.rt").exists():
            continue
        found[name] = Crate(name)
        found[name].export(tokens_of((sources / "lib.rt").read_text(encoding="utf-8")), crates)
        for file in sorted(sources.rglob("*.rt")):
            for item in items_of(tokens_of(file.read_text(encoding="utf-8"))):
                found[name].take(str(file.relative_to(top)), item)
    return found


def origin(libraries: dict[str, Crate], crate: str, name: str) -> str | None:
    """The crate that declares what this one exports by this name."""
    while crate in libraries and libraries[crate].exports.get(name, crate) != crate:
        crate = libraries[crate].exports[name]
    return crate if crate in libraries and name in libraries[crate].exports else None


def calls_without_memory(libraries: dict[str, Crate]) -> list[Function]:
    """The public calls that can answer NoMemory."""
    types: dict[str, set[str]] = {}
    for crate in libraries.values():
        for name, words in crate.types.items():
            types.setdefault(name, set()).update(words)
    errors = set(NO_MEMORY)
    while more := {name for name, words in types.items() if errors & words} - errors:
        errors |= more
    return [
        function
        for crate in libraries.values()
        for function in crate.functions
        if crate.exports.get(function.owner or function.name) == crate.name
        and (errors & function.result or ("Self" in function.result and function.owner in errors))
    ]


@dataclass
class Tests:
    """What a file of tests names and calls."""

    imports: dict[str, str] = field(default_factory=dict)
    words: set[str] = field(default_factory=set)
    functions: set[str] = field(default_factory=set)
    methods: set[str] = field(default_factory=set)
    paths: set[tuple[str, str]] = field(default_factory=set)

    def take(self, tokens: list[str]) -> None:
        for item in items_of(tokens):
            if item.head[:1] == ["use"]:
                self.imports.update(leaves_of(item.head))
        self.words.update(tokens)
        for before, word, after in zip(tokens, tokens[1:], tokens[2:]):
            if before == "::":
                continue
            if word.isidentifier() and after in ("(", "::") and before != "fn":
                (self.methods if before == "." else self.functions).add(word)
        self.paths.update((owner, name) for owner, mark, name in zip(tokens, tokens[1:], tokens[2:]) if mark == "::")

    def make(self, function: Function, libraries: dict[str, Crate], owners: dict[str, set[str]]) -> bool:
        """Whether the file calls the function, where `owners` has the types and traits of each method's name."""
        owner, name = function.owner, function.name
        if owner is None:
            return name in self.functions and origin(libraries, self.imports.get(name, ""), name) == function.crate
        if (owner, name) in self.paths:
            return True
        by_type = function.is_of_trait and any(last == name for _, last in self.paths)
        return owners[name] & self.words == {owner} and (by_type or (function.has_self and name in self.methods))


def tests_of(top: Path) -> list[Tests]:
    """The files of `every_call`."""
    found = []
    for file in sorted((top / "crates").glob("*/src/**/*.rt")):
        if "every_call" in (file.stem, file.parent.name):
            found.append(Tests())
            found[-1].take(tokens_of(file.read_text(encoding="utf-8")))
    return found


def compared(top: Path) -> tuple[list[Function], list[Function]]:
    """The public calls that can answer NoMemory, and those of them that no test makes."""
    libraries = libraries_of(top)
    functions = calls_without_memory(libraries)
    owners: dict[str, set[str]] = {}
    for function in functions:
        owners.setdefault(function.name, set()).update({function.owner} if function.owner else ())
    files = tests_of(top)
    made = {function for function in functions if any(file.make(function, libraries, owners) for file in files)}
    handed = {function.hands_on_to for function in made}
    return functions, [function for function in functions if function not in made and (function.owner, function.name) not in handed]


def main() -> int:
    functions, missing = compared(Path(__file__).resolve().parent.parent)
    if sys.argv[1:] == ["--list"]:
        print("\n".join(f"{function} ({function.file})" for function in functions))
        return 0
    for function in missing:
        print(f"FAILED {function} ({function.file}) is called by no every_call")
    print(f"{len(functions) - len(missing)} passed, {len(missing)} failed")
    return int(bool(missing))


if __name__ == "__main__":
    sys.exit(main())
