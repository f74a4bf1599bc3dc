"""Schemas: the tables that queries are about, and how they belong together."""
from __future__ import annotations

import itertools
import json
from typing import TYPE_CHECKING, Any, Dict, FrozenSet, Iterable, Iterator, List, Optional, Tuple, Type

from .errors import SchemaError
from .sql_types import DECLARED, SqlType
from .tables import Column, Table, declared, document_of, key_of, near

if TYPE_CHECKING:
    from .plans import Planner
    from .reflection import Reflection

_TYPES: Dict[str, SqlType[Any]] = {each.document_name: each for type in DECLARED for each in (type, type.nullable_form())}


class Schema:
    """Tables. `Schema(Users, Posts)` declares two, and `Schema.reflect(..)` reads them from a database.

    A column that references a table is a relation, by which a join of the two needs no ON. As with diesel, there is none where a table
    references itself, where a key has several columns, where the types differ, and where a table references another twice: such a join
    says its ON. All tables may stand in one query.
    """

    def __init__(self, *tables: Type[Table], notes: Iterable[str] = ()) -> None:
        self._tables: Dict[str, Type[Table]] = {}
        for table in tables:
            name = declared(table).__table__
            if name in self._tables:
                raise SchemaError(f"two tables are called {name!r}: {self._tables[name].__name__} and {table.__name__}")
            document_of(declared(table))
            self._tables[name] = declared(table)
        self._relations = tuple(self._related())
        self.notes: Tuple[str, ...] = tuple(notes)
        # Of each engine, by its address, what is known of statements: `plans.planner_of` keeps it.
        self.planners: Dict[int, Planner] = {}

    def _related(self) -> Iterator[Tuple[str, str, str]]:
        """(child, key, parent) of each relation."""
        found = [(child, column) for child, table in self._tables.items() for column in table.__columns__.values() if column.parent is not None]
        pairs = [frozenset((child, str(column.parent))) for child, column in found]
        for child, column in found:
            parent = self._tables.get(str(column.parent))
            if column.references is not None and not isinstance(column.references, str) and parent is None:
                raise SchemaError(f"{child}.{column.name} references {column.parent}, which is not in the schema")
            if parent is None or parent.__table__ == child or pairs.count(frozenset((child, parent.__table__))) > 1:
                continue
            key = key_of(parent)
            if len(key) == 1 and parent.__columns__[key[0]].type.base == column.type.base:
                yield child, column.name, parent.__table__

    @classmethod
    def from_document(cls, document: Any) -> Schema:
        """The schema of a document, its classes made now: `schema["users"].name`."""
        relations = {(each["child"], each["key"]): each["parent"] for each in document.get("joinable", [])}
        return cls(*(_class_of(each, relations) for each in document["tables"]))

    @classmethod
    def reflect(cls, database: Any, **options: Any) -> Schema:
        """The schema of a database: a connection of sqlite3, an engine or a connection of SQLAlchemy, or the URL of one.

        `only` names tables, `schema` a schema of the database; `trust_declared` takes INT for Integer on SQLite, which takes any value
        there. What has no counterpart is left out, and said in `notes`.
        """
        from .reflection import reflected
        reflection: Reflection = reflected(database, **options)
        return reflection.schema()

    def __getitem__(self, name: str) -> Any:
        """The class of a table, by its name."""
        if name not in self._tables:
            raise KeyError(f"the schema has no table {name!r}{near(name, self._tables)}")
        return self._tables[name]

    def __iter__(self) -> Iterator[Type[Table]]:
        return iter(self._tables.values())

    def __len__(self) -> int:
        return len(self._tables)

    def __contains__(self, table: object) -> bool:
        return isinstance(table, type) and issubclass(table, Table) and self._tables.get(declared(table).__table__) is declared(table)

    @property
    def names(self) -> FrozenSet[str]:
        """The names of the tables."""
        return frozenset(self._tables)

    @property
    def relations(self) -> Tuple[Tuple[str, str, str], ...]:
        """(child, key, parent) of each relation."""
        return self._relations

    def document(self, names: Optional[Iterable[str]] = None) -> Dict[str, Any]:
        """The schema as a document has it, or what concerns these tables of it."""
        kept = [name for name in self._tables if names is None or name in names]
        joinable = [{"child": child, "key": key, "parent": parent} for child, key, parent in self._relations if child in kept and parent in kept]
        together = [list(pair) for pair in itertools.combinations(kept, 2)]
        return {"tables": [document_of(self._tables[name]) for name in kept], "joinable": joinable, "together": together}

    def json(self) -> str:
        """The member `schema` of a document, a line for each table."""
        lines = [f'"{key}":[\n' + ",\n".join("  " + json.dumps(each, ensure_ascii=False) for each in each_of) + "\n]"
                 for key, each_of in self.document().items() if each_of or key == "tables"]
        return "{" + ",\n".join(lines) + "}"

    def python(self) -> str:
        """A module with a class for each table."""
        from .generation import module
        return module(self)


def _class_of(table: Any, relations: Dict[Tuple[str, str], str]) -> Type[Table]:
    key = table.get("primary_key", ["id"])
    columns: Dict[str, Any] = {}
    for column in table["columns"]:
        name = column["name"]
        type = _TYPES.get(column["type"])
        if type is None:
            raise SchemaError(f"{table['name']}.{name}: no type {column['type']!r}")
        columns[name] = Column(type, key=name in key, sql_name=column.get("sql_name"), references=relations.get((table["name"], name)))
    return made_class(table["name"], columns, sql_name=table.get("sql_name"), schema=table.get("schema"))


def made_class(name: str, columns: Dict[str, Column[Any]], **options: Optional[str]) -> Type[Table]:
    """A class that is made now, of a table and its columns."""
    for each in columns:
        if each.startswith("__"):
            raise SchemaError(f"{name}: a column is called {each!r}, as a name of Python's own")
    members: Dict[str, Any] = {"__module__": __name__, "__doc__": f"A row of {name}.", **columns}
    return type(class_name(name), (Table,), members, name=name, **options)


def class_name(name: str) -> str:
    """The name of a class for a table: blog_posts is BlogPosts."""
    words: List[str] = [word for word in "".join(c if c.isalnum() else "_" for c in name).split("_") if word]
    made = "".join(word[0].upper() + word[1:] for word in words) or "Unnamed"
    return made if made[0].isalpha() else "T" + made
