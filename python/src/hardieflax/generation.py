"""A module of Python with a class for each table of a schema."""
from __future__ import annotations

import enum
from typing import Any, Dict, List, Set, Type

from .schema import Schema, class_name
from .sql_types import EnumerationType, SqlType
from .tables import Column, Table, key_of


def module(schema: Schema) -> str:
    """The module's text. `schema` is the last name that it defines."""
    names = class_names(schema)
    enumerations = _enumerations(schema, names)
    ordered = _parents_first(schema)
    types = [column.type for table in schema for column in table.__columns__.values()]
    imports = sorted({"Column", "Schema", "Table"}.union(*map(_imported, types)))
    lines = ['"""Tables, as `hardieflax schema --python` reads them from a database."""', *["import enum", ""] * bool(enumerations),
             f"from hardieflax import {', '.join(imports)}"]
    for members, name in enumerations.items():
        lines += ["", "", f"class {name}(enum.Enum):", *(f"    {each.name} = {each.value!r}" for each in members)]
    known: Set[str] = set()
    for table in ordered:
        lines += ["", "", *_class(schema, table, names, known, enumerations)]
        known.add(table.__table__)
    lines += ["", "", f"schema = Schema({', '.join(names[table.__table__] for table in schema)})"]
    return "\n".join(lines) + "\n"


def class_names(schema: Schema) -> Dict[str, str]:
    """The name of the class of each table; no two are alike, and none hides a name of this package."""
    import hardieflax
    made: Dict[str, str] = {}
    for table in schema:
        name = class_name(table.__table__)
        while name in made.values() or name in hardieflax.__all__:
            name += "_"
        made[table.__table__] = name
    return made


def _parents_first(schema: Schema) -> List[Type[Table]]:
    """The tables, one that is referenced before one that references it, where that can be."""
    parents = {child: {parent for each, _, parent in schema.relations if each == child} for child in schema.names}
    left = list(schema)
    made: List[Type[Table]] = []
    while left:
        done = {each.__table__ for each in made}
        ready = [each for each in left if parents[each.__table__] <= done] or left[:1]
        made += ready[:1]
        left.remove(ready[0])
    return made


def _enumerations(schema: Schema, names: Dict[str, str]) -> Dict[Type[enum.Enum], str]:
    """The enumerations of the schema, each with a name that no other class has."""
    import hardieflax
    made: Dict[Type[enum.Enum], str] = {}
    for column in (column for table in schema for column in table.__columns__.values()):
        if isinstance(column.type, EnumerationType) and column.type.members not in made:
            name = column.type.members.__name__
            while name in made.values() or name in names.values() or name in hardieflax.__all__:
                name += "_"
            made[column.type.members] = name
    return made


def _type(type: SqlType[Any], enumerations: Dict[Type[enum.Enum], str]) -> str:
    """The type as the module writes it."""
    if not isinstance(type, EnumerationType):
        return repr(type)
    made = f"Enumeration({enumerations[type.members]}{', by_name=True' if type.by_name else ''})"
    return f"Nullable({made})" if type.nullable else made


def _class(schema: Schema, table: Type[Table], names: Dict[str, str], known: Set[str], enumerations: Dict[Type[enum.Enum], str]) -> List[str]:
    options = [f"name={table.__table__!r}"]
    options += [f"{word}={value!r}" for word, value in (("sql_name", table.__sql_name__), ("schema", table.__schema__)) if value is not None]
    lines = [f"class {names[table.__table__]}(Table, {', '.join(options)}):"]
    relations = {key: parent for child, key, parent in schema.relations if child == table.__table__}
    for name, column in table.__columns__.items():
        arguments = [_type(column.type, enumerations), *_arguments(table, name, column, relations.get(name), names, known)]
        lines.append(f"    {name} = Column({', '.join(arguments)})")
    return lines


def _arguments(table: Type[Table], name: str, column: Column[Any], parent: Any, names: Dict[str, str], known: Set[str]) -> List[str]:
    made: List[str] = []
    if name in key_of(table) and key_of(table) != ("id",):
        made.append("key=True")
    if column.sql_name != name:
        made.append(f"sql_name={column.sql_name!r}")
    if parent is not None:
        made.append(f"references={names[parent] if parent in known else repr(parent)}")
    return made


def _imported(type: SqlType[Any]) -> List[str]:
    return [type.name, "Nullable"] if type.nullable else [type.name]
