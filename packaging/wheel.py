#!/usr/bin/env python3
"""Packs the Python wheel: the package of python/, with the shared library inside, and the files of a prefix, such as the program.

wheel.py --version VERSION --tag TAG --library FILE --prefix FOLDER OUT writes OUT/hardieflax-VERSION-TAG.whl

The prefix's folder `bin` becomes the scripts of an environment, and all else goes where the environment has such folders. Where the package
has a script `hardieflax` of its own, the program's is `sql_tool`. The same files and the same SOURCE_DATE_EPOCH give the same bytes.
"""

from __future__ import annotations

import argparse
import base64
import hashlib
import os
import pathlib
import sys
import time
import tomllib
import zipfile
from collections.abc import Iterator
from typing import Any

TOP = pathlib.Path(__file__).resolve().parent.parent
NAME = "hardieflax"
LIBRARY = f"{NAME}/libhardieflax.so"
GENERATOR = "packaging/wheel.py"
# A zip file cannot name an earlier second.
EARLIEST = 315532800

class ProjectError(Exception):
    """What pyproject.toml says does not fit a wheel that is packed here."""


def project(version: str) -> dict[str, Any]:
    """The table `project` of python/pyproject.toml. ProjectError: it is of another package or another version."""
    path = TOP / "python/pyproject.toml"
    table: dict[str, Any] = tomllib.loads(path.read_text(encoding="utf-8"))["project"]
    if (table["name"], table.get("version", version)) != (NAME, version):
        raise ProjectError(f"{path} is of {table['name']} {table['version']}, and not of {NAME} {version}")
    return table


def package() -> Iterator[tuple[str, bytes]]:
    """The files of the package, by their names in the wheel."""
    source = TOP / "python/src" / NAME
    for path in source.rglob("*"):
        if path.is_file() and path.suffix not in (".pyc", ".so"):
            yield f"{NAME}/{path.relative_to(source).as_posix()}", path.read_bytes()


def license_of(table: dict[str, Any]) -> str:
    """The licence, which older files write as a table."""
    given = table["license"]
    return str(given["text"] if isinstance(given, dict) else given)


def requirements(table: dict[str, Any]) -> Iterator[str]:
    """The lines of METADATA that name other packages."""
    for each in table.get("dependencies", []):
        yield f"Requires-Dist: {each}"
    for extra, needed in table.get("optional-dependencies", {}).items():
        yield f"Provides-Extra: {extra}"
        for each in needed:
            name, _, marker = each.partition(";")
            marker = f"({marker.strip()}) and " if marker else ""
            yield f'Requires-Dist: {name.strip()}; {marker}extra == "{extra}"'


def metadata(table: dict[str, Any], version: str) -> str:
    """The file METADATA."""
    lines = [
        "Metadata-Version: 2.1",
        f"Name: {NAME}",
        f"Version: {version}",
        f"Summary: {table['description']}",
        f"License: {license_of(table)}",
        f"Requires-Python: {table['requires-python']}",
        *([f"Keywords: {','.join(table['keywords'])}"] if "keywords" in table else []),
        *(f"Classifier: {each}" for each in table.get("classifiers", [])),
        *(f"Project-URL: {label}, {url}" for label, url in table.get("urls", {}).items()),
        *(f"License-File: {each}" for each in ("LICENSE-MIT", "LICENSE-APACHE")),
        *requirements(table),
    ]
    text = "\n".join(lines) + "\n"
    readme = TOP / "python" / str(table.get("readme", ""))
    if "readme" in table and readme.is_file():
        text += f"Description-Content-Type: text/markdown\n\n{readme.read_text(encoding='utf-8')}"
    return text


def entry_points(table: dict[str, Any]) -> str:
    """The file entry_points.txt; empty where there are none."""
    scripts = table.get("scripts", {})
    return "[console_scripts]\n" + "".join(f"{name} = {call}\n" for name, call in sorted(scripts.items())) if scripts else ""


def information(table: dict[str, Any], version: str, tag: str) -> Iterator[tuple[str, bytes]]:
    """The files of the folder dist-info but RECORD, by their names there."""
    yield "METADATA", metadata(table, version).encode()
    yield "WHEEL", f"Wheel-Version: 1.0\nGenerator: {GENERATOR}\nRoot-Is-Purelib: false\nTag: {tag}\n".encode()
    for name in ("LICENSE-MIT", "LICENSE-APACHE"):
        yield name, (TOP / name).read_bytes()
    if points := entry_points(table):
        yield "entry_points.txt", points.encode()


def installed(prefix: pathlib.Path, script: str) -> Iterator[tuple[str, bytes, bool]]:
    """The files of the prefix: their names in the folder data, their bytes, and whether they are to be run. The script gets this name."""
    for path in prefix.rglob("*"):
        if path.is_file():
            name = path.relative_to(prefix).as_posix()
            yield f"scripts/{script}" if name == f"bin/{NAME}" else f"data/{name}", path.read_bytes(), os.access(path, os.X_OK)


def record_line(name: str, content: bytes) -> str:
    """A file's line of RECORD."""
    digest = base64.urlsafe_b64encode(hashlib.sha256(content).digest()).rstrip(b"=").decode()
    return f"{name},sha256={digest},{len(content)}\n"


def write(path: pathlib.Path, files: dict[str, tuple[bytes, bool]], record: str) -> None:
    """Writes the wheel, RECORD last."""
    moment = time.gmtime(max(int(os.environ.get("SOURCE_DATE_EPOCH", EARLIEST)), EARLIEST))[:6]
    lines = "".join(record_line(name, content) for name, (content, _) in sorted(files.items())) + f"{record},,\n"
    with zipfile.ZipFile(path, "w", zipfile.ZIP_DEFLATED, compresslevel=9) as wheel:
        for name, (content, runs) in [*sorted(files.items()), (record, (lines.encode(), False))]:
            entry = zipfile.ZipInfo(name, moment)
            entry.compress_type = zipfile.ZIP_DEFLATED
            entry.create_system = 3
            entry.external_attr = (0o100755 if runs else 0o100644) << 16
            wheel.writestr(entry, content)


def main() -> int:
    parser = argparse.ArgumentParser(description="Packs the Python wheel.")
    for name in ("version", "tag"):
        parser.add_argument(f"--{name}", required=True)
    for name in ("library", "prefix"):
        parser.add_argument(f"--{name}", required=True, type=pathlib.Path)
    parser.add_argument("out", type=pathlib.Path)
    given = parser.parse_args()
    base = f"{NAME}-{given.version}"
    # What is packed for tests says more.
    table = project(given.version.partition("+")[0])
    script = "sql_tool" if NAME in table.get("scripts", {}) else NAME
    files = {name: (content, False) for name, content in package()}
    files[LIBRARY] = (given.library.read_bytes(), False)
    files.update({f"{base}.dist-info/{name}": (content, False) for name, content in information(table, given.version, given.tag)})
    files.update({f"{base}.data/{name}": (content, runs) for name, content, runs in installed(given.prefix, script)})
    write(given.out / f"{base}-{given.tag}.whl", files, f"{base}.dist-info/RECORD")
    return 0


if __name__ == "__main__":
    try:
        sys.exit(main())
    except ProjectError as error:
        sys.exit(f"wheel.py: {error}")
