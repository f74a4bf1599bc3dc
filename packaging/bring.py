#!/usr/bin/env python3
"""Brings the libraries of Hardieflax into another repository of the kit: `packaging/bring.py FOLDER`.

Copies `hardieflax` and the crates below it to FOLDER/crates, without their tests, edits and what is made of them, puts their lines into
FOLDER/crates.txt, in place of earlier ones, and the licenses into FOLDER/licenses/hardieflax. A crate of FOLDER then depends on them by one
line: `NAME: hardieflax`.
"""

from __future__ import annotations

import pathlib
import shutil
import sys

TOP = pathlib.Path(__file__).resolve().parent.parent
PARTS = ("src", "specs", "proofs")


def lines_of(file: pathlib.Path) -> dict[str, str]:
    """The lines of a crates.txt, each by the name of its crate. Comments and empty lines are left out."""
    lines = [line.strip() for line in file.read_text().splitlines()] if file.exists() else []
    return {line.split(":")[0].split()[0]: line for line in lines if line and not line.startswith("#")}


def below(name: str, lines: dict[str, str]) -> list[str]:
    """The crates below one, lowest first, and it. The kit's libraries are left out."""
    found: list[str] = []
    for crate in lines[name].split(":")[1].split():
        found += [each for each in below(crate, lines) if each not in found] if crate in lines else []
    return [*found, name]


def main() -> None:
    folder = pathlib.Path(sys.argv[1])
    lines = lines_of(TOP / "crates.txt")
    crates = below("hardieflax", lines)
    for crate in crates:
        for part in PARTS:
            goal = folder / "crates" / crate / part
            shutil.rmtree(goal, ignore_errors=True)
            if (TOP / "crates" / crate / part).is_dir():
                shutil.copytree(TOP / "crates" / crate / part, goal)
    own = {name: line for name, line in lines_of(folder / "crates.txt").items() if name not in crates}
    text = [lines[crate] for crate in crates] + list(own.values())
    (folder / "crates.txt").write_text("\n".join(text) + "\n")
    (folder / "licenses/hardieflax").mkdir(parents=True, exist_ok=True)
    for name in ("LICENSE-APACHE", "LICENSE-MIT"):
        shutil.copy(TOP / name, folder / "licenses/hardieflax" / name)
    print(f"{len(crates)} crates in {folder}")


main()
