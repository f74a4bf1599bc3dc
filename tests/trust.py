"""Counts what docs/TRUST.md tells readers to read: `python3 tests/trust.py` prints a line for each row of its table.

A size is the lines of definitions of a file: those that are neither blank nor a comment nor an import. `faults` says what of the page is
not so: a number that is more than a tenth off, a definition file that a named one imports and no row names. `tests/pages.sh` calls it.
"""
import pathlib
import re
from collections.abc import Iterator

TOP = pathlib.Path(__file__).resolve().parent.parent
CRATES = TOP / "crates"
PAGE = TOP / "docs/TRUST.md"
# The rows that the headline on `build` needs.
FOR_BUILD = ("What is written?", "Which bytes are a document?", "Which statement does a query stand for?",
             "Which rules are there, and which is the first?", "Which text and values has a statement?", "What is a text read as?",
             "How does that tree belong to the statement?", "What is an id?")


def files_of(cell: str) -> list[pathlib.Path]:
    """The files of definitions that a cell names: one without a folder is in the folder of the one before it."""
    found, folder = [], CRATES
    for name in re.findall(r"`([\w/]+(?:\.antt|/))`", cell):
        if name.endswith("/"):
            found += sorted((CRATES / name).glob("*.antt"))
        elif "/" in name:
            folder = (CRATES / name).parent
            found.append(CRATES / name)
        else:
            found.append(folder / name)
    return [path for path in found if path.name != "Lib.antt"]


def rows() -> list[tuple[str, list[pathlib.Path], int]]:
    """The question, the files and the number of each row."""
    table = re.findall(r"^\| (.+?) \| (.+) \| ([\d,]+) \|$", PAGE.read_text(), re.M)
    return [(question, files_of(cell), int(number.replace(",", ""))) for question, cell, number in table]


def lines_of(path: pathlib.Path) -> int:
    lines = (line.strip() for line in path.read_text().split("\n"))
    return sum(1 for line in lines if line and not re.match(r"--|(pub )?use ", line))


def imports_of(path: pathlib.Path) -> list[list[str]]:
    """The dotted paths that a file imports, with the names of their modules alone."""
    return [path.rstrip(".").split(".") for path in re.findall(r"^(?:pub )?use Rattle\.([\w.]+)", path.read_text(), re.M)]


def definition_file(parts: list[str]) -> pathlib.Path | None:
    """The file of this repository that an import reads, where it is one of definitions."""
    for count in range(len(parts), 2, -1):
        path = CRATES.joinpath(*parts[:count]).with_suffix(".antt")
        if path.exists():
            return path
    return None


def declarations(paths: list[pathlib.Path]) -> set[tuple[str, str, str]]:
    """The Rust types that definitions name: crate, file and type."""
    imports = (parts for path in paths for parts in imports_of(path))
    return {(parts[0], parts[3], parts[4]) for parts in imports
            if len(parts) > 4 and parts[2] == "declared" and (CRATES / parts[0]).exists() and parts[4] != "TheConstants"}


def lines_of_type(crate: str, file: str, name: str) -> int:
    source = (CRATES / crate / "src" / f"{file}.rt").read_text()
    found = re.search(rf"^pub (?:struct|enum) {name}\b(?:[^{{;]*;|.*?^}}|[^\n]*}}$)", source, re.S | re.M)
    lines = found.group().split("\n") if found else []
    return sum(1 for line in lines if line.strip() and not line.strip().startswith("//"))


def named_files() -> list[pathlib.Path]:
    """Each named file once, in the order of the page."""
    return list(dict.fromkeys(path for _, files, _ in rows() for path in files))


def totals() -> dict[str, int]:
    """The sums that the page states, by name."""
    named = named_files()
    build = {path for question, files, _ in rows() if question in FOR_BUILD for path in files}
    return {
        "lines": sum(map(lines_of, named)), "files": len(named),
        "Rust": sum(lines_of_type(*each) for each in declarations(named)),
        "build lines": sum(map(lines_of, build)), "build files": len(build),
    }


def is_near(stated: int, counted: int) -> bool:
    return abs(stated - counted) <= max(10, counted // 10)


def faults() -> Iterator[str]:
    """What the page states and is not so."""
    named = set(named_files())
    for question, files, number in rows():
        counted = sum(map(lines_of, files))
        if not is_near(number, counted):
            yield f"'{question}' has {counted} lines, and not {number}"
    for path in sorted(named):
        for parts in imports_of(path):
            needed = definition_file(parts)
            if needed is not None and needed not in named:
                yield f"{path.relative_to(CRATES)} needs {needed.relative_to(CRATES)}, and no row names it"
    text = PAGE.read_text()
    stated = re.search(r"About ([\d,]+) lines in ([\d,]+) files in all, and ([\d,]+) lines of Rust.*?takes some ([\d,]+) lines in ([\d,]+) files",
                       text, re.S)
    counted = totals()
    if stated is None or not all(is_near(int(number.replace(",", "")), count) for number, count in zip(stated.groups(), counted.values())):
        yield f"the sums are {counted}"


def main() -> None:
    for question, files, number in rows():
        print(f"{sum(map(lines_of, files)):5} (stated {number:5}) in {len(files):2} files: {question}")
    print(totals())
    print("\n".join(faults()) or "the page is so")


if __name__ == "__main__":
    main()
