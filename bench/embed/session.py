"""Answers documents over one session, and prints how many seconds the calls took.

session.py LIBRARY SCHEMA DOCUMENTS LINES, as session.c and the shared library.
"""

import pathlib
import sys
import time

sys.path.insert(0, str(pathlib.Path(__file__).resolve().parents[2] / "examples/python"))

from hardieflax import Hardieflax


def main():
    library, schema, documents, lines = sys.argv[1:]
    taken = 0.0
    with Hardieflax(library) as session, open(documents, "rb") as source, open(lines, "wb") as out:
        session.open(pathlib.Path(schema).read_bytes())
        for document in source:
            began = time.perf_counter()
            answer = session.next(document)
            taken += time.perf_counter() - began
            out.write(answer)
    print(f"{taken:.4f}")


if __name__ == "__main__":
    main()
