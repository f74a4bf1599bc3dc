"""Builds the statements of a document over a session, and then those of further documents, which declare no table.

python3 main.py LIBRARY FILE [DOCUMENT..]
"""

from __future__ import annotations

import os
import sys

from hardieflax import Hardieflax, HardieflaxError, Status


def main(arguments: list[str]) -> int:
    if len(arguments) < 2:
        print("usage: main.py LIBRARY FILE [DOCUMENT..]", file=sys.stderr)
        return Status.USAGE
    library, path, *more = arguments
    with open(path, "rb") as file:
        document = file.read()
    try:
        with Hardieflax(library) as session:
            sys.stdout.buffer.write(session.open(document))
            for text in more:
                sys.stdout.buffer.write(session.next(os.fsencode(text)))
    except HardieflaxError as error:
        sys.stdout.buffer.write(error.answered)
        print(error, file=sys.stderr)
        return error.status
    return 0


if __name__ == "__main__":
    sys.exit(main(sys.argv[1:]))
