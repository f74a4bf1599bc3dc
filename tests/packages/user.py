"""Builds the statements of a document on standard input, by the installed package."""

import sys

import hardieflax

document = sys.stdin.buffer.read()
if hasattr(hardieflax, "Hardieflax"):
    with hardieflax.Hardieflax() as library:
        sys.stdout.buffer.write(library.build(document))
else:
    sys.stdout.buffer.write(hardieflax.default_engine().run(["build"], document))
