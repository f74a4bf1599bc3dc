"""`python -m hardieflax` is the command `hardieflax`."""
import sys

from .cli import main

sys.exit(main())
