#!/bin/sh
# Tests the Python package of `python/`: on the built program, on SQLite, on the servers that the machine has, on stand-ins for the library,
# by mypy where it is there. It builds nothing but the stand-ins, and says what it skipped. Ends with 'N passed, M failed'.
#   tests/python.sh [PROGRAM]         by default crates/sql_tool/out/sql_tool
# With HARDIEFLAX_CLUSTER=1 it also starts a cluster of dask.distributed and kills a worker at work, which takes half a minute. By hand.
# With HARDIEFLAX_LIBRARY=FILE in the environment that shared library answers in place of the program, wherever either may.
top=$(cd "$(dirname "$0")/.." && pwd) || exit 1
HARDIEFLAX_PROGRAM=${1:-${HARDIEFLAX_PROGRAM:-$top/crates/sql_tool/out/sql_tool}}
PYTHONDONTWRITEBYTECODE=1
PYTHONUTF8=1
export HARDIEFLAX_PROGRAM PYTHONDONTWRITEBYTECODE PYTHONUTF8
# Debian's drivers are of Debian's Python.
python=$(command -v /usr/bin/python3 || command -v python3) || { echo 'skipped: no python3'; exit 0; }
"$python" -c 'import sys; sys.exit(sys.version_info < (3, 9))' || { echo 'skipped: Python is older than 3.9'; exit 0; }
[ -x "$HARDIEFLAX_PROGRAM" ] || echo "skipped what needs the program: there is no $HARDIEFLAX_PROGRAM"
cd "$top/python/tests" || exit 1
exec "$python" run.py
