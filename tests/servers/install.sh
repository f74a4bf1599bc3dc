#!/bin/sh
# Installs what tests/servers/run.py needs on Debian or Ubuntu: the servers that it starts itself, and Python's drivers for them. Packages start
# servers of their own where the system starts services; run.py does not use those. Run it as root, or where sudo is.
set -eu
command -v apt-get >/dev/null || { echo "install.sh: no apt-get: this is no Debian" >&2; exit 1; }
root=
[ "$(id -u)" = 0 ] || root=sudo
$root apt-get update
$root env DEBIAN_FRONTEND=noninteractive apt-get install -y --no-install-recommends \
    postgresql mariadb-server-core mariadb-client-core python3 python3-psycopg python3-pymysql
