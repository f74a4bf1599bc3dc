#!/bin/sh
# Runs cargo with the Rust crate linked to the libhardieflax.a of another folder than its own: cargo.sh FOLDER WORD..
# (packaging/library.sh makes one of the tree's library.) Cargo's configuration names it, in place of the crate's build script.
[ $# -ge 2 ] || {
    echo 'usage: cargo.sh FOLDER WORD..' >&2
    exit 2
}
folder=$(cd "$1" && pwd) || exit 1
word=$2
shift 2
target=$(rustc -vV | sed -n 's/^host: //p')
exec cargo "$word" --config "target.$target.hardieflax.rustc-link-search=['native=$folder']" \
    --config "target.$target.hardieflax.rustc-link-lib=['static=hardieflax']" "$@"
