#!/bin/sh
# Tests the header and the wrappers of the static library on a stand-in that is compiled with the header: what they pass, what they answer,
# what they free, threads that share a handle. It proves and builds nothing of the library (tests/embed.sh calls that), and takes seconds.
# Says what it skipped where a compiler is missing. Ends with 'N passed, M failed'.
top=$(cd "$(dirname "$0")/.." && pwd) || exit 1
work=$(mktemp -d) || exit 1
trap 'rm -rf "$work"' EXIT
. "$top/tests/checks.sh"

# quiet COMMAND..: runs it, and shows what it wrote where it fails
quiet() { "$@" >"$work/log" 2>&1 || { cat "$work/log"; return 1; }; }

# prints TEXT COMMAND..: the command succeeds and prints the text
prints() {
    wanted=$1
    shift
    out=$("$@" 2>"$work/log") && [ "$out" = "$wanted" ] && return
    echo "$out"
    cat "$work/log"
    return 1
}

# ends STATUS COMMAND..: the command ends with this status and prints nothing
ends() {
    wanted=$1
    shift
    "$@" >"$work/log" 2>/dev/null
    got=$?
    [ "$got" = "$wanted" ] && [ ! -s "$work/log" ] && return
    echo "status $got, wanted $wanted"
    return 1
}

# stops STATUS TEXT COMMAND..: the command ends with this status and prints the text
stops() {
    wanted=$1
    text=$2
    shift 2
    out=$("$@" 2>"$work/log")
    got=$?
    [ "$got" = "$wanted" ] && [ "$out" = "$text" ] && return
    echo "status $got, $out"
    return 1
}

c=$(command -v cc || command -v gcc || command -v clang) || { echo 'skipped all: no C compiler'; exit 0; }
cat >"$work/flags" <<'TXT'
-std=c99 -D_POSIX_C_SOURCE=199309L -Wall -Wextra -Werror -pedantic -O1 -fPIC
TXT
# shellcheck disable=SC2046
compile() { quiet "$c" $(cat "$work/flags") -I"$top/examples/c" "$@"; }
check 'the stand-in compiles' compile -c -o "$work/stand_in.o" "$top/tests/wrappers/stand_in.c" || exit
check 'the shared library links' compile -shared -o "$work/stand_in.so" "$work/stand_in.o" || exit
printf 'first' >"$work/first"
printf 'status 3' >"$work/bad"

if check 'the C example compiles' compile -o "$work/main" "$top/examples/c/main.c" "$work/stand_in.o"; then
    check 'C, build' prints 'build - first' "$work/main" build "$work/first"
    check 'C, guard' prints 'guard - first' "$work/main" guard "$work/first"
    check 'C, a session' prints 'open - firstnext - secondnext - third' "$work/main" session "$work/first" second third
    check 'C, a word that it does not know' ends 2 "$work/main" biuld "$work/first"
    check 'C, a status' ends 3 "$work/main" build "$work/bad"
fi
printf 'second' >"$work/second"
check 'C, a program with threads compiles' compile -pthread -o "$work/threads" "$top/tests/wrappers/threads.c" "$work/stand_in.o" &&
    check 'C, eight threads with a handle each' "$work/threads" "$work/first" "$work/second"
if command -v c++ >/dev/null; then
    cat >"$work/main.cc" <<'TXT'
#include "hardieflax.h"
int main() {
    hardieflax handle = HARDIEFLAX_INIT;
    hardieflax_free(&handle);
    uint32_t status = hardieflax_next(&handle, reinterpret_cast<const uint8_t *>(""), 0);
    hardieflax_free(&handle);
    return static_cast<int>(status);
}
TXT
    set -- -Wall -Wextra -Werror -pedantic -I"$top/examples/c"
    check 'C++ compiles the header' quiet c++ "$@" -o "$work/cc" "$work/main.cc" "$work/stand_in.o" &&
        check 'C++, no session' ends 2 "$work/cc"
else
    echo 'skipped C++: no c++'
fi

if command -v python3 >/dev/null; then
    PYTHONDONTWRITEBYTECODE=1
    export PYTHONDONTWRITEBYTECODE
    check 'the tests of the Python wrapper' quiet python3 "$top/tests/wrappers/wrapper.py" "$work/stand_in.so"
    main=$top/examples/python/main.py
    check 'Python, a session' prints 'open - firstnext - secondnext - third' python3 "$main" "$work/stand_in.so" "$work/first" second third
    check 'Python, a status' ends 3 python3 "$main" "$work/stand_in.so" "$work/bad"
    check 'Python, too few words' ends 2 python3 "$main" "$work/stand_in.so"
else
    echo 'skipped Python: no python3'
fi

if command -v cargo >/dev/null && command -v ar >/dev/null; then
    ar rcs "$work/libhardieflax.a" "$work/stand_in.o"
    CARGO_TARGET_DIR=$work/target
    export CARGO_TARGET_DIR
    rust() {
        word=$1
        shift
        RUSTFLAGS='--cfg hardieflax_stand_in' "$top/packaging/cargo.sh" "$work" "$word" --offline --quiet --manifest-path "$top/rust/Cargo.toml" "$@"
    }
    check 'the tests of the Rust wrapper' quiet rust test --lib --test stand_in
    session() { rust run --example session -- "$work/first" "$@"; }
    check 'Rust, a session' prints 'open - firstnext - secondnext - third' session second third
    check 'Rust, the lines before a status' stops 6 'open - firstnext - secondnext - deep' session second deep third
    check 'Rust, a status' ends 3 rust run --example session -- "$work/bad"
else
    echo 'skipped Rust: no cargo, or no ar'
fi

echo "$passed passed, $failed failed"
[ "$failed" = 0 ]
