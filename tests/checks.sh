# shellcheck shell=sh
# Counts checks; a script of tests sources it.
passed=0
failed=0

# check NAME COMMAND..: counts whether the command succeeds, and fails where it does not
check() {
    name=$1
    shift
    if "$@"; then
        passed=$((passed + 1))
    else
        failed=$((failed + 1))
        echo "FAILED $name"
        return 1
    fi
}
