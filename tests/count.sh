# shellcheck shell=bash
# Counts tests, for the scripts that read this in.
passed=0
failed=0

# check NAME COMMAND..: a command that passes or fails as one test. Gives its status.
check() {
    local name=$1
    shift
    if "$@"; then
        passed=$((passed + 1))
    else
        echo "failed: $name"
        failed=$((failed + 1))
        return 1
    fi
}

# not COMMAND..: the command fails.
not() {
    ! "$@"
}

# counted NAME COMMAND..: a command whose last line is `N passed, M failed`, which is
# added up. One that ends without such a line, that counted nothing, or that fails
# with no failure counted, is a failure.
counted() {
    local name=$1 log status last
    shift
    echo "== $name"
    log=$(mktemp)
    "$@" 2>&1 | tee "$log"
    status=${PIPESTATUS[0]}
    last=$(tail -n 1 "$log")
    rm -f "$log"
    if [[ $last =~ ^([0-9]+)\ passed,\ ([0-9]+)\ failed$ && $last != '0 passed, 0 failed' ]]; then
        passed=$((passed + BASH_REMATCH[1]))
        failed=$((failed + BASH_REMATCH[2]))
        [ "$status" = 0 ] || [ "${BASH_REMATCH[2]}" != 0 ] || failed=$((failed + 1))
    else
        echo "failed: $name ended with status $status and no count"
        failed=$((failed + 1))
    fi
}

# Prints the sum, which is a script's last line, and gives the script's status.
total() {
    echo "$passed passed, $failed failed"
    [ "$failed" = 0 ] && [ "$passed" != 0 ]
}
