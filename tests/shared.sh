# Sourced by .ci/run and by tests/c/machine.sh, and so by tests/c/run and bench/run: how a package is installed and how tests are counted.
# shellcheck shell=bash

passed=0
failed=0

# install COMMAND PACKAGE..: Debian packages, where the command is missing
install() {
    command -v "$1" >/dev/null 2>&1 && return
    shift
    local as_root=""
    [ "$(id -u)" -eq 0 ] || as_root="sudo"
    echo "installing $*" >&2
    { $as_root apt-get update -qq && $as_root apt-get install -y -qq --no-install-recommends "$@"; } || { echo "not installed: $*" >&2; return 1; }
}

# count LOG STATUS: adds what a test's closing line counts; a test without one counts as 1, and one that fails counts a failure at least
count() {
    local closing
    closing=$(grep -E '^[0-9]+ passed, [0-9]+ failed$' "$1" | tail -n 1)
    [ -n "$closing" ] || closing="$(($2 == 0)) passed, $(($2 != 0)) failed"
    passed=$((passed + ${closing%% passed*}))
    closing=${closing##*, }
    failed=$((failed + ${closing%% failed}))
    [ "$2" -eq 0 ] || [ "${closing%% failed}" -ne 0 ] || failed=$((failed + 1))
}

# tell_count: the closing line over all that was counted, and whether all of it passed
tell_count() {
    echo "$passed passed, $failed failed"
    [ "$failed" -eq 0 ] && [ "$passed" -gt 0 ]
}

# give_up_tests STATUS WHY: the closing line of tests that cannot be run
give_up_tests() {
    echo "$2"
    echo "0 passed, 1 failed"
    exit "$1"
}
