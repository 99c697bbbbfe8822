# Named checks for the tests that are scripts, counted, and a scratch folder; the last line is 'N passed, M failed'.
# A script sources it, and ends with finish.

scratch=$(realpath "$(mktemp -d)")
passed=0
failed=0
trap 'rm -rf "$scratch"; [ -n "${finished:-}" ] || echo "$0: FAILED"' EXIT

# The commands that a test takes are there.
needs() {
    local command
    for command; do
        type -P "$command" >/dev/null || { echo "$0: $command is missing"; exit 1; }
    done
}

# Runs a command and counts whether it succeeds. What it says is shown if it does not.
check() {
    local name=$1
    shift
    if "$@" >"$scratch/said" 2>&1; then
        echo "ok      $(basename "$0"): $name"
        passed=$((passed + 1))
    else
        echo "FAILED  $(basename "$0"): $name"
        cat "$scratch/said"
        failed=$((failed + 1))
    fi
}

# The counts as the last line, and the script's exit status.
finish() {
    finished=yes
    echo "$passed passed, $failed failed"
    [ $failed -eq 0 ]
}
