# Functions that run the parts of ./test and add up their counts. tools/test_parts.sh tests them.
#
# A part is a command whose last line is `N passed, M failed` or `N passed, M failed, K skipped`. It counts as one more
# failure if it has no such line, if it counts nothing, or if it ends with a status other than 0 without a failure.
# Skipped tests need a tool that this machine does not have. The part names the tool.
passed=0
failed=0
skipped=0
parts_dir=$(mktemp -d)
trap 'rm -rf "$parts_dir"' EXIT

# Reports a failure and counts it.
fail() {
    echo "test: FAILED: $1"
    failed=$((failed + 1))
}

# Reports tests that are skipped and counts them as one.
skip() {
    echo "test: SKIPPED: $1"
    skipped=$((skipped + 1))
}

# Runs a part, shows its output and adds up its counts. Arguments: a title, then the command.
part() {
    local title=$1 status last pattern='^([0-9]+) passed, ([0-9]+) failed(, ([0-9]+) skipped)?( \(.*\))?$'
    shift
    echo "test: $title"
    "$@" 2>&1 < /dev/null | tee "$parts_dir/output"
    status=${PIPESTATUS[0]}
    last=$(tail -n 1 "$parts_dir/output")
    if ! [[ $last =~ $pattern ]]; then
        fail "$title: the last line is not a count of tests (exit status $status)"
        return
    fi
    local part_passed=${BASH_REMATCH[1]} part_failed=${BASH_REMATCH[2]} part_skipped=${BASH_REMATCH[4]:-0}
    passed=$((passed + part_passed))
    failed=$((failed + part_failed))
    skipped=$((skipped + part_skipped))
    if [ $((part_passed + part_failed + part_skipped)) -eq 0 ]; then
        fail "$title: no test was run"
    elif [ "$status" -ne 0 ] && [ "$part_failed" -eq 0 ]; then
        fail "$title: exit status $status, but no test failed"
    fi
}

# Runs a part that needs a tool, or skips it if the tool is missing. Arguments: the tool, a title, then the command.
part_with() {
    local tool=$1
    shift
    if "$tool" --version > /dev/null 2>&1; then
        part "$@"
    else
        skip "$1 ($tool is missing)"
    fi
}

# Prints the sum as the last line and exits with the status for it.
finish() {
    if [ "$skipped" -eq 0 ]; then
        echo "$passed passed, $failed failed"
    else
        echo "$passed passed, $failed failed, $skipped skipped"
    fi
    [ "$failed" -eq 0 ] && [ "$passed" -gt 0 ]
    exit
}
