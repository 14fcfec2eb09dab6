#!/usr/bin/env bash
# Tests that ./test cannot pass by accident: runs parts that fail in every way, and checks the sum.
set -u
cd "$(dirname "${BASH_SOURCE[0]}")"
passed=0
failed=0

# Checks the last line and the exit status after some parts. Arguments: a title, the expected line, the expected status,
# a script that runs the parts.
check_sum() {
    local title=$1 expected_line=$2 expected_status=$3 last status=0
    last=$(bash -uc "source ./parts.sh; $4; finish" 2> /dev/null) || status=$?
    last=$(tail -n 1 <<< "$last")
    if [ "$last" = "$expected_line" ] && [ "$status" -eq "$expected_status" ]; then
        passed=$((passed + 1))
    else
        echo "test parts: $title: the result is '$last' with status $status, expected '$expected_line' with status $expected_status"
        failed=$((failed + 1))
    fi
}

check_sum "two parts that pass" "5 passed, 0 failed" 0 'part one echo "2 passed, 0 failed"; part two echo "3 passed, 0 failed (some)"'
check_sum "a part with a failed test" "2 passed, 1 failed" 1 'part one sh -c "echo 2 passed, 1 failed; exit 1"'
check_sum "a failed test and status 0" "2 passed, 1 failed" 1 'part one echo "2 passed, 1 failed"'
check_sum "no count and status 0" "2 passed, 1 failed" 1 'part one echo "2 passed, 0 failed"; part two echo done'
check_sum "a part without output" "2 passed, 1 failed" 1 'part one echo "2 passed, 0 failed"; part two true'
check_sum "a command that does not exist" "2 passed, 1 failed" 1 'part one echo "2 passed, 0 failed"; part two ./not_there'
check_sum "status 1 without a failed test" "2 passed, 1 failed" 1 'part one sh -c "echo 2 passed, 0 failed; exit 1"'
check_sum "a count that is not the last line" "0 passed, 1 failed" 1 'part one sh -c "echo 2 passed, 0 failed; echo killed"'
check_sum "a part that counts no test" "2 passed, 1 failed" 1 'part one echo "2 passed, 0 failed"; part two echo "0 passed, 0 failed"'
check_sum "no part" "0 passed, 0 failed" 1 'true'
check_sum "tests that are skipped" "2 passed, 0 failed, 3 skipped" 0 'part one echo "2 passed, 0 failed, 3 skipped"'
check_sum "all tests skipped" "0 passed, 0 failed, 3 skipped" 1 'part one echo "0 passed, 0 failed, 3 skipped"'
check_sum "a part that was skipped" "2 passed, 0 failed, 1 skipped" 0 'part one echo "2 passed, 0 failed"; skip "two"'
check_sum "a part whose tool is missing" "2 passed, 0 failed, 1 skipped" 0 'part one echo "2 passed, 0 failed"; part_with not_there two echo "3 passed, 0 failed"'
check_sum "a part whose tool is there" "2 passed, 1 failed" 1 'part_with bash one echo "2 passed, 1 failed"'
check_sum "a part that was not run" "2 passed, 1 failed" 1 'part one echo "2 passed, 0 failed"; fail "two was not run"'
echo "$passed passed, $failed failed"
[ "$failed" -eq 0 ]
