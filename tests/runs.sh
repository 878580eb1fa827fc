#!/usr/bin/env bash
# Compares `pepaprobe run`, `gen` and `probe` with runs.py, which computes their answers a second time, on the models of examples/ and on
# random ones, for a minute at most. What is known of the second program's answers is looked at first; that needs no program. What the
# program doesn't take yet is skipped.
# shellcheck source=tests/common.bash
. "$(dirname -- "$0")/common.bash"
if command -v python3 >/dev/null 2>&1; then
    if python3 tests/runs.py; then
        passed
    else
        failed "the second program doesn't give what is known of its answers"
    fi
fi
check_by_python runs.py "an answer isn't that of the second program"
