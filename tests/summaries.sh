#!/usr/bin/env bash
# Compares the summaries that the tests of `sim_histograms` expect with those of summaries.py. It needs no program.
# shellcheck source=tests/common.bash
. "$(dirname -- "$0")/common.bash"
if ! command -v python3 >/dev/null 2>&1; then
    skipped "python3 isn't installed"
    exit 0
fi
if python3 tests/summaries.py crates/histogram_tests/src/summaries.rt; then
    passed
else
    failed "a summary isn't that of the rules"
fi
finish
