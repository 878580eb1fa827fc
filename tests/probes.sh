#!/usr/bin/env bash
# The second program for probe expressions (probes.py): its positions spell its own words, on some thousands of random expressions, and the
# tables in crates/probe_tests are what it writes. The tests of that crate compare the program with these tables. Likewise for the second
# reader of probe expressions (probe_texts.py) and the table in crates/probe_reading_tests.
# shellcheck source=tests/common.bash
. "$(dirname -- "$0")/common.bash"

# The generated file must be what this program writes for these words.
is_written() {
    if python3 "tests/$2" "${@:3}" | cmp -s - "$1"; then
        passed
    else
        failed "$1 isn't what tests/$2 writes"
    fi
}

if command -v python3 >"$work/nothing"; then
    if python3 tests/probes.py agree 3000; then
        passed
    else
        failed "positions and words of the second program differ"
    fi
    is_written crates/probe_tests/src/position_table.rt probes.py positions
    for number in 1 2 3 4; do
        is_written "crates/probe_tests/src/heard/table_$number.rt" probes.py hearing "$number"
    done
    is_written crates/probe_reading_tests/src/tables.rt probe_texts.py
else
    skipped "there is no python3"
fi
finish
