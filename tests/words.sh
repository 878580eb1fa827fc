#!/usr/bin/env bash
# Compares the commands that the tests of `call_words` expect with those of words.py, which reads words by itself. It needs no program.
# shellcheck source=tests/common.bash
. "$(dirname -- "$0")/common.bash"
if ! command -v python3 >/dev/null 2>&1; then
    skipped "python3 isn't installed"
    exit 0
fi
if python3 tests/words.py crates/call_words_tests/src/{commands,ends,events,forms,pairs,sizes}.rt; then
    passed
else
    failed "a command isn't that of the rules"
fi
finish
