#!/usr/bin/env bash
# Runs each command that README.md and docs/LANGUAGE.md show, and each example of their tables of faults, and compares the output with
# what is shown (docs.py). Commands that build or prove are shown in blocks marked `sh`, which are left out.
# shellcheck source=tests/common.bash
. "$(dirname -- "$0")/common.bash"
check_by_python docs.py "a page shows another output than the command has" README.md docs/LANGUAGE.md
