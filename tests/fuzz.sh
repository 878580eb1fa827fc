#!/usr/bin/env bash
# Runs `pepaprobe check` and `pepaprobe print` on the models of examples/ with random changes, for a minute at most: the
# program never crashes, and what it prints reads back to itself (fuzz.py).
# shellcheck source=tests/common.bash
. "$(dirname -- "$0")/common.bash"
check_by_python fuzz.py "a text wasn't answered as it should be"
