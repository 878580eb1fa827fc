#!/usr/bin/env bash
# Compares `pepaprobe check` and `pepaprobe print` on the models of examples/ and on random texts with what docs/LANGUAGE.md
# says of them, written down a second time in faults.py, for about half a minute.
# shellcheck source=tests/common.bash
. "$(dirname -- "$0")/common.bash"
check_by_python faults.py "an answer isn't what docs/LANGUAGE.md says of the text"
