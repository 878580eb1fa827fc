#!/usr/bin/env bash
# Compares `pepaprobe steps` on the models of examples/ and on random ones with Hillston's rules, written down a second time in
# rules.py, for half a minute at most.
# shellcheck source=tests/common.bash
. "$(dirname -- "$0")/common.bash"
check_by_python rules.py "an answer isn't that of the rules"
