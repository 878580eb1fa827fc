#!/usr/bin/env bash
# Compares the numbers of streams and the draws from them that the tests of `sim_draws` expect with those of draws.py, which has
# a ChaCha of its own. It needs no program.
# shellcheck source=tests/common.bash
. "$(dirname -- "$0")/common.bash"
rows_by_python draws.py crates/draw_tests/src/streams.rt "a number or a draw isn't that of the rules"
