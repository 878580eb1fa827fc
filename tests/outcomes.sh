#!/usr/bin/env bash
# Compares the outcomes that `workers_tests` expects with those of outcomes.py, which has the chains of their models and the replications
# of replications.py. It needs no program.
# shellcheck source=tests/common.bash
. "$(dirname -- "$0")/common.bash"
rows_by_python outcomes.py crates/workers_tests/src/alone.rt "an outcome isn't that of the rules"
