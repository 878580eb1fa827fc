#!/usr/bin/env bash
# Compares the replications that `replication_tests` expects with those of replications.py, which has the chains of their models and the
# ChaCha of draws.py. It needs no program.
# shellcheck source=tests/common.bash
. "$(dirname -- "$0")/common.bash"
rows_by_python replications.py crates/replication_tests/src/runs.rt "a replication isn't that of the rules"
