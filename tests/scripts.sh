#!/usr/bin/env bash
# Reads this repository's own scripts: bash and python3 parse them, and shellcheck finds nothing in them, where it is
# installed.
set -u
cd "$(dirname -- "$0")/.." || exit 1

status=0
scripts=(bin/pepaprobe .ci/run tests/*.sh tests/common.bash tests/more-edits/run)
benches=(bench/*-scale bench/*-speed bench/proof-cost)
pythons=("${benches[@]}" tests/fuzz.py tests/rules.py tests/runs.py tests/run_calls.py tests/watches.py tests/faults.py tests/fault_texts.py tests/draws.py tests/probes.py tests/replications.py tests/outcomes.py tests/probe_texts.py tests/summaries.py tests/words.py tests/docs.py tests/definitions.py)
for script in "${scripts[@]}"; do
    bash -n "$script" || status=1
done

if command -v shellcheck >/dev/null 2>&1; then
    shellcheck -x "${scripts[@]}" || status=1
else
    echo "skipped: shellcheck isn't installed"
fi

if command -v python3 >/dev/null 2>&1; then
    python3 -c 'import sys; [compile(open(it).read(), it, "exec") for it in sys.argv[1:]]' "${pythons[@]}" || status=1
else
    echo "skipped: python3 isn't installed"
fi

for script in bin/pepaprobe .ci/run tests/more-edits/run "${benches[@]}"; do
    [ -x "$script" ] || {
        echo "FAILED: $script can't be executed"
        status=1
    }
done
exit "$status"
