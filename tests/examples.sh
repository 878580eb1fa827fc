#!/usr/bin/env bash
# Runs `pepaprobe steps` on each model of examples/, and `pepaprobe check` and `pepaprobe print` where their answers are known,
# and compares the bytes of both streams and the status with the files beside it, which were worked out by hand
# (examples/README.md). What is printed is printed again, and must be the same bytes. Where there are words of `run`, the answer is that of
# a second program (runs.py).
# shellcheck source=tests/common.bash
. "$(dirname -- "$0")/common.bash"
build_program

: >"$work/nothing"
bin/pepaprobe run --runs 1 <examples/two-ways.pepa >/dev/null 2>&1
[ $? -ne 2 ] && takes_run=yes || takes_run=
[ -n "$takes_run" ] || skipped "answers of run: the program doesn't take it yet"
count=0
for model in examples/*.pepa; do
    [ -f "$model" ] || continue
    count=$((count + 1))
    base=${model%.pepa}
    wanted=0
    [ ! -f "$base.status" ] || wanted=$(cat "$base.status")
    wanted_out=$base.steps
    [ -f "$wanted_out" ] || wanted_out=$work/nothing
    wanted_err=$base.err
    [ -f "$wanted_err" ] || wanted_err=$work/nothing

    if [ "$wanted" -eq 0 ] && [ ! -f "$base.steps" ]; then
        failed "$model: there is no $base.steps beside it"
        continue
    fi
    bin/pepaprobe steps <"$model" >"$work/out" 2>"$work/err"
    ended=$?
    compare_run "$model" "$wanted" "$wanted_out" "$wanted_err"

    if [ -f "$base.check" ]; then
        bin/pepaprobe check <"$model" >"$work/out" 2>"$work/err"
        ended=$?
        compare_run "check of $model" 0 "$base.check" "$work/nothing"
    fi
    if [ -n "$takes_run" ] && [ -f "$base.words" ]; then
        read -ra words <"$base.words"
        bin/pepaprobe "${words[@]}" <"$model" >"$work/out" 2>"$work/err"
        ended=$?
        compare_run "${words[*]} of $model" 0 "$base.run" "$work/nothing"
    fi
    if [ -f "$base.print" ]; then
        for text in "$model" "$base.print"; do
            bin/pepaprobe print <"$text" >"$work/out" 2>"$work/err"
            ended=$?
            compare_run "print of $text" 0 "$base.print" "$work/nothing"
        done
    fi
done
[ "$count" -gt 0 ] || failed "examples/ has no model"

# Each file beside a model belongs to one.
for file in examples/*.steps examples/*.check examples/*.print examples/*.words examples/*.run examples/*.status examples/*.err; do
    [ -f "$file" ] || continue
    [ -f "${file%.*}.pepa" ] || failed "$file: there is no model ${file%.*}.pepa"
done
finish
