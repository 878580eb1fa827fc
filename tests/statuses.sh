#!/usr/bin/env bash
# Runs the program where no file can say what is wanted: wrong words, texts at the limit of length, and standard streams
# that fail. Each status and line is docs/LANGUAGE.md's.
# shellcheck source=tests/common.bash
. "$(dirname -- "$0")/common.bash"
build_program

model=examples/two-ways.pepa
: >"$work/nothing"

# As wanted FILE LINE: writes the one line that standard error is to hold.
wanted_line() {
    printf '%s\n' "$2" >"$work/$1"
}
wanted_line usage 'usage'
wanted_line empty 'model 1:1 expected'
wanted_line spaces 'model 1:1048577 expected'
wanted_line too_long 'model too long'
wanted_line too_many 'model 501:1 too many'
wanted_line read_fault 'read fault'
wanted_line write_fault 'write fault'

# As refused TITLE STATUS LINE_FILE INPUT WORD..: a run that ends with that status, that line and no answer.
refused() {
    title=$1 status=$2 line=$3 input=$4
    shift 4
    bin/pepaprobe "$@" <"$input" >"$work/out" 2>"$work/err"
    ended=$?
    compare_run "$title" "$status" "$work/nothing" "$work/$line"
}

refused 'no words' 2 usage "$model"
refused 'two words' 2 usage "$model" steps steps
refused 'a word and a file' 2 usage "$model" steps "$model"
refused 'an unknown word' 2 usage "$model" step
refused 'a word in capitals' 2 usage "$model" STEPS
refused 'an empty word' 2 usage "$model" ''
refused 'an option' 2 usage "$model" --help
refused 'two commands' 2 usage "$model" check steps
refused 'check and a file' 2 usage "$model" check "$model"

# 2^20 bytes are read, and one more is not.
limit=1048576
head -c "$limit" /dev/zero | tr '\0' ' ' >"$work/at_limit"
{ cat "$work/at_limit" && printf ' '; } >"$work/above_limit"
# A model that is as long as a text may be.
cp "$model" "$work/long_model"
head -c "$((limit - $(wc -c <"$model")))" "$work/at_limit" >>"$work/long_model"
{ cat "$work/long_model" && printf ' '; } >"$work/longer_model"

for command in steps check; do
    refused "$command: the empty text" 3 empty /dev/null "$command"
    refused "$command: 2^20 spaces" 3 spaces "$work/at_limit" "$command"
    refused "$command: 2^20 + 1 spaces" 3 too_long "$work/above_limit" "$command"
    refused "$command: a model of 2^20 + 1 bytes" 3 too_long "$work/longer_model" "$command"
done

bin/pepaprobe steps <"$work/long_model" >"$work/out" 2>"$work/err"
ended=$?
compare_run 'a model of 2^20 bytes' 0 "${model%.pepa}.steps" "$work/nothing"

# A long chain of constants: the right side of each of 500 is the one before it, with the empty set hidden 680 times. These are 340,000
# hidings on each side.
hidden=$(printf '/{}%.0s' {1..680})
{
    printf 'P = (a, 1).P; A0 = P%s;\n' "$hidden"
    for number in {1..499}; do
        printf 'A%d = A%d%s;\n' "$number" "$((number - 1))" "$hidden"
    done
    printf 'A499 || A499\n'
} >"$work/chain"
refused 'a long chain of constants' 3 too_many "$work/chain" steps
refused 'check: a long chain of constants' 3 too_many "$work/chain" check

# The text comes through a pipe, a few bytes at a time.
while IFS= read -r -n 1 byte || [ -n "$byte" ]; do
    printf '%s' "${byte:-$'\n'}"
done <"$model" | bin/pepaprobe steps >"$work/out" 2>"$work/err"
ended=$?
compare_run 'a model in pieces' 0 "${model%.pepa}.steps" "$work/nothing"

# A folder opens, but it can't be read.
refused 'a folder as standard input' 4 read_fault . steps
refused 'check: a folder as standard input' 4 read_fault . check
bin/pepaprobe steps <&- >"$work/out" 2>"$work/err"
ended=$?
compare_run 'standard input closed' 4 "$work/nothing" "$work/read_fault"

: >"$work/out"
bin/pepaprobe steps <"$model" >&- 2>"$work/err"
ended=$?
compare_run 'standard output closed' 5 "$work/nothing" "$work/write_fault"

if [ -c /dev/full ]; then
    bin/pepaprobe steps <"$model" >/dev/full 2>"$work/err"
    ended=$?
    compare_run 'a full disk' 5 "$work/nothing" "$work/write_fault"
else
    skipped 'a full disk: this system has no /dev/full'
fi
finish
