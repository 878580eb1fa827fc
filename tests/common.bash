# What the checks tests/*.sh share: they source it, and it leaves them at the top of the repository with the program built.
# A check counts by `passed` and `failed`, and ends by `finish`.
set -u
cd "$(dirname -- "${BASH_SOURCE[0]}")/.." || exit 1

passes=0
failures=0
# The status of the run that `compare_run` looks at.
ended=0

# A folder for what the program writes; it goes when the check ends.
work=$(mktemp -d) || exit 1
trap 'rm -rf -- "$work"' EXIT

passed() {
    passes=$((passes + 1))
}

failed() {
    failures=$((failures + 1))
    printf 'FAILED: %s\n' "$*"
}

skipped() {
    printf 'skipped: %s\n' "$*"
}

finish() {
    printf 'cases as wanted: %d of %d\n' "$passes" "$((passes + failures))"
    [ "$failures" -eq 0 ]
    exit
}

# Builds the program once, so that no case below has to; standard error reports the build.
build_program() {
    bin/pepaprobe steps <examples/two-ways.pepa >/dev/null
    case $? in
        126 | 127)
            failed "the program isn't built"
            finish
            ;;
    esac
}

# As compare_run TITLE STATUS OUT ERR: compares the run that ended with the status $ended, and wrote $work/out and $work/err,
# with the status and the two files that are wanted. A crash has a status of 128 or more, which nothing wants.
compare_run() {
    if [ "$ended" -ne "$2" ]; then
        failed "$1: status $ended in place of $2; on standard error: $(head -c 200 "$work/err")"
    elif ! cmp -s "$3" "$work/out"; then
        failed "$1: standard output differs from what is wanted:"
        diff "$3" "$work/out" | head -n 20
    elif ! cmp -s "$4" "$work/err"; then
        failed "$1: standard error is '$(head -c 200 "$work/err")' in place of '$(head -c 200 "$4")'"
    else
        passed
    fi
}

# As check_by_python SCRIPT COMPLAINT [ARGUMENT..]: the whole check is that tests/SCRIPT finds nothing wrong. Without arguments it gets the
# program and the examples.
check_by_python() {
    script=$1 complaint=$2
    shift 2
    [ $# -gt 0 ] || set -- crates/pepaprobe_main/out/pepaprobe_main examples/*.pepa
    if ! command -v python3 >/dev/null 2>&1; then
        skipped "python3 isn't installed"
        exit 0
    fi
    build_program
    if python3 "tests/$script" "$@"; then
        passed
    else
        failed "$complaint"
    fi
    finish
}

# As rows_by_python SCRIPT FILE COMPLAINT: the whole check is that the rows of FILE, a crate's tests, are those of tests/SCRIPT.
rows_by_python() {
    if ! command -v python3 >/dev/null 2>&1; then
        skipped "python3 isn't installed"
        exit 0
    fi
    if python3 "tests/$1" "$2"; then
        passed
    else
        failed "$3"
    fi
    finish
}
