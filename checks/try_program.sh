#!/usr/bin/env bash
# Runs the built program with arguments, which its stored run has none of: try_program.sh PROGRAM [TESTS..].
#
# PROGRAM is what `rt run` in crates/framehop_walk_cli builds. Each run's status, output and error line are compared with
# what is wanted, and whether it has read standard input. Then each allocation of runs on the examples is refused in turn
# (checks/refuse_allocations.sh), and, where built tests are given, each one of those of them that are about memory
# (checks/refuse_allocations_in_tests.sh). Status 0 where all is as it should be.
set -u
checks=$(dirname "$(realpath -- "${BASH_SOURCE[0]}")") || exit 2
[ $# -ge 1 ] || { echo "usage: $0 PROGRAM [TESTS..]" >&2; exit 2; }
program=$(realpath -- "$1") || exit 2
cli=$checks/../crates/framehop_walk_cli
examples=$checks/../examples
work=$(mktemp -d) || exit 1
trap 'rm -rf "$work"' EXIT
cp "$cli/stdin" "$work/input" && cp "$cli/stdout" "$work/replies" || exit 1
: >"$work/nothing"
echo unread >"$work/other"
failed=0

# Runs the program with these arguments, standard input from a file. What it leaves of that is in $work/left.
run() {
    local input=$1
    shift
    (cd "$work" && { "$program" "$@" >out 2>err; echo $? >status; cat >left; } <"$input")
}

# Compares the last run with what is wanted: a name for it, its status, the file of its output, its error line and what it
# leaves of standard input.
is() {
    printf '%s' "${4:+framehop-walk: $4
}" >"$work/line"
    if [ "$(cat "$work/status")" = "$2" ] && cmp -s "$work/out" "$3" && cmp -s "$work/err" "$work/line" && cmp -s "$work/left" "$5"; then
        return
    fi
    echo "$1: status $(cat "$work/status") and not $2, or another output; error output: $(cat "$work/err")" >&2
    failed=1
}

run "$work/input" && is "standard input" 0 "$work/replies" "" "$work/nothing"
run "$work/other" input && is "a file" 0 "$work/replies" "" "$work/other"
run "$work/other" missing && is "a missing file" 1 "$work/nothing" "cannot read input" "$work/other"
run "$work/other" . && is "a folder" 1 "$work/nothing" "cannot read input" "$work/other"
run "$work/other" "" && is "an empty name" 1 "$work/nothing" "cannot read input" "$work/other"
run "$work/other" $'\xff' && is "a name that is not UTF-8" 1 "$work/nothing" "cannot read input" "$work/other"
run "$work/other" other && is "a file that is not JSON" 1 "$work/nothing" "input refused: not JSON" "$work/other"
# (the commit is there where tools/stamp.sh has written it)
run "$work/other" --version && {
    grep -xE 'framehop-walk [0-9]+\.[0-9]+\.[0-9]+ \(commit ([0-9a-f]{11}[0-9a-f+]|unknown     |\.{12})\)' "$work/out" >"$work/version"
    is "the version" 0 "$work/version" "" "$work/other"
}
run "$work/other" input input && is "two arguments" 1 "$work/nothing" "usage: framehop-walk [FILE]" "$work/other"
run "$work/other" input missing - && is "three arguments" 1 "$work/nothing" "usage: framehop-walk [FILE]" "$work/other"

if [ -w /dev/full ]; then
    (cd "$work" && { "$program" input >/dev/full 2>err; echo $? >status; })
    : >"$work/out" && cp "$work/nothing" "$work/left"
    is "an output that is full" 1 "$work/nothing" "cannot write output" "$work/nothing"
fi
[ "$failed" = 0 ] || exit 1
echo "the runs with arguments are as they should be"

"$checks/refuse_allocations.sh" "$program" "$examples"/{new,add,clone,remove,stats,step,walk}.json || exit 1
[ $# -lt 2 ] || "$checks/refuse_allocations_in_tests.sh" "${@:2}" || exit 1
