#!/usr/bin/env bash
# Lets one allocation after another fail in built tests: refuse_allocations_in_tests.sh [TESTS..]. TESTS are what `rt ci`
# leaves, or `rt test` in a crate's folder; without any those of framehop_format_vectors, framehop_vectors and
# framehop_rule_vectors. (checks/refuse_allocations.sh does so in the program, in the same way.)
#
# A test of a module `memory` that has had a failure tries again, and so passes. Tests whose names begin with requests_of_
# do not, and fail: two of them, of which one is named as the other with `_and_` and more, make the same things, and the
# second steps and walks besides. Both have equally many allocations, so steps and walks make none. Status 0 where all is so,
# and each of the programs has such a pair.
set -u
checks=$(dirname "$(realpath -- "${BASH_SOURCE[0]}")") || exit 2
[ $# -gt 0 ] || set -- "$checks"/../crates/{framehop_format_vectors/out/framehop_format_vectors,framehop_vectors/out/framehop_vectors,framehop_rule_vectors/out/framehop_rule_vectors}_tests
work=$(mktemp -d) || exit 1
trap 'rm -rf "$work"' EXIT
cc -shared -fPIC -O1 -o "$work/failing.so" "$checks/failing_allocations.c" -ldl || exit 1
ulimit -c 0

# Runs a test in which the allocation of this number fails, none for 0, and says whether it passes.
passes() {
    FAILING_ALLOCATION=$2 ALLOCATIONS=$work/count LD_PRELOAD=$work/failing.so "$tests" "$1" >"$work/out" 2>&1
}

# Lets each allocation of a test fail, and leaves their number in $count.
refuse_each() {
    local number
    passes "$1" 0 || { echo "$1 fails" >&2; return 1; }
    count=$(cat "$work/count")
    for ((number = 1; number <= count; number++)); do
        case $1 in
        *::requests_of_*) ! passes "$1" "$number" ;;
        *) passes "$1" "$number" ;;
        esac || { echo "$1: allocation $number" >&2; cat "$work/out" >&2; return 1; }
    done
}

total=0
for tests in "$@"; do
    tests=$(realpath -- "$tests") && [ -x "$tests" ] || { echo "there is no program $tests" >&2; exit 1; }
    declare -A counts=()
    pairs=0
    for test in $("$tests" --list | sed -nE 's/^(memory::.*|.*::requests_of_.*): test$/\1/p' | sort -u); do
        refuse_each "$test" || exit 1
        counts[$test]=$count
        total=$((total + count))
        first=${test%_and_*}
        if [[ $test == *::requests_of_* && $first != "$test" ]]; then
            echo "$test: $count allocations, as without: ${counts[$first]:-none}"
            [ "$count" -gt 0 ] && [ "$count" = "${counts[$first]:-}" ] || exit 1
            pairs=$((pairs + 1))
        fi
    done
    [ "$pairs" -gt 0 ] || { echo "$tests: no pair of tests" >&2; exit 1; }
done
echo "$total allocations, each refused in turn"
