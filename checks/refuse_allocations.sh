#!/usr/bin/env bash
# Lets one allocation after another fail in a built program: refuse_allocations.sh PROGRAM FILE..
#
# A run on a FILE in which an allocation fails ends with status 2, no output and the line "framehop-walk: out of memory";
# the run in which none fails ends with status 0. The allocator's `malloc` and `realloc` are put before those of the C
# library by LD_PRELOAD, so a C compiler is needed. It tries the built program, and not the proofs.
set -u
checks=$(dirname "$(realpath -- "${BASH_SOURCE[0]}")") || exit 2
[ $# -ge 2 ] || { echo "usage: $0 PROGRAM FILE.." >&2; exit 2; }
program=$(realpath -- "$1") || exit 2
shift
work=$(mktemp -d) || exit 1
trap 'rm -rf "$work"' EXIT
cc -shared -fPIC -O1 -o "$work/failing.so" "$checks/failing_allocations.c" -ldl || exit 1
printf 'framehop-walk: out of memory\n' >"$work/line"
: >"$work/nothing"

total=0
for file in "$@"; do
    ALLOCATIONS=$work/count LD_PRELOAD=$work/failing.so "$program" "$file" >"$work/out" 2>"$work/err" ||
        { echo "$file: refused" >&2; exit 1; }
    count=$(cat "$work/count")
    for ((number = 1; number <= count; number++)); do
        FAILING_ALLOCATION=$number LD_PRELOAD=$work/failing.so "$program" "$file" >"$work/out" 2>"$work/err"
        status=$?
        if [ "$status" != 2 ] || ! cmp -s "$work/out" "$work/nothing" || ! cmp -s "$work/err" "$work/line"; then
            echo "$file: allocation $number: status $status" >&2
            exit 1
        fi
    done
    echo "$file: $count allocations"
    total=$((total + count))
done
echo "$total allocations, each refused in turn"
# a program without any does not ask the allocator that was put before it
[ "$total" -gt 0 ]
