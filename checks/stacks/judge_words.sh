#!/usr/bin/env bash
# What framehop-stacks says, command by command, to be read beside what perf says: judge_words.sh PROGRAM FOLDER
#
# Records two processes into FOLDER, of which one is in the vdso and the other deeper than the copy of its stack, and prints of these
# and of the files in crates/framehop_stacks_cli/data each command, the first lines of its output, its status and all that it says. Of a
# file in FOLDER that ends in `.js`, which node runs, it names functions by the map that node writes. Needs gcc, perf and the built PROGRAM.
set -u
here=$(dirname "$(realpath -- "${BASH_SOURCE[0]}")") || exit 2
[ $# -eq 2 ] || { sed -n 2p "$0" >&2; exit 2; }
program=$(realpath -- "$1") made=$(realpath -- "$2")
cd "$here/../../crates/framehop_stacks_cli/data" || exit 2

# asked LINES ARGUMENT..: the program's output, of which so many lines are printed, and what it says.
asked() {
    local lines=$1
    shift
    echo "\$ framehop-stacks ${*//$made/FOLDER}"
    "$program" "$@" 2>"$made/said" | cut -c1-160 | head -n "$lines"
    echo "status ${PIPESTATUS[0]}"
    sed 's/^/    /' "$made/said"
}

cat >"$made/clock.c" <<'END'
#include <time.h>
int main(void) { struct timespec now; long sum = 0; for (long n = 0; n < 3000000; n++) { clock_gettime(CLOCK_MONOTONIC, &now); sum += now.tv_nsec; } return sum == 1; }
END
cat >"$made/deep.c" <<'END'
__attribute__((noinline)) long deep(int n) { volatile char room[100]; room[n % 100] = n; if (n) return deep(n - 1) + room[n % 100]; volatile long sum = 0; for (long i = 0; i < 30000000; i++) sum += i; return sum; }
int main(void) { return deep(40) == 1; }
END
for name in clock deep; do gcc -O2 -o "$made/$name" "$made/$name.c" || exit 2; done
perf record -q -B -N -e cpu-clock -F 199 --call-graph dwarf,4096 -o "$made/clock.data" "$made/clock" || exit 2
perf record -q -e cpu-clock -F 199 --call-graph dwarf,1024 -o "$made/deep.data" "$made/deep" || exit 2

asked 3 "$made/clock.data"
asked 1 "$made/deep.data"
asked 0 --frames "$made/deep.data"
asked 2 --root . --exec srv/tiny crash.core
asked 2 --root . --exec usr/nothing crash.core
asked 2 --root . --comm nosuch tiny.data
asked 2 --root . crash.dmp
asked 2 unlinked.core
asked 0 --root . --by-thread --speedscope made-up.data
"$program" --root . --by-thread --speedscope made-up.data 2>/dev/null | python3 -c 'import json, sys; print([it["name"] for it in json.load(sys.stdin)["profiles"]])'
echo '$ framehop-stacks --root . --frames tiny.data | head -n 1'
"$program" --root . --frames tiny.data 2>/dev/null | head -n 1
echo "status ${PIPESTATUS[0]}"
for script in "$made"/*.js; do
    [ -e "$script" ] || continue
    (cd "$made" && perf record -q -e cpu-clock -F 99 --call-graph dwarf,16384 -o node.data node --perf-basic-prof "$script" >/dev/null) || exit 2
    asked 0 "$made/node.data"
    "$program" "$made/node.data" 2>/dev/null | grep -o 'JS:[^;]*' | sort | uniq -c | sort -rn | head -n 5
done
