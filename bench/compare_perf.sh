#!/usr/bin/env bash
# compare_perf.sh RECORDING..: compares `framehop-stacks` with `perf script` on recordings of `perf record --call-graph dwarf`.
#
# For each recording: how many stacks are the same (compare_stacks.py), and the least wall-clock and processor time and the most memory
# of three runs of each, in which perf prints what it needs for a flame graph (`-F ip,sym`). In the environment, ROUNDS=N runs each N
# times, SHOWN=N shows N stacks that contradict one another, and PROGRAM names another program than the built one. Needs perf, GNU time
# and python3, and the program built: the first run of ./framehop-stacks builds it.
set -eu
top=$(cd "$(dirname "${BASH_SOURCE[0]}")/.." && pwd)
ours=${PROGRAM:-$top/out/framehop-stacks}
[ -x "$ours" ] || { echo "compare_perf.sh: run ./framehop-stacks once, which builds the program" >&2; exit 1; }
[ $# -gt 0 ] || { sed -n '2p' "$0" >&2; exit 2; }
made=$(mktemp -d)
trap 'rm -rf "$made"' EXIT

# The least seconds by the clock, the least of the processor, and the most memory of a command whose output goes nowhere.
measured() {
    for _ in $(seq "${ROUNDS:-3}"); do /usr/bin/time -f '%e %U %S %M' -a -o "$made/times" "$@" >/dev/null 2>&1 || true; done
    awk 'NF == 4 { if (!seen++ || $1 < clock) clock = $1; if (seen == 1 || $2 + $3 < cpu) cpu = $2 + $3; if ($4 > memory) memory = $4 }
        END { printf "%.2f s, processor %.2f s, %.0f MB", clock, cpu, memory / 1024 }' "$made/times"
    rm "$made/times"
}

for recording in "$@"; do
    echo "== $recording, $(stat -c %s "$recording") bytes"
    "$ours" --frames "$recording" >"$made/ours" 2>"$made/said" || true
    perf script --no-inline --ns --show-mmap-events -F comm,pid,tid,time,ip,sym,uregs -i "$recording" >"$made/perf" 2>/dev/null || true
    python3 "$top/bench/compare_stacks.py" "$made/perf" "$made/ours" "${SHOWN:-0}"
    echo "framehop-stacks: $(measured "$ours" "$recording")"
    echo "perf script -F ip,sym: $(measured perf script --no-inline -F ip,sym -i "$recording")"
done
