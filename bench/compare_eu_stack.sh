#!/usr/bin/env bash
# compare_eu_stack.sh CORE [EXEC]: compares `framehop-stacks` with `eu-stack --core` on a core file, of the program EXEC if that is not found.
#
# Prints how many frames are the same (checks/stacks/judge_dumps.py), and of each the least processor time and the most memory of three
# runs. In the environment, ROUNDS=N runs each N times, and PROGRAM names another program than the built one. Needs eu-stack, GNU time
# and python3.
set -eu
top=$(cd "$(dirname "${BASH_SOURCE[0]}")/.." && pwd)
ours=${PROGRAM:-$top/out/framehop-stacks}
[ -x "$ours" ] || { echo "compare_eu_stack.sh: run ./framehop-stacks once, which builds the program" >&2; exit 1; }
[ $# -eq 1 ] || [ $# -eq 2 ] || { sed -n '2p' "$0" >&2; exit 2; }
made=$(mktemp -d)
trap 'rm -rf "$made"' EXIT
theirs=(eu-stack --core "$1") here=("$ours" "$1")
[ $# -eq 1 ] || { theirs+=(-e "$2") here=("$ours" --exec "$2" "$1"); }

# The least processor time and the most memory of a command whose output goes nowhere.
measured() {
    for _ in $(seq "${ROUNDS:-3}"); do /usr/bin/time -f '%U %S %M' -a -o "$made/times" "$@" >/dev/null 2>&1 || true; done
    awk 'NF == 3 { if (!seen++ || $1 + $2 < cpu) cpu = $1 + $2; if ($3 > memory) memory = $3 } END { printf "processor %.2f s, %.0f MB", cpu, memory / 1024 }' "$made/times"
    rm "$made/times"
}

ln -s "$(realpath -- "$1")" "$made/core"
"${theirs[@]}" 2>/dev/null | awk '/^TID/ { thread = $2 + 0 } /^#/ { sub("#", "", $1); print thread " " $1 ": " $2 }' >"$made/core.frames" || true
python3 "$top/checks/stacks/judge_dumps.py" "$ours" "$made" || true
echo "framehop-stacks: $(measured "${here[@]}")"
echo "eu-stack: $(measured "${theirs[@]}")"
