#!/bin/sh
# Compares a core file's frames by framehop.py with framehop-stacks'. The core file is this repository's, the shared library FRAMEHOP_SO.
set -eu
here=$(cd "$(dirname "$0")" && pwd)
top=$here/../..
data=$top/crates/framehop_stacks_cli/data
found=$(python3 "$here/walk_core.py" --root "$data" "$data/crash.core")
frames=$(echo "$found" | sed -n 's/^#[0-9]* 0x0*//p')
expected=$(sed -nE 's/^#[0-9]+ ([0-9a-f]+) .*/\1/p' "$top/checks/stacks/crash.stacks")
if [ "$frames" != "$expected" ]; then
    echo "$found"
    exit 1
fi
echo "framehop.py: $(echo "$frames" | wc -l) frames of a core file as framehop-stacks has them"
