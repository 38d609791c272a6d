#!/usr/bin/env bash
# Writes the commit into a built program: stamp.sh FILE. Its version has a place for it, "(commit ............)", which `--version` prints.
#
# The commit's first 12 digits are written, or 11 and a + where files of the repository differ from it. Without git nothing is known, and
# "unknown" is written. The file keeps its size.
set -eu
[ $# = 1 ] && [ -f "$1" ] || { sed -n 2p "$0" >&2; exit 2; }
top=$(cd "$(dirname "$(realpath -- "${BASH_SOURCE[0]}")")/.." && pwd)
commit=$(git -C "$top" rev-parse --short=12 HEAD 2>/dev/null) || commit='unknown     '
if [ "$commit" != 'unknown     ' ] && ! git -C "$top" diff --quiet HEAD -- 2>/dev/null; then commit=${commit:0:11}+; fi
size=$(stat -c %s -- "$1")
LC_ALL=C sed -i "s/(commit \.\{12\})/(commit ${commit:0:12})/g" -- "$1"
[ "$(stat -c %s -- "$1")" = "$size" ] || { echo "stamp.sh: $1 has another size now" >&2; exit 1; }
