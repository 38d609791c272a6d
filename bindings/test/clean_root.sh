#!/usr/bin/env bash
# The Debian package, tried in a root that has nothing of this repository and no kit: clean_root.sh ROOT, as root.
#
# ROOT is a folder that `debootstrap --variant=minbase bookworm ROOT` made. The package is made by tools/package.sh of what is built, put
# into ROOT, tried there by chroot, and removed again: each program says its version and does what its stored run or an example has.
# Where ROOT has gcc, pkg-config and python3, a program in C is linked by the archive and walks, as a Python program does.
set -eu -o pipefail
[ $# = 1 ] && [ -x "$1/usr/bin/dpkg" ] || { sed -n 2p "$0" | sed 's/^# /usage: /' >&2; exit 2; }
top=$(cd "$(dirname "$0")/../.." && pwd)
root=$(realpath -- "$1")
work=$(mktemp -d)
inside=/tmp/framehop-tried
trap 'chroot "$root" dpkg -r framehop >/dev/null 2>&1; rm -rf "$work" "$root$inside"' EXIT
version=$(sed -n 's/^version = "\(.*\)"/\1/p' "$top/bindings/rust/Cargo.toml")

# Runs a command in the root, in the folder of what is tried there.
within() { chroot "$root" /bin/sh -c 'cd "$0" && exec "$@"' "$inside" "$@"; }
files() { (cd "$root" && find . -path ./proc -prune -o -path ./sys -prune -o -path ./dev -prune -o -path ./var -prune -o -path ./tmp -prune -o -type f -print | sort); }

if within true 2>/dev/null && chroot "$root" sh -c 'command -v rt' >/dev/null; then echo "clean_root.sh: $root has the kit" >&2; exit 2; fi
files >"$work/before"
"$top/tools/package.sh" "$work" >/dev/null
rm -rf "$root$inside" && mkdir "$root$inside"
cp "$work"/framehop_*.deb "$root$inside/framehop.deb"
cp -r "$top/crates/framehop_stacks_cli/data/." "$root$inside/"
cp "$top"/examples/*.json "$top/examples/libm-walk.expected" "$root$inside/"
within dpkg -i framehop.deb >/dev/null

for program in stacks walk explain check; do
    within "framehop-$program" --version | grep -qxE "framehop-$program $version \(commit ([0-9a-f]{11}[0-9a-f+]|unknown     )\)"
done
echo "each program says its version"

# shellcheck disable=SC2046
within framehop-stacks $(cat "$top/crates/framehop_stacks_cli/args") 2>/dev/null | cmp - "$top/crates/framehop_stacks_cli/stdout"
echo "framehop-stacks: its stored run"
within framehop-walk libm-walk.json | cmp - "$top/examples/libm-walk.expected"
within framehop-explain --elf srv/tiny | grep -q .
within framehop-check srv/tiny >/dev/null || [ $? = 1 ]
echo "framehop-walk, framehop-explain and framehop-check: a run each"

if chroot "$root" sh -c 'command -v gcc && command -v pkg-config' >/dev/null; then
    python3 "$top/bindings/test/make_stack.py" "$top/examples/libm-walk.json" >"$root$inside/stack.h"
    cp "$top/bindings/test/walk.c" "$root$inside/"
    # shellcheck disable=SC2016
    within sh -c 'gcc -I. walk.c $(pkg-config --cflags --libs framehop) -o walk && ./walk' | diff - <(grep -E '^(ip|ra|end)' "$top/examples/libm-walk.expected")
    echo "a program in C, linked by pkg-config"
fi
if chroot "$root" sh -c 'command -v python3' >/dev/null; then
    within python3 -B -c 'import framehop
with framehop.Unwinder("x86_64") as unwinder:
    words = [1, 2, 0x40, 0x1000, 0, 0]
    stack = b"".join(word.to_bytes(8, "little") for word in words)
    print(framehop.library_version(), unwinder.walk({"ip": 0x2000, "sp": 0, "bp": 0x10}, stack).frames)' | grep -qxF "$version [8192, 4096]"
    echo "a program in Python"
fi

within dpkg -r framehop >/dev/null
files >"$work/after"
diff "$work/before" "$work/after"
echo "all is removed again"
