#!/usr/bin/env bash
# Proves and builds what install.sh and package.sh install: build.sh [--keep].
#
# The four programs go to out/, and the archive for C, with the kit's shims of malloc in it, to out/libframehop.a. What is built and newer
# than all sources is not built again. What it takes is said before it begins, and how far it is while it runs. After an interrupt, which
# ends all proofs that run, the next run proves what is left. What was proved here is removed once all is built; --keep keeps it, so that
# after a change only that and what stands on it are proved again.
set -u
top=$(cd "$(dirname "$(realpath -- "${BASH_SOURCE[0]}")")/.." && pwd) || exit 1
name=build.sh
alone=
. "$top/tools/prove.sh"

# What a run from nothing takes: minutes on four processors, and GB of disk while it runs, with --keep, and in the end.
MINUTES='30 to 60' RUNNING=10 KEPT=19 LEFT=0.1

keep=
if [ "${1:-}" = --keep ]; then keep=1; shift; fi
[ $# = 0 ] || { sed -n 2p "$0" | sed 's/^# /usage: /' >&2; exit 2; }

# One archive of the library's and of the kit's shims of malloc.
make_archive() {
    local kit
    kit=$(dirname "$(dirname "$(readlink -f "$(command -v rt)")")")/c/liblibc_c.a
    printf 'create libframehop.a\naddlib %s\naddlib %s\nsave\nend\n' "$top/crates/framehop_c/out/libframehop_c.a" "$kit" >"$work/script"
    (cd "$work" && ar -M <script) && touch -r "$work/start" "$work/libframehop.a" && mv "$work/libframehop.a" "$top/out/libframehop.a"
}

wanted=()
for program in walk explain stacks check; do
    is_current "$top/out/framehop-$program" || wanted+=("framehop_${program}_cli")
done
is_current "$top/out/libframehop.a" || wanted+=(framehop_c)
if [ "${#wanted[@]}" = 0 ]; then say "all is built"; exit 0; fi
command -v rt >/dev/null || { say "the kit of Rattle is not on the PATH: see \"Start\" in README.md"; exit 1; }
command -v ar >/dev/null || { say "there is no ar (binutils), which makes the archive for C"; exit 1; }
say "from nothing this takes $MINUTES minutes on 4 processors with 3 GB of memory each, and $RUNNING GB of disk, $LEFT GB of it in the end ($KEPT GB with --keep)"
say "free are $(df -Ph "$top" | awk 'NR == 2 { print $4 }') of disk; $(jobs_here) proofs run side by side"
mkdir -p "$top/out" && work=$(mktemp -d "$top/out/build-XXXXXX") || exit 1
set -m
trap 'rm -rf "$work"' EXIT
trap 'stop 130' INT TERM
touch "$work/start"
prove_all "${wanted[@]}" || exit 1
for crate in "${wanted[@]}"; do
    if [ "$crate" = framehop_c ]; then
        make_archive || exit 1
    else
        program=${crate%_cli}
        take "$top/crates/$crate/out/$crate" "${program/_/-}" "$work/start" || exit 1
    fi
done
[ -n "$keep" ] || forget
say "built: $(cd "$top/out" && echo framehop-{walk,explain,stacks,check} libframehop.a), in $((SECONDS / 60)) minutes; tools/install.sh PREFIX installs them"
