#!/usr/bin/env bash
# Installs what is built: install.sh PREFIX; install.sh --uninstall PREFIX.
#
# Into PREFIX go the programs (bin) and their manual pages (share/man/man1), what framehop-stacks is made of (lib/framehop), the
# script that runs it on many recordings (bin/framehop-stacks-dask), the archive for C with the kit's shims of malloc in it
# (lib/libframehop.a), its header, its file for pkg-config, the same as a shared library (lib/libframehop.so.0, by cc), the Python module
# over that (lib/python3/dist-packages), and in share/doc/framehop pages with the public items and definitions of all libraries, and the
# licences. Nothing is written outside of PREFIX; with DESTDIR, as packagers have it, all goes below that folder first. What was
# installed is listed in PREFIX/share/doc/framehop/files, by which it is removed again. What is not built yet, tools/build.sh builds
# first: it says what that takes.
set -eu -o pipefail
top=$(cd "$(dirname "$(realpath -- "${BASH_SOURCE[0]}")")/.." && pwd)

usage() { sed -n 2p "$0" | sed 's/^# /usage: /' >&2; exit 2; }
say() { echo "install.sh: $*" >&2; }

removes=
if [ "${1:-}" = --uninstall ]; then removes=1; shift; fi
[ $# = 1 ] && [ "${1#/}" != "$1" ] || usage
prefix=${1%/}
root=${DESTDIR:-}$prefix
list=$root/share/doc/framehop/files
version=$(sed -n 's/^version = "\(.*\)"/\1/p' "$top/bindings/rust/Cargo.toml")

remove() {
    local file
    [ -f "$list" ] || { say "there is no $list: nothing was installed there"; exit 1; }
    while read -r file; do rm -f -- "$root/$file"; done <"$list"
    rm -f -- "$list"
    find "$root/share/doc/framehop" "$root/lib/framehop" -depth -type d -empty -delete 2>/dev/null || true
}

# Installs a file under its name in PREFIX, with these permissions.
put() {
    install -D -m "$1" -- "$2" "$root/$3"
    echo "$3" >>"$work/files"
}

# The manual page of a program, which its --help says.
put_manual() {
    python3 "$top/tools/man.py" "$top/out/$1" | gzip -9n >"$work/$1.1.gz"
    put 644 "$work/$1.1.gz" "share/man/man1/$1.1.gz"
}

# framehop-stacks is a script that starts the program: with --demangle, --inlines and --lines by way of other tools, which the program
# can't start itself.
put_stacks() {
    cat >"$work/framehop-stacks" <<'SCRIPT'
#!/bin/sh
# Starts framehop-stacks; with --demangle, --inlines and --lines other tools are asked for names and lines.
folder=$(dirname -- "$(realpath -- "$0")")/../lib/framehop
for argument; do
    case $argument in --demangle | --inlines | --lines) exec python3 "$folder/names.py" "$folder/framehop-stacks" "$@" ;; esac
done
exec "$folder/framehop-stacks" "$@"
SCRIPT
    put 755 "$work/framehop-stacks" bin/framehop-stacks
    put 755 "$top/out/framehop-stacks" lib/framehop/framehop-stacks
    put 755 "$top/tools/names.py" lib/framehop/names.py
    put 644 "$top/tools/blocks.py" lib/framehop/blocks.py
    put 644 "$top/tools/lines.py" lib/framehop/lines.py
    put 755 "$top/tools/stacks_dask.py" bin/framehop-stacks-dask
}

# A shared library of the archive. No file libframehop.so is installed: so -lframehop is the archive, and a program that is linked by it
# runs anywhere.
make_shared_library() {
    "${CC:-cc}" -shared -o "$work/libframehop.so.0" -Wl,-soname,libframehop.so.0 -Wl,-z,defs \
        "-Wl,--version-script=$top/bindings/framehop.map" -Wl,--whole-archive "$top/out/libframehop.a" -Wl,--no-whole-archive
}

pkg_config() {
    printf '%s\n' "prefix=$prefix" 'includedir=${prefix}/include' 'libdir=${prefix}/lib' '' 'Name: framehop' \
        'Description: A stack frame unwinder for profilers and crash readers' "Version: $version" \
        'Cflags: -I${includedir}' 'Libs: -L${libdir} -lframehop'
}

# How a contract is read, the public items of all libraries, and the definitions of their contracts.
put_pages() {
    local page
    python3 "$top/tools/api.py" --plain "$work/pages/api" >/dev/null
    python3 "$top/tools/definitions.py" --plain "$work/pages" >/dev/null
    cp "$top/docs/READING.md" "$work/pages"
    find "$work/pages" -name '*.md' -printf '%P\n' | sort >"$work/listed"
    while read -r page; do put 644 "$work/pages/$page" "share/doc/framehop/$page"; done <"$work/listed"
}

if [ -n "$removes" ]; then remove; exit; fi
"$top/tools/build.sh"
work=$(mktemp -d)
trap 'rm -rf "$work"' EXIT
for name in walk explain check; do put 755 "$top/out/framehop-$name" "bin/framehop-$name"; done
put_stacks
for name in walk explain stacks check; do put_manual "framehop-$name"; done
make_shared_library
pkg_config >"$work/framehop.pc"
put 644 "$top/out/libframehop.a" lib/libframehop.a
put 644 "$work/libframehop.so.0" lib/libframehop.so.0
put 644 "$top/bindings/python/framehop.py" lib/python3/dist-packages/framehop.py
put 644 "$top/bindings/include/framehop.h" include/framehop.h
put 644 "$work/framehop.pc" lib/pkgconfig/framehop.pc
put_pages
for name in LICENSE-APACHE LICENSE-MIT; do put 644 "$top/$name" "share/doc/framehop/$name"; done
install -m 644 -- "$work/files" "$list"
