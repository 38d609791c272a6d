#!/usr/bin/env bash
# Makes a Debian package of what is built: package.sh [FOLDER]. The package, framehop_VERSION_ARCH.deb, is written to FOLDER, or here.
#
# It has what install.sh installs below /usr. What is not built yet is built first.
set -eu -o pipefail
tools=$(dirname "$(realpath -- "${BASH_SOURCE[0]}")")
folder=$(realpath -- "${1:-.}")
version=$(sed -n 's/^version = "\(.*\)"/\1/p' "$tools/../bindings/rust/Cargo.toml")
work=$(mktemp -d)
trap 'rm -rf "$work"' EXIT
DESTDIR=$work "$tools/install.sh" /usr
mkdir "$work/DEBIAN"
cat >"$work/DEBIAN/control" <<CONTROL
Package: framehop
Version: $version
Architecture: $(dpkg --print-architecture)
Maintainer: Sevoluman maintainers <maintainers@users.noreply.sevoluman.example>
Depends: libc6
Suggests: python3, binutils, llvm, python3-distributed
Section: devel
Priority: optional
Description: A stack frame unwinder for profilers and crash readers
 Folded stacks and flame graphs of recordings by perf, the stacks of core files
 and minidumps, where each frame came from, and unwind data checked against
 code; with an archive for C and a module for Python.
CONTROL
dpkg-deb --root-owner-group --build "$work" "$folder/framehop_${version}_$(dpkg --print-architecture).deb"
