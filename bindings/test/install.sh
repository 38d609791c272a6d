#!/usr/bin/env bash
# What tools/install.sh installs, tried as its user would: install.sh, anywhere in a clone.
#
# Debian packages: clang pkg-config python3 man-db. What is not built, tools/install.sh builds first.
set -eu -o pipefail
top=$(cd "$(dirname "$0")/../.." && pwd)
work=$(mktemp -d)
trap 'rm -rf "$work"' EXIT
prefix=$work/prefix
mkdir "$prefix"
touch "$prefix/of-another"
"$top/tools/install.sh" "$prefix"

# nothing is outside of PREFIX, and all is in the list
[ "$(ls "$work")" = prefix ]
installed() { cd "$prefix" && find . -type f | sed 's/^..//' | sort; }
diff <(installed) <((cat "$prefix/share/doc/framehop/files"; echo of-another; echo share/doc/framehop/files) | sort)

for program in "$prefix"/bin/framehop-{walk,explain,stacks,check}; do
    page=$prefix/share/man/man1/$(basename "$program").1.gz
    man --warnings -E UTF-8 -l "$page" 2>"$work/warnings" >"$work/page"
    [ ! -s "$work/warnings" ] && grep -q "^SYNOPSIS" "$work/page"
    for option in $("$program" --help 2>/dev/null | grep -oE '^ +(-[a-zA-Z], )?--[a-z-]+' | grep -oE -- '--[a-z-]+'); do
        grep -qE -- "^ +(-[a-zA-Z], )?$option\b" "$work/page"
    done
    version=$(sed -n 's/^version = "\(.*\)"/\1/p' "$top/bindings/rust/Cargo.toml")
    "$program" --version | grep -qxE "$(basename "$program") $version \(commit ([0-9a-f]{11}[0-9a-f+]|unknown     )\)"
    echo "$(basename "$program"): its manual page has all options, and it says the version with the commit"
done

# --demangle, where c++filt is found and where it is not, also through a symbolic link
ln -s "$prefix/bin/framehop-stacks" "$work/link"
printf 'main;_ZN4Tree4growEi 2\nmain;_ZN4Tree4growEv 1\n' >"$work/folded"
mkdir "$work/path"
for tool in dirname realpath; do ln -s "$(command -v $tool)" "$work/path/$tool"; done
ln -s "$(python3 -c 'import sys; print(sys.executable)')" "$work/path/python3"
status=0
PATH=$work/path "$work/link" --demangle "$work/folded" 2>"$work/errors" || status=$?
[ $status = 2 ] && grep -q 'needs c++filt' "$work/errors"
"$work/link" "$work/folded" | diff "$work/folded" -
if command -v c++filt >/dev/null; then
    "$work/link" --demangle "$work/folded" | diff <(printf 'main;Tree::grow() 1\nmain;Tree::grow(int) 2\n') -
fi
rm -rf "$work/link" "$work/folded" "$work/path" "$work/errors"
echo "framehop-stacks --demangle runs c++filt, and says so where there is none"

# the recordings of a folder, by workers, where Dask's scheduler is there
if python3 -c 'import distributed' 2>/dev/null; then
    data=$top/crates/framehop_stacks_cli/data
    "$prefix/bin/framehop-stacks-dask" --workers 2 --root "$data" "$data" 2>/dev/null | diff "$top/checks/stacks/both.folded" -
    echo "framehop-stacks-dask prints the stacks of two recordings"
fi

export PKG_CONFIG_PATH=$prefix/lib/pkgconfig PYTHONPATH=$prefix/lib/python3/dist-packages PYTHONDONTWRITEBYTECODE=1
python3 "$top/bindings/test/make_stack.py" "$top/examples/libm-walk.json" >"$work/stack.h"
# shellcheck disable=SC2046
clang -I"$work" "$top/bindings/test/walk.c" $(pkg-config --cflags --libs framehop) -o "$work/walk"
"$work/walk" | diff - <(grep -E '^(ip|ra|end)' "$top/examples/libm-walk.expected")
[ "$(pkg-config --modversion framehop)" = "$(python3 -c 'import framehop; framehop.Unwinder().close(); print(framehop.library_version())')" ]
echo "a program in C is linked by pkg-config, and Python imports the module"
if command -v cargo >/dev/null; then
    FRAMEHOP_LIB=$prefix/lib CARGO_TARGET_DIR=$work/target cargo test --offline --quiet --tests --manifest-path "$top/bindings/rust/Cargo.toml" >"$work/cargo" 2>&1 ||
        { cat "$work/cargo"; exit 1; }
    rm -rf "$work/target" "$work/cargo"
    echo "the crate for Rust passes its tests over the installed archive"
fi

"$top/tools/install.sh" --uninstall "$prefix"
[ "$(installed)" = of-another ]
DESTDIR=$work/root "$top/tools/install.sh" /usr >/dev/null 2>&1
[ "$(ls "$work/root")" = usr ]
! grep -rq "$work" "$work/root/usr/lib/pkgconfig" 2>/dev/null
echo "all is removed again, and below DESTDIR nothing names it"
