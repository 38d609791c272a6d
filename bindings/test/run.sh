#!/bin/sh
# The C interface and the Rust crate, tried: run.sh, anywhere in a clone.
#
# Debian packages: clang g++ valgrind python3 binutils; elfutils and gdb for a core file of this machine; libunwind-dev for
# the profiler's frames (LIBUNWIND has the options by which it is found elsewhere). For the Rust crate cargo 1.85 or newer:
# Debian 12 has an older one, so take it from https://rustup.rs, or from Debian 13. The kit's `rt` builds the archive;
# FRAMEHOP_LIB names the folders of one that is built (libframehop_c.a, and the kit's liblibc_c.a), with a colon between.
set -eu
top=$(cd "$(dirname "$0")/../.." && pwd)
here="$top/bindings/test"
work=$(mktemp -d)
trap 'rm -rf "$work"' EXIT
kit=$(dirname "$(dirname "$(readlink -f "$(command -v rt)")")")

python3 "$here/check_header.py"

if [ -z "${FRAMEHOP_LIB:-}" ]; then
    (cd "$top/crates/framehop_c" && rt lib)
    FRAMEHOP_LIB="$top/crates/framehop_c/out:$kit/c"
fi
export FRAMEHOP_LIB
archives=""
for folder in $(echo "$FRAMEHOP_LIB" | tr : ' '); do
    for archive in "$folder/libframehop_c.a" "$folder/liblibc_c.a"; do
        if [ -f "$archive" ]; then archives="$archives $archive"; fi
    done
done

# the frames of an example, by one call and by a callback
python3 "$here/make_stack.py" "$top/examples/libm-walk.json" > "$work/stack.h"
grep -E '^(ip|ra|end)' "$top/examples/libm-walk.expected" > "$work/expected"
build() { clang -std=c99 -Wall -Wextra -Werror -O1 -gdwarf-4 -I"$top/bindings/include" -I"$work" "$@"; }
build "$here/walk.c" $archives -o "$work/walk"
"$work/walk" > "$work/frames"
diff "$work/frames" "$work/expected"
echo "walk.c: $(grep -c . "$work/frames") lines as expected"

if command -v valgrind > /dev/null; then
    valgrind -q --error-exitcode=9 --leak-check=full --show-leak-kinds=all "$work/walk" > "$work/frames"
    diff "$work/frames" "$work/expected"
    echo "walk.c: no error under valgrind"
fi

build -fsanitize=address,undefined "$here/walk.c" $archives -o "$work/walk-asan"
"$work/walk-asan" > "$work/frames"
diff "$work/frames" "$work/expected"
echo "walk.c: no error under the address sanitizer"

# each request for memory fails in turn: the call that made it returns -1
build -fsanitize=address,undefined -fno-sanitize-recover=undefined -Wl,--wrap=malloc,--wrap=realloc \
    "$here/walk.c" "$here/failing_malloc.c" $archives -o "$work/walk-failing"
requests=$(ASAN_OPTIONS=detect_leaks=0 "$work/walk-failing" 2>&1 > "$work/frames" | sed -n 's/^requests //p')
diff "$work/frames" "$work/expected"
for request in $(seq "$requests"); do
    status=0
    ASAN_OPTIONS=detect_leaks=0:exitcode=9 UBSAN_OPTIONS=exitcode=9 FAIL_AT=$request \
        "$work/walk-failing" > "$work/frames" 2> "$work/errors" || status=$?
    if [ $status != 1 ] || ! grep -qE ': -1$' "$work/errors"; then
        echo "walk.c: request $request fails, and the status is $status"
        exit 1
    fi
done
echo "walk.c: each of $requests requests for memory fails in turn"

# the cases of the gate, by one call and by a callback
build -g -fsanitize=address,undefined "$here/cases.c" $archives -o "$work/cases"
python3 "$here/cases.py" c window "$work/cases"
python3 "$here/cases.py" c callback "$work/cases"
python3 "$here/cases.py" c chunks "$work/cases"
python3 "$here/cases.py" c frames "$work/cases"

# random stacks of frame records
build -fsanitize=address,undefined -fno-sanitize-recover=undefined "$here/random_walks.c" $archives -o "$work/random_walks"
"$work/random_walks" 20000

# a frame takes one call of next_frame, but for the first ones, each of which takes one more for each of its words
for arch in x86_64 aarch64; do
    python3 "$top/bench/make_inputs.py" frame-pointers $arch > "$work/frames.json"
    python3 "$here/cases.py" words "$work/frames.json" may > "$work/words"
    "$work/cases" time 20 < "$work/words" 2> "$work/calls" > "$work/frames"
    grep -qx 'C, calls a frame: 1.0[01]' "$work/calls" || { echo "next_frame: more calls"; exit 1; }
    grep -qx 'C, words a frame: 2.00' "$work/calls" || { echo "walk_with: more words than a frame record's"; exit 1; }
done
echo "next_frame: one call a frame; walk_with: two words a frame"

# a profiler of its own threads, beside libunwind
profiler() { clang -std=gnu11 -Wall -Wextra -Werror -O1 -gdwarf-4 -rdynamic -I"$top/bindings/include" "$top/bindings/examples/profiler.c" $archives "$@"; }
has_stacks() {
    grep -qE '^recurse;.*;recurse_thread;even;odd;even;.*;spin [0-9]+$' "$1" && grep -qE '^sort;.*;sort_thread;(.*;)?compare;spin [0-9]+$' "$1"
}
LIBUNWIND=${LIBUNWIND:--lunwind}
profiler -o "$work/profiler"
"$work/profiler" 500 > "$work/folded"
has_stacks "$work/folded"
echo "profiler.c: $(grep -c . "$work/folded") stacks"
if echo 'int main(void) { return UNW_INIT_SIGNAL_FRAME; }' | clang $LIBUNWIND -include libunwind.h -xc - -o "$work/libunwind" 2> /dev/null; then
    profiler -DWITH_LIBUNWIND $LIBUNWIND -o "$work/profiler-libunwind"
    "$work/profiler-libunwind" 1000 2>&1 > "$work/folded" | sed 's/^/profiler.c: /'
    "$work/profiler-libunwind" 200 > "$work/folded" 2> "$work/errors" || { cat "$work/errors"; exit 1; }
fi
if command -v valgrind > /dev/null; then
    valgrind -q --error-exitcode=9 --leak-check=full --show-leak-kinds=all "$work/profiler" 50 > "$work/folded"
    has_stacks "$work/folded"
    echo "profiler.c: no error under valgrind"
fi
profiler -fsanitize=address,undefined -fno-sanitize-recover=undefined -o "$work/profiler-asan"
"$work/profiler-asan" 200 > "$work/folded"
has_stacks "$work/folded"
echo "profiler.c: no error under the address sanitizer"

# the header, as other compilers read it
for language in c c++; do
    for compiler in gcc g++ clang; do
        if command -v $compiler > /dev/null; then
            echo '#include "framehop.h"' \
                | $compiler -x$language -Wall -Wextra -pedantic -Werror -fsyntax-only -I"$top/bindings/include" -
        fi
    done
done
echo "framehop.h: no warning"

# a shared object, whose symbols have a version, and which Python loads
set -- $archives
first=$1
shift
clang -shared -o "$work/libframehop.so.0" -Wl,-soname,libframehop.so.0 -Wl,-z,defs \
    "-Wl,--version-script=$top/bindings/framehop.map" -Wl,--whole-archive "$first" -Wl,--no-whole-archive "$@"
exported=$(nm -D --defined-only "$work/libframehop.so.0" | sed -n 's/.* T \(.*\)@@FRAMEHOP_0.16$/\1/p' | sort)
declared=$(grep -oE '^(u?int32_t|void) framehop_\w+' "$top/bindings/include/framehop.h" | sed 's/.* //' | sort)
[ "$exported" = "$declared" ] || { echo "libframehop.so.0 exports $exported"; exit 1; }
[ "$(nm -D --defined-only "$work/libframehop.so.0" | grep -vc ' A ')" = "$(echo "$exported" | wc -l)" ]
python3 "$here/walk.py" "$work/libframehop.so.0" "$top/examples/libm-walk.json" > "$work/frames"
diff "$work/frames" "$work/expected"
echo "walk.py: $(grep -c . "$work/frames") lines as expected"

# the Python module over it: a core file of this repository as framehop-stacks has it, and one of this machine as eu-stack has it
export FRAMEHOP_SO="$work/libframehop.so.0"
python3 "$here/framehop_py.py" 2> "$work/errors" || { cat "$work/errors"; exit 1; }
core() { python3 "$here/walk_core.py" "$@" > "$work/stacks"; }
"$here/compare_core.sh"
if command -v gcore > /dev/null && command -v eu-stack > /dev/null; then
    "$work/profiler" 1000000 > /dev/null &
    profiled=$!
    sleep 1
    if gcore -o "$work/core" $profiled > "$work/gcore" 2>&1; then
        core "$work/core.$profiled"
        grep -v '^# ' "$work/stacks" > "$work/frames"
        eu-stack --core="$work/core.$profiled" -e "$work/profiler" 2> /dev/null \
            | sed -nE 's/^(TID [0-9]+:|#[0-9]+ +0x[0-9a-f]+).*/\1/p' | tr -s ' ' | diff - "$work/frames"
        echo "framehop.py: $(grep -c '^#' "$work/frames") frames of $(grep -c '^TID' "$work/frames") threads as eu-stack has them"
        if [ -x "$top/out/framehop-stacks" ]; then
            "$top/out/framehop-stacks" "$work/core.$profiled" | sed -nE 's/^#[0-9]+ ([0-9a-f]+) .*/\1/p' > "$work/expected"
            sed -n 's/^#[0-9]* 0x0*//p' "$work/stacks" | diff "$work/expected" -
            echo "framehop.py: the same frames as framehop-stacks has them"
        fi
    fi
    kill $profiled
    wait $profiled 2> /dev/null || true
    rm -f "$work/core.$profiled"
fi

if command -v cargo > /dev/null; then
    export CARGO_TARGET_DIR="${CARGO_TARGET_DIR:-$work/target}"
    cd "$top/bindings/rust"
    if cargo clippy --version > /dev/null 2>&1; then
        cargo clippy --offline --quiet --all-targets -- -D warnings
        echo "Rust: no warning"
    fi
    cargo test --offline --quiet
    cargo build --offline --quiet --example cases
    python3 "$here/cases.py" rust window "$CARGO_TARGET_DIR/debug/examples/cases"
    python3 "$here/cases.py" rust callback "$CARGO_TARGET_DIR/debug/examples/cases"
    python3 "$here/cases.py" rust chunks "$CARGO_TARGET_DIR/debug/examples/cases"
    python3 "$here/cases.py" rust ahead "$CARGO_TARGET_DIR/debug/examples/cases"
    # a handler of crashes, beside std
    cargo build --offline --quiet --example crash
    clang -Wall -Wextra -Werror -shared -fPIC -O1 "$here/signal_malloc.c" -o "$work/signal_malloc.so"
    python3 "$here/crash.py" "$CARGO_TARGET_DIR/debug/examples/crash" "$work/signal_malloc.so"
    # the same under the address sanitizer, where this toolchain has it
    host=$(rustc -vV | sed -n 's/^host: //p')
    if ls "$(rustc --print sysroot)/lib/rustlib/$host/lib/"*_rt.asan.a > /dev/null 2>&1; then
        sanitized() { RUSTC_BOOTSTRAP=1 RUSTFLAGS=-Zsanitizer=address cargo "$@" --offline --quiet --target "$host"; }
        sanitized test --tests
        sanitized build --example cases
        sanitized build --example crash
        python3 "$here/crash.py" "$CARGO_TARGET_DIR/$host/debug/examples/crash"
        for mode in window callback chunks ahead; do
            python3 "$here/cases.py" rust $mode "$CARGO_TARGET_DIR/$host/debug/examples/cases"
        done
        echo "Rust: no error under the address sanitizer"
    fi
    if command -v valgrind > /dev/null; then
        quiet="valgrind -q --error-exitcode=9 --leak-check=full --show-leak-kinds=definite --errors-for-leak-kinds=definite"
        for tests in "$CARGO_TARGET_DIR"/debug/deps/surface-* "$CARGO_TARGET_DIR"/debug/deps/readme-*; do
            case $tests in *.d) continue ;; esac
            $quiet "$tests" --test-threads 1 > "$work/tests" || { cat "$work/tests"; exit 1; }
        done
        python3 "$here/cases.py" rust callback --only walks $quiet "$CARGO_TARGET_DIR/debug/examples/cases"
        python3 "$here/cases.py" rust ahead --only walks $quiet "$CARGO_TARGET_DIR/debug/examples/cases"
        # the crash is the one error, twice
        valgrind "$CARGO_TARGET_DIR/debug/examples/crash" deep > "$work/crash" 2>&1 || true
        grep -q '^the root of the stack$' "$work/crash" && grep -q 'ERROR SUMMARY: 2 errors from 1 contexts' "$work/crash" \
            || { cat "$work/crash"; exit 1; }
        echo "Rust: no error under valgrind"
    fi
fi
