#!/usr/bin/env bash
# Makes core files and minidumps of real processes, with the frames that other tools have: make_dumps.sh FOLDER [linux|aarch64|windows]..
#
# The sources are in checks/stacks/judges, and each says by its first line what its process does. Each case is a file in FOLDER/cases:
# NAME.core, judged by gdb, or NAME.dmp, judged by LLDB, or on Windows by the process itself, with RtlVirtualUnwind. Beside it is
# NAME.core.frames, or NAME.dmp.frames, with a line `thread index: address` for each frame, and lines of remarks after `#`.
# checks/stacks/judge_dumps.py compares them with framehop-stacks.
#
# Needs gcc, g++, gdb, lldb-19 and python3; for aarch64 qemu-user, gcc-aarch64-linux-gnu and gdb-multiarch; for Windows wine64 and
# gcc-mingw-w64-x86-64. The kernel must write core files into the folder that a process is in (kernel.core_pattern = core).
# LLDB, PYTHON, WINE, AARCH64 (a sysroot) and WINEPREFIX name others than the usual ones.
set -u
here=$(dirname "$(realpath -- "${BASH_SOURCE[0]}")") || exit 2
[ $# -ge 1 ] || { sed -n 2p "$0" >&2; exit 2; }
mkdir -p "$1/cases" "$1/programs" "$1/work" || exit 2
top=$(realpath -- "$1")
shift
[ $# -gt 0 ] || set -- linux aarch64 windows
cases=$top/cases programs=$top/programs work=$top/work
lldb=${LLDB:-lldb-19} python=${PYTHON:-/usr/bin/python3} wine=${WINE:-/usr/lib/wine/wine64} sysroot=${AARCH64:-/usr/aarch64-linux-gnu}
failed=0
unset DEBUGINFOD_URLS

complain() {
    echo "make_dumps.sh: $*" >&2
    failed=1
}

# The lines of frames that a script printed, and its remarks: of_script <OUTPUT
of_script() { sed -n 's/^frame //p; /^# /p'; }

# Waits until a process has said that it is ready: await FILE
await() {
    local count
    for count in $(seq 300); do
        grep -q ready "$1" && sleep 0.3 && return
        sleep 0.1
    done
    return 1
}

# ---- Linux

# Asks gdb for the frames of a core file: judge_core NAME PROGRAM
judge_core() {
    {
        echo "# judge: $(gdb --version | head -n 1)"
        gdb -batch -nx -x "$here/judges/frames_gdb.py" "$2" "$cases/$1.core" 2>/dev/null | of_script
    } >"$cases/$1.core.frames"
}

# Lets LLDB write a minidump with the stacks, and asks it for the frames: judge_minidump NAME COMMAND.., which stop the process. After a
# crash LLDB goes on with the commands of -k only.
judge_minidump() {
    local name=$1 commands=() command
    shift
    for command in "$@"; do commands+=(-o "$command"); done
    for command in "process save-core --plugin-name=minidump --style stack $cases/$name.dmp" \
        "command script import $here/judges/frames_lldb.py" "process kill"; do
        commands+=(-o "$command" -k "$command")
    done
    rm -f "$cases/$name.dmp"
    {
        echo "# judge: $($lldb --version | head -n 1)"
        $lldb --no-lldbinit -b "${commands[@]}" -k quit 2>"$work/$name.lldb" | of_script
    } >"$cases/$name.dmp.frames"
    [ -s "$cases/$name.dmp" ] || complain "$name: no minidump: $(tail -n 1 "$work/$name.lldb")"
}

# Asks LLDB for the frames that it has of a minidump without its process: judge_minidump_itself NAME
judge_minidump_itself() {
    {
        echo "# judge: $($lldb --version | head -n 1), of the minidump"
        $lldb --no-lldbinit -b -o "target create --core $cases/$1.dmp" -o "command script import $here/judges/frames_lldb.py" 2>/dev/null | of_script
    } >"$cases/$1.dmp.frames"
}

# A process that waits: gdb's gcore takes its core file, and then LLDB its minidump: waits NAME PROGRAM [ARGUMENT..]
waits() {
    local name=$1 program=$2 process
    shift
    : >"$work/$name.out"
    "$@" >"$work/$name.out" 2>/dev/null &
    process=$!
    disown
    if await "$work/$name.out"; then
        gcore -o "$work/$name" "$process" >/dev/null 2>&1
        mv "$work/$name.$process" "$cases/$name.core" && judge_core "$name" "$program"
        judge_minidump "$name" "process attach --pid $process"
    else
        complain "$name: it does not come to its stop"
    fi
    kill -KILL "$process" 2>/dev/null
}

# A process that crashes: the kernel writes its core file, and LLDB stops another one, unless CORE says that no minidump is wanted:
# crashes NAME [CORE]
crashes() {
    local folder=$work/$1 program=$programs/$1
    rm -rf "$folder" && mkdir "$folder" || return
    (cd "$folder" && ulimit -c unlimited && ulimit -s 128 && "$program" || true) >/dev/null 2>&1
    mv "$folder"/core* "$cases/$1.core" && judge_core "$1" "$program" || complain "$1: no core file"
    [ "${2:-}" = core ] || (ulimit -s 128 && judge_minidump "$1" "target create $program" "process launch")
}

linux() {
    local sources=$here/judges/linux name
    for name in c system_call signal null_pointer; do gcc -O2 -g -o "$programs/$name" "$sources/$name.c" || exit 1; done
    for name in handler_aborts other_stack nested_handlers interrupted_leaf null_call wild_call vdso; do
        gcc -O2 -g -fomit-frame-pointer -o "$programs/$name" "$sources/$name.c" || exit 1
        gcc -O2 -g -fno-omit-frame-pointer -mno-omit-leaf-frame-pointer -o "$programs/${name}_fp" "$sources/$name.c" || exit 1
    done
    gcc -O1 -g -o "$programs/overflow" "$sources/overflow.c" || exit 1
    for name in cxx_destructor cxx_catch; do g++ -O2 -o "$programs/$name" "$sources/$name.cc" || exit 1; done
    gcc -O2 -static -o "$programs/static" "$sources/c.c" || exit 1
    gcc -O2 -fomit-frame-pointer -fno-asynchronous-unwind-tables -o "$programs/no_tables" "$sources/no_tables.c" || exit 1
    gcc -O2 -g -fomit-frame-pointer -fno-asynchronous-unwind-tables -o "$programs/debug_frame" "$sources/no_tables.c" || exit 1
    gcc -O2 -pthread -o "$programs/four_threads" "$sources/four_threads.c" || exit 1
    for name in c cxx_destructor cxx_catch static no_tables debug_frame system_call signal four_threads; do waits "$name" "$programs/$name"; done
    waits python "$(realpath -- "$python")" "$sources/python.py"
    crashes null_pointer
    for name in handler_aborts nested_handlers interrupted_leaf null_call wild_call; do
        crashes "$name"
        crashes "${name}_fp"
    done
    # of a full stack LLDB writes no minidump
    crashes other_stack core
    crashes other_stack_fp core
    # a minidump does not say where the vdso is
    crashes vdso core
    crashes vdso_fp core
    crashes overflow
    # LLDB's minidumps have nothing of a stack that is full, in each of its styles
    judge_minidump_itself overflow
}

# ---- aarch64

# A process below qemu-user that crashes, and its core file, judged by gdb with the files of the cross compiler's C library. qemu's core
# file does not say which files were mapped: PLAIN says whether it stays so. crashes_below_qemu NAME PROGRAM PLAIN
crashes_below_qemu() {
    local folder=$work/$1
    rm -rf "$folder" && mkdir "$folder" || return
    (cd "$folder" && ulimit -c unlimited && qemu-aarch64 -s 65536 -L "$sysroot" "$2" >maps || true) 2>/dev/null
    mv "$folder"/qemu_*.core "$cases/$1.core" || { complain "$1: no core file"; return; }
    rm -rf "$folder"/core*
    [ "$3" = plain ] && cp "$cases/$1.core" "$work/$1.plain"
    python3 "$here/judges/aarch64/with_files.py" "$cases/$1.core" "$folder/maps"
    {
        echo "# judge: $(gdb-multiarch --version | head -n 1), $(qemu-aarch64 --version | head -n 1)"
        gdb-multiarch -batch -nx -ex "set sysroot /" -ex "set solib-search-path $sysroot/lib" -ex "file $2" -ex "core-file $cases/$1.core" \
            -x "$here/judges/frames_gdb.py" 2>/dev/null | of_script
    } >"$cases/$1.core.frames"
    [ "$3" = plain ] && mv "$work/$1.plain" "$cases/$1.core"
}

aarch64() {
    local sources=$here/judges/aarch64 compile=aarch64-linux-gnu-gcc name
    $compile -O2 -fomit-frame-pointer -o "$programs/aarch64_c" "$sources/c.c" || exit 1
    $compile -O2 -o "$programs/aarch64_frame_pointers" "$sources/c.c" || exit 1
    $compile -O2 -static -fomit-frame-pointer -o "$programs/aarch64_static" "$sources/c.c" || exit 1
    $compile -O2 -pthread -fomit-frame-pointer -o "$programs/aarch64_threads" "$sources/threads.c" || exit 1
    for name in c frame_pointers static threads; do crashes_below_qemu "aarch64_$name" "$programs/aarch64_$name" files; done
    cp "$programs/aarch64_frame_pointers" "$programs/aarch64_plain"
    crashes_below_qemu aarch64_plain "$programs/aarch64_plain" plain
}

# ---- Windows

# Runs a program in C:\judges below wine. It writes its minidump, and prints its frames: runs_below_wine NAME CASE
runs_below_wine() {
    local folder=$WINEPREFIX/drive_c/judges
    (cd "$folder" && rm -f "$1.dmp" && timeout 120 "$wine" "C:\\judges\\$1.exe" >"$work/$2.out" 2>"$work/$2.err") || complain "$1: status $?: $(tail -n 1 "$work/$2.err")"
    mv "$folder/$1.dmp" "$cases/$2.dmp" || return
    {
        echo "# judge: RtlVirtualUnwind of $("$wine" --version)"
        echo "# root: $WINEPREFIX/drive_c"
        tr -d '\r' <"$work/$2.out"
    } >"$cases/$2.dmp.frames"
}

windows() {
    local sources=$here/judges/windows name number
    export WINEPREFIX=${WINEPREFIX:-$top/wine} WINEDEBUG=-all
    mkdir -p "$WINEPREFIX" && "$wine" wineboot -i >/dev/null 2>&1
    mkdir -p "$WINEPREFIX/drive_c/judges" || exit 1
    for name in nest crash small; do
        x86_64-w64-mingw32-gcc -O2 -Wall -Wextra -fno-builtin -nostdlib -s -Wl,-e,start -Wl,--no-insert-timestamp \
            -o "$WINEPREFIX/drive_c/judges/$name.exe" "$sources/$name.c" -lkernel32 -ldbghelp -lntdll -lmsvcrt || exit 1
    done
    for number in 1 2 3; do runs_below_wine nest "windows_nest_$number"; done
    runs_below_wine crash windows_crash
    runs_below_wine small windows_small
    python3 "$sources/shrink_minidump.py" "$cases/windows_small.dmp.frames" "$cases/windows_small.dmp" "$work/small.dmp" &&
        cp "$cases/windows_small.dmp.frames" "$cases/windows_shrunk.dmp.frames" && mv "$work/small.dmp" "$cases/windows_shrunk.dmp"
}

for part in "$@"; do
    case $part in
    linux | aarch64 | windows) "$part" ;;
    *) complain "there is no part $part" ;;
    esac
done
exit "$failed"
