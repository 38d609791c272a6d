#!/usr/bin/env bash
# Runs the built framehop-stacks with arguments, which its stored run has few of: try_stacks.sh PROGRAM..
#
# PROGRAM is what `rt run` in crates/framehop_stacks_cli builds; one that is not there is passed over, but for the first. What is
# printed is compared with files of checks/stacks, which come from `perf script --no-inline --ns --show-mmap-events -F
# comm,pid,tid,time,ip,sym,symoff,dso --symfs .` by checks/stacks/from_perf.py, for core files from gdb's `thread apply all bt`, and for
# minidumps from LLDB's `thread backtrace all`: the same threads and addresses; with the file of the process, without it, and with
# another file in its place; with --explain under each frame the row that `readelf --debug-dump=frames-interp` has for it. Status 0
# where all is as it should be.
#
# What is written to standard error is compared, too: the summary of a recording is made by checks/stacks/summary.py from the
# blocks of its samples, or, for the recordings of checks/stacks/made_up_recording.py, worked out by hand.
set -u
checks=$(dirname "$(realpath -- "${BASH_SOURCE[0]}")") || exit 2
[ $# -ge 1 ] || { sed -n 2p "$0" >&2; exit 2; }
[ -x "$1" ] || { echo "try_stacks.sh: there is no program $1" >&2; exit 2; }
data=$checks/../crates/framehop_stacks_cli/data
work=$(mktemp -d) || exit 1
trap 'rm -rf "$work"' EXIT
: >"$work/nothing"
echo '[ShortFile]' >"$work/short"
head -c 1000 "$data/crash.core" >"$work/short.core"
head -c 5000 "$data/crash.dmp" >"$work/short.dmp"
# a core file that can't be read whole, and a mapped file that is large enough to be read in parts
mkdir -p "$work/enlarged/usr/local/bin"
python3 "$checks/stacks/enlarge.py" "$data/crash.core" 5120 "$work/enlarged/crash.core" || exit 1
python3 "$checks/stacks/enlarge.py" "$data/usr/local/bin/crash" 2 "$work/enlarged/usr/local/bin/crash" || exit 1
mkdir -p "$work/other/usr/local/bin" && cp "$data/srv/tiny" "$work/other/usr/local/bin/crash"
# a folder from which a link leads to the file, and one into which it does
mkdir -p "$work/leads-out/usr/local/bin" && ln -s "$(realpath -- "$data/usr/local/bin/crash")" "$work/leads-out/usr/local/bin/crash"
mkdir -p "$work/leads-in/usr/local/bin" && cp "$data/usr/local/bin/crash" "$work/leads-in/kept" && ln -s ../../../kept "$work/leads-in/usr/local/bin/crash"
failed=0

# Runs a program in a folder, and compares its status, its output and what it writes to standard error:
# try_in FOLDER STATUS OUTPUT ERRORS ARGUMENT.. With `any` in the place of a file standard error is not compared.
try_in() {
    local folder=$1 status=$2 wanted=$3 errors=$4 ended
    shift 4
    (cd "$folder" && "$program" "$@" >"$work/out" 2>"$work/err")
    ended=$?
    [ "$ended" = "$status" ] && cmp -s "$work/out" "$wanted" && { [ "$errors" = any ] || cmp -s "$work/err" "$errors"; } && return
    echo "$program $*: status $ended and not $status, another output than $wanted, or another error output than $errors: $(cat "$work/err")" >&2
    failed=1
}

# Counts the threads of a dump that checks/squares/dumps.py makes: count "KIND ITEMS" THREADS
count() {
    local found
    rm -rf "$work/counted"
    python3 "$checks/squares/dumps.py" $1 "$work/counted" || { failed=1; return; }
    found=$("$program" --root "$work/counted/root" "$work/counted/dump" 2>"$work/err" | grep -c ':$')
    [ "$found" = "$2" ] && return
    echo "$program: $found threads and not $2 of $1: $(cat "$work/err")" >&2
    failed=1
}

# Compares the heads of the blocks of a dump: heads DUMP HEAD..
heads() {
    local dump=$1
    shift
    printf '%s\n' "$@" >"$work/heads"
    (cd "$data" && "$program" --root . "$dumps/$dump" 2>"$work/err") | grep ':$' | cmp -s - "$work/heads" && return
    echo "$program: other heads of $dump than $*: $(cat "$work/err")" >&2
    failed=1
}

# A dump that is refused: refused DUMP WHY
refused() {
    try_in "$data" 1 "$work/nothing" "$(said "$dumps/$1: $2")" "$dumps/$1"
}

# The same in the folder of the stored files.
try() {
    try_in "$data" "$@"
}

# Compares the file that speedscope reads with folded stacks: profiled NAME STACKS ARGUMENT.., where NAME is that of its only profile,
# or `threads` where there is one for each thread
profiled() {
    local name=$1 stacks=$2
    shift 2
    "$program" --speedscope "$@" >"$work/out" 2>"$work/err"
    python3 - "$work/out" "$name" <<'END' | LC_ALL=C sort | cmp - "$stacks" || { echo "$program --speedscope $*: other stacks" >&2; failed=1; }
import json, sys

file, name = json.load(open(sys.argv[1])), sys.argv[2]
names = [frame["name"] for frame in file["shared"]["frames"]]
assert len(set(names)) == len(names)
for profile in file["profiles"]:
    assert profile["type"] == "sampled" and profile["unit"] == "none"
    assert profile["startValue"] == 0 and profile["endValue"] == sum(profile["weights"])
    assert name == "threads" or file["name"] == profile["name"] == name and len(file["profiles"]) == 1
    thread = [profile["name"]] if name == "threads" else []
    for stack, count in zip(profile["samples"], profile["weights"], strict=True):
        print(";".join(thread + [names[number] for number in stack]), count)
END
}

# Compares what is said of the .debug_frame of a file below a root: not_read ROOT WHY
not_read() {
    (cd "$data" && "$program" --root "$1" debug_frame.core 2>"$work/err" >"$work/out")
    echo "/usr/local/bin/debug_frame: $2" | cmp -s - "$work/err" && return
    echo "$program --root $1: it does not say that $2: $(cat "$work/err")" >&2
    failed=1
}

# Compares the boxes of a picture with both recordings: drawn PROGRAM "TITLE [flame]" ARGUMENT..
drawn() {
    local program=$1 form=$2 words
    shift 2
    words=("${form% flame}")
    [ "${form% flame}" = "$form" ] || words+=(flame)
    (cd "$data" && "$program" "$@") 2>"$work/err" | python3 "$checks/stacks/boxes.py" "$checks/stacks/both.folded" "${words[@]}" && return
    echo "$program $*: other boxes than those of both recordings; error output: $(cat "$work/err")" >&2
    failed=1
}

# Compares what is printed by way of c++filt: demangled STATUS OUTPUT ARGUMENT..; a picture with that of the demangled stacks.
demangled() {
    local status=$1 wanted=$2 ended
    shift 2
    python3 "$checks/../tools/names.py" "$program" "$@" >"$work/out" 2>"$work/err"
    ended=$?
    [ "$wanted" != "$work/demangled.svg" ] || "$program" --svg --flame --title "a b" "$work/demangled" >"$wanted"
    [ "$ended" = "$status" ] && cmp -s "$work/out" "$wanted" && return
    echo "$program $*: status $ended and not $status, or another output than $wanted: $(cat "$work/err")" >&2
    failed=1
}

# A file of error lines, each after the name of the program: said LINE..
said() {
    printf 'framehop-stacks: %s\n' "$@" >"$work/said"
    echo "$work/said"
}

# A file of lines: lines LINE..
lines() {
    printf '%s\n' "$@" >"$work/lines"
    echo "$work/lines"
}

# Compares the JSON of a dump with its blocks: reported DUMP
reported() {
    (cd "$data" && "$program" --root . "$1" 2>"$work/err" >"$work/blocks" && "$program" --root . --json "$1" 2>"$work/err" >"$work/json") &&
        python3 "$checks/stacks/blocks_of_json.py" <"$work/json" | cmp -s - "$work/blocks" && return
    echo "$program: the JSON of $1 has other stacks than its blocks: $(cat "$work/err")" >&2
    failed=1
}

# Compares the JSON of a recording with its blocks and its folded stacks, its status, and what is said: recorded FOLDER ARGUMENT..
recorded() {
    local folder=$1 form ended
    shift
    for form in blocks folded; do
        (
            cd "$folder" || exit
            [ "$form" = folded ] || set -- --frames "$@"
            "$program" "$@" >"$work/wanted" 2>"$work/wanted.err"
            ended=$?
            "$program" --json "$@" >"$work/json" 2>"$work/err"
            [ "$?" = "$ended" ] && cmp -s "$work/err" "$work/wanted.err" &&
                head -n 1 "$work/json" | grep -q '^{"kind":"recording",' && python3 "$checks/stacks/blocks_of_json.py" "$form" <"$work/json" | cmp -s - "$work/wanted"
        ) && continue
        echo "$program --json $*: another status, other errors or other $form than without it: $(cat "$work/err")" >&2
        failed=1
    done
}

# The recordings that no machine made, and what is printed of the large ones.
made=$work/made
mkdir "$made" || exit 1
dumps=$work/dumps
mkdir "$dumps" && python3 "$checks/stacks/made_up_dumps.py" "$data" "$dumps" || exit 1
for case in cut short_comm short_fork lost files lines long build_ids chains kernel full vdso events jit threads deep forked executed; do
    python3 "$checks/stacks/made_up_recording.py" "$made/$case.data" "$case" || exit 1
done
python3 - "$work" <<'END' || exit 1
import sys
from pathlib import Path

work = Path(sys.argv[1])


def counted(count, unsure):
    samples = [f"{n} sample" + "s" * (n != 1) for n in (count, unsure)]
    told = f"{samples[0]}, 0 records lost by the kernel\n{samples[1]} with frames that no unwind data tells\n"
    return told + f"how the stacks ended:\nframe-pointer-0 {count}\n"


work.joinpath("files.folded").write_text("app;[frame-pointer-0];1099+0x8 1\n")
work.joinpath("files.errors").write_text("".join(f"/srv/{at:04}: there is no such file\n" for at in range(1100)) + counted(1, 0))
lines = sorted(f"app;[frame-pointer-0];app+0x{0x10000 + 4 * at:x} 1\n" for at in range(70000))
work.joinpath("lines.folded").write_text("".join(lines))
name = "x" * 60000
# a name is cut after 2,048 bytes
cut = name[:2048] + "..."
within = "vm;[frame-pointer-0];js:run script.js:1:2: x;"
named = [("first", 3), ("later", 2), ("perf-300.map+0x1800", 1)]
work.joinpath("jit.folded").write_text(
    "other;[frame-pointer-0];[anon:jit]+0x8 1\n" + "".join(f"{within}{name} {count}\n" for name, count in named)
)
app, left_out = "/srv/app: there is no such file\n", "perf-300.map: lines that are left out, since they are not START SIZE NAME: 2\n"
work.joinpath("jit.errors").write_text(app + left_out + counted(7, 6))
# without the map each is named by its place
places = [("anon+0x10", 2), ("anon+0x1800", 1), ("anon+0x80", 1), ("anon+0xdf", 1), ("anon+0xe0", 1)]
work.joinpath("no-jit.folded").write_text(
    "other;[frame-pointer-0];[anon:jit]+0x8 1\n"
    + "".join(f"vm;[frame-pointer-0];anon+0x103;{place} {count}\n" for place, count in places)
)
work.joinpath("long.folded").write_text(f"app;[frame-pointer-0];{cut}+0x1203;{cut}+0x1124 1\n")
unopened = f"framehop-stacks: ./srv/{name[:2042]}...: File name too long (os error 36)\n"
work.joinpath("long.errors").write_text(unopened + f"/srv/{name[:2043]}...: it can't be read\n" + counted(1, 1))
work.joinpath("build_ids.folded").write_text("app;[frame-pointer-0];app+0x1203;app+0x1124 1\n")
work.joinpath("build_ids.errors").write_text("/srv/app: there is no such file\n" + counted(1, 1))
work.joinpath("lines.errors").write_text("/srv/app: there is no such file\n" + counted(70000, 0))
run = ["app", "first", "parent"]
work.joinpath("executed.folded").write_text("".join(f"{name};[frame-pointer-0];{name}+0x1203;{name}+0x1124 1\n" for name in run))
work.joinpath("executed.errors").write_text("".join(f"/srv/{name}: there is no such file\n" for name in run) + counted(3, 3))
work.joinpath("deep.folded").write_text("app;[limit];" + "app+0x1203;" * 511 + "app+0x1124 1\n")
END
python3 "$checks/stacks/summary.py" "$checks/stacks/tiny.frames" >"$work/tiny.summary" || exit 1
cat "$checks/stacks/made-up.summary" "$work/tiny.summary" >"$work/both.summary"
sed 's/^root /limit /' "$work/tiny.summary" >"$work/limit.summary"

# Folded stacks: both recordings twice, lines that are none, and mangled names of C++ and Rust with what they stand for.
sed 's/ \([0-9]*\)$/ \1 \1/' "$checks/stacks/both.folded" | awk '{ n = $NF * 2; $NF = ""; $(NF - 1) = n; sub(/ $/, ""); print }' >"$work/twice.folded"
printf 'a 1\n\nb\nc 1\n' >"$work/no_count"
printf 'a 1\nb x\nc\n' >"$work/bad_count"
printf 'a 18446744073709551615\na 1\n' >"$work/large"
printf 'app;main;_ZN3foo3barEi 3\napp;main;_RNvXCs1_7mycrateAhj4_NtB2_5Trait3foo 2\n' >"$work/mangled"
# (how c++filt writes an array type differs by its version; but its semicolon would part a frame)
printf 'app;main;%s 2\napp;main;foo::bar(int) 3\n' "$(c++filt -i _RNvXCs1_7mycrateAhj4_NtB2_5Trait3foo | tr ';' :)" >"$work/unsorted"
LC_ALL=C sort "$work/unsorted" >"$work/demangled"

# Two runs: `a` has three of five samples and then five of six, which is 0.28 of the larger part more; `b` is new.
printf 'main;a 3\nmain;old 2\n' >"$work/old"
printf 'main;a 5\nmain;b 1\n' >"$work/new"
printf 'main;a 3 5\nmain;b 0 1\nmain;old 2 0\n' >"$work/compared"
sed 's/ \([0-9]*\)$/ \1 \1/' "$checks/stacks/both.folded" >"$work/same"
sed 's/ \([0-9]*\)$/ \1 \1/' "$work/demangled" >"$work/twice"
cat >"$work/drawn" <<'END'
<title>Flame Graph
fill="#ffffff"
<title>all (6 samples, 100.00%; before 5 samples, 100.00%)
fill="rgb(230,230,230)"
<title>main (6 samples, 100.00%; before 5 samples, 100.00%)
fill="rgb(230,230,230)"
<title>a (5 samples, 83.33%; before 3 samples, 60.00%)
fill="rgb(230,191,191)"
<title>b (1 sample, 16.67%; before 0 samples, 0.00%)
fill="rgb(230,90,90)"
END

awk 'BEGIN { RS = ""; ORS = "\n\n" } /^small.exe/' "$data/../stdout" >"$work/wow64.blocks"
# Call chains, frames of the kernel by their symbols, copies of stacks that are full, and samples of two events, each 10 nanoseconds after
# the one before it.
printf 'ffff800000010000 T one\nffff800000020000 t two\t[module]\nffff800000020001 d data\n0000000000000000 T zero\nno symbol\n' >"$work/kallsyms"
printf '0000000000000000 T zero\n' >"$work/hidden"
whole='app;[frame-pointer-0];app+0x1203;app+0x1124'
chain='app;[callchain];app+0x12ff;app+0x1203;app+0x1124'
printf '%s\n' "$chain 2" 'app;[no-user-stack] 2' >"$work/chains.folded"
printf '%s\n' 'app;[callchain];[not-sure];app+0x1124 2' 'app;[no-user-stack] 2' >"$work/chains.sure"
printf '%s\n' "$chain 1" "$chain;two_[k];one_[k] 1" 'app;[no-user-stack] 1' 'app;[no-user-stack];two_[k];one_[k] 1' >"$work/chains.kernel"
printf '%s\n' "$whole 2" >"$work/kernel.folded"
printf '%s\n' "$whole 1" "$whole;0xffff7fffffffffff_[k];two_[k];two_[k] 1" >"$work/kernel.named"
printf '%s\n' "$whole 1" "$whole;0xffff7fffffffffff_[k];0xffff800000020001_[k];0xffff800000020000_[k] 1" >"$work/kernel.unnamed"
printf '%s\n' 'app 100/100 10:' 'ffff800000020000 two+0x0 ([kernel])' 'ffff800000020001 two+0x1 ([kernel])' 'ffff7fffffffffff [unknown] ([kernel])' \
    '10124 [unknown] (/srv/app+0x1124)' '10204 [unknown] (/srv/app+0x1204) [frame-pointer]' '[frame-pointer-0]' '' >"$work/kernel.block"
printf '%s\n' 'app 100/100 20:' '10124 [unknown] (/srv/app+0x1124)' '10204 [unknown] (/srv/app+0x1204) [frame-pointer]' '10300 [unknown] (/srv/app+0x1300) [frame-pointer]' \
    '[callchain]' '' >"$work/chains.block"
printf '%s\n' 'app;[cannot-access-memory];app+0x1124 2' "app;[cannot-access-memory];app+0x12ff;app+0x1203;app+0x1124 1" "$whole 1" >"$work/full.folded"
# a larger copy would have one word of three: one lies below the stack pointer, and one further above it than a copy can be long
printf '%s\n' 'app 100/100 20:' '10124 [unknown] (/srv/app+0x1124)' '10204 [unknown] (/srv/app+0x1204) [frame-pointer]' \
    '10300 [unknown] (/srv/app+0x1300) [frame-pointer]' '[cannot-access-memory 70000028]' '' 'app 100/100 30:' '10124 [unknown] (/srv/app+0x1124)' \
    '[cannot-access-memory 6ffffff8]' '' 'app 100/100 40:' '10124 [unknown] (/srv/app+0x1124)' '[cannot-access-memory 70010000]' '' >"$work/full.blocks"
printf '%s\n' 'app;[frame-pointer-0];app+0x1203;[vdso]+0x24 1' "$whole 1" >"$work/vdso.folded"
printf '%s\n' "/srv/app: there is no such file" '2 samples, 0 records lost by the kernel' '2 samples with frames that no unwind data tells' 'how the stacks ended:' \
    'frame-pointer-0 2' '1 sample with a frame in [vdso], of which no file was found: --vdso FILE names it' >"$work/vdso.errors"
printf '%s\n' "/srv/app: there is no such file" '4 samples, 0 records lost by the kernel' '2 samples with frames that no unwind data tells' 'how the stacks ended:' \
    'cannot-access-memory 3' 'frame-pointer-0 1' '1 sample cut at the end of the copied stack: perf record --call-graph dwarf,65528 copies more' >"$work/full.errors"
printf '%s\n' "$whole 1" >"$work/first"
printf '%s\n' 'app;[frame-pointer-0];app+0x1203;app+0x1128 1' >"$work/second"
cat "$work/first" "$work/second" >"$work/both"
printf '%s\n' 'app;[frame-pointer-0];app+0x1203;app+0x1128 2' >"$work/later"
printf '%s\n' "$whole 1" 'app;[frame-pointer-0];app+0x1203;app+0x1128 2' >"$work/all"
printf '%s\n' 'app-200/200;[frame-pointer-0];app+0x1203;app+0x1124 1' 'other-200/200;[frame-pointer-0];other+0x203;[unknown] 1' >"$work/threads"
# what calls what in checks/stacks/uncovered.s; in mix the word at rsp + 40 of a sample's copy is in odd or in work
printf 'uncovered;_start;run;%s\n' 'aligned 10' 'odd;mix 11' 'work;mix 12' >"$work/uncovered.folded"
# (recorded by way of env, whose files no sample needs)
printf '%s\n' '33 samples, 0 records lost by the kernel' '33 samples with frames that no unwind data tells' \
    'how the stacks ended:' 'root 33' >"$work/uncovered.summary"
# the same in checks/stacks/uncovered_aarch64.s, counted by the processor's calls and returns (record_steps_aarch64.py)
printf 'uncovered-aarch64;_start%s\n' ' 2' ';run 4' ';run;linked 4' ';run;linked;mix 2' ';run;odd 4' ';run;odd;mix 4' ';run;vectors 8' \
    ';run;vectors;mix 2' ';run;work 20' ';run;work;mix 8' >"$work/uncovered-aarch64.folded"
printf '%s\n' '58 samples, 0 records lost by the kernel' '48 samples with frames that no unwind data tells' \
    'how the stacks ended:' 'root 58' >"$work/uncovered-aarch64.summary"
printf '%s\n' 'other;[frame-pointer-0];other+0x203;[unknown] 1' >"$work/other.folded"
printf '\037\213\010' >"$work/gzip.data"
mkdir -p "$work/mixed" && printf 'PERF\0' >"$work/mixed/a.data" && cp "$made/events.data" "$work/mixed/b.data" || exit 1
mkdir -p "$work/by-threads" && : >"$work/by-threads/data" && : >"$work/by-threads/data.0"

for program in "$@"; do
    [ -x "$program" ] || continue
    program=$(realpath -- "$program")
    try 0 "$checks/stacks/tiny.frames" "$work/tiny.summary" --root . --frames tiny.data
    try 0 "$checks/stacks/tiny.limit" "$work/limit.summary" --root . --limit 3 tiny.data
    try 0 "$work/uncovered.folded" "$work/uncovered.summary" --root . uncovered.perf
    try 0 "$work/uncovered-aarch64.folded" "$work/uncovered-aarch64.summary" --root . uncovered-aarch64.perf
    try 0 "$checks/stacks/crash.stacks" any --root . crash.core
    try 0 "$checks/stacks/crash.missing" any --root srv crash.core
    try 0 "$checks/stacks/crash.stacks" any --root srv --root . crash.core
    try 0 "$checks/stacks/crash.stacks" any --root srv --exec usr/local/bin/crash crash.core
    try 0 "$checks/stacks/crash.missing" any --root srv --exec srv/tiny crash.core
    (cd "$data" && "$program" --root srv --exec srv/tiny crash.core 2>&1 >/dev/null) |
        grep -qx "framehop-stacks: srv/tiny: no mapped file that was asked for has its build id or, where none is known, its name" ||
        { echo "$program: it does not say that --exec names no mapped file" >&2; failed=1; }
    try 0 "$checks/stacks/crash.missing" any --root "$work/other" crash.core
    try 0 "$checks/stacks/crash.missing" any --root "$work/leads-out" crash.core
    try 0 "$checks/stacks/crash.stacks" any --root "$work/leads-in" crash.core
    # more threads, streams and sections than a table of few would have
    count "threads 130" 130
    count "minidump-threads 130" 130
    count "minidump-streams 70" 1
    count "section-names 130" 1
    # where standard error can't be written, the output is whole
    (cd "$data" && "$program" --root . tiny.data >"$work/whole" 2>"$work/err" && "$program" --root . tiny.data >"$work/out" 2>/dev/full) &&
        cmp -s "$work/out" "$work/whole" || { echo "$program: another output where standard error is full" >&2; failed=1; }
    try 0 "$checks/stacks/crash.limit" any --root . --limit 1 crash.core
    try 0 "$checks/stacks/crash.explained" any --root . --explain crash.core
    try 0 "$checks/stacks/crash.fallback" any --root srv --explain crash.core
    # in parts: memory of the core file, of which more is asked for where no file has the code, and sections of the mapped file
    try_in "$work/enlarged" 0 "$checks/stacks/crash.stacks" "$work/nothing" --root . crash.core
    try_in "$work/enlarged" 0 "$checks/stacks/crash.explained" "$work/nothing" --root . --explain crash.core
    try_in "$work/enlarged" 0 "$checks/stacks/crash.fallback" any --root srv --explain crash.core
    try 0 "$checks/stacks/debug_frame.stacks" any --root . debug_frame.core
    try 0 "$checks/stacks/debug_frame.explained" any --root . --explain debug_frame.core
    # its .debug_frame is compressed by zlib: the same as it was before, and then by zstandard, in GNU's older form, and with another
    # checksum, which are not read
    if command -v objcopy >"$work/out"; then
        debug_frame=usr/local/bin/debug_frame
        for form in none zlib-gnu zstd damaged; do
            mkdir -p "$work/$form/usr/local/bin"
            [ "$form" = damaged ] || objcopy --compress-debug-sections="$form" "$data/$debug_frame" "$work/$form/$debug_frame" || failed=1
        done
        python3 "$checks/stacks/damage_section.py" "$data/$debug_frame" .debug_frame "$work/damaged/$debug_frame" || failed=1
        try 0 "$checks/stacks/debug_frame.stacks" "$work/nothing" --root "$work/none" debug_frame.core
        undone="; objcopy --decompress-debug-sections makes a file of which it can be read"
        not_read "$work/zstd" "its .debug_frame is compressed by zstandard$undone"
        not_read "$work/zlib-gnu" "its .debug_frame is compressed in an older form$undone"
        not_read "$work/damaged" "its .debug_frame can't be read: WrongChecksum"
        for form in zstd zlib-gnu; do
            objcopy --decompress-debug-sections "$work/$form/$debug_frame" || failed=1
            try 0 "$checks/stacks/debug_frame.stacks" "$work/nothing" --root "$work/$form" debug_frame.core
        done
    fi
    try 1 "$work/nothing" any "$work/short.core"
    try 0 "$checks/stacks/minidump.stacks" any --root . crash.dmp
    try 0 "$checks/stacks/minidump.limit" any --root . --limit 1 crash.dmp
    try 0 "$checks/stacks/minidump.explained" any --root . --explain crash.dmp
    try 1 "$work/nothing" any "$work/short.dmp"
    # a build id that LLDB makes up: zlib's CRC-32 of a file without one, and another number
    try 0 "$checks/stacks/minidump.stacks" any --root "$dumps" "$dumps/checksum.dmp"
    "$program" --root "$dumps" "$dumps/another.dmp" 2>&1 >"$work/out" | grep -qx "/usr/local/bin/crash: its build id is not the minidump's" ||
        { echo "$program: it does not say that the build id of another.dmp is another" >&2; failed=1; }
    # what ended the process, and its threads: as gdb's $_siginfo has the stored core files, and worked out by hand of those that are
    # changed
    heads kill.core "crash 32706/32706 crashed by SIGSEGV (SI_USER from process 4711):" "crash 32706/32707:"
    heads queue.core "crash 32706/32706 crashed by SIGQUIT (SI_QUEUE from process 4711):" "crash 32706/32707:"
    heads kernel.core "crash 32706/32706 crashed by SIGSEGV (SI_KERNEL):" "crash 32706/32707:"
    heads fault.core "crash 32706/32706 crashed by SIGBUS (BUS_ADRERR at 0x7f0000001000):" "crash 32706/32707:"
    heads timer.core "crash 32706/32706 crashed by signal 34 (SI_TIMER):" "crash 32706/32707:"
    heads unknown.core "crash 32706/32706 crashed by SIGSEGV (code 77 at 0x1234):" "crash 32706/32707:"
    heads abort.dmp "crash 31455/31455 crashed by SIGABRT (SI_TKILL from process 31455):" "crash 31455/31458:"
    heads stopped.dmp "crash 31455/31458:" "crash 31455/31455:"
    heads fault.dmp "crash 31455/31455 crashed by SIGSEGV (SEGV_MAPERR at 0x10):" "crash 31455/31458:"
    heads names.dmp 'small.exe 32/284 "writer" crashed by EXCEPTION_ACCESS_VIOLATION (write of 0x0):' 'small.exe 32/244 "UI thread":' 'small.exe 32/248 "größe\x1b[31m":' "small.exe 32/252:"
    heads read.dmp "small.exe 32/244 crashed by EXCEPTION_IN_PAGE_ERROR (execution of 0xdead0000):" "small.exe 32/248:" "small.exe 32/252:" "small.exe 32/284:"
    heads breakpoint.dmp "small.exe 32/244 crashed by EXCEPTION_BREAKPOINT (at 0x1400010a8):" "small.exe 32/248:" "small.exe 32/252:" "small.exe 32/284:"
    heads other.dmp "small.exe 32/244 crashed by exception 0xe06d7363 (at 0x1400010a8):" "small.exe 32/248:" "small.exe 32/252:" "small.exe 32/284:"
    refused freebsd.core "a core file of FreeBSD: the note at offset 120; only those of Linux are read"
    refused netbsd.core "a core file of NetBSD: the note at offset 120; only those of Linux are read"
    refused openbsd.core "a core file of OpenBSD: the note at offset 120; only those of Linux are read"
    refused nothing.core "a core file without threads"
    refused none.dmp "a minidump without threads"
    refused shared.dmp "names that share bytes: offset 21924"
    # what was missing, after the stacks
    try 0 "$checks/stacks/crash.stacks" "$work/nothing" --root . crash.core
    try 0 "$checks/stacks/crash.missing" "$(lines "/usr/local/bin/crash: there is no such file")" --root srv crash.core
    try 0 "$checks/stacks/crash.stacks" "$(lines "the core file is cut short: it has 59392 of 61440 bytes")" --root . "$dumps/cut.core"
    try 0 "$work/wow64.blocks" "$(lines "a 32-bit process of Windows (wow64): the stacks are its 64-bit ones, on which calls of the system run" "C:\judges\small.exe: no names of functions" "C:\Windows\System32\WoW64.dll: there is no such file")" --root . "$dumps/wow64.dmp"
    # JSON: the frames of the blocks, and wrong usage
    reported crash.core
    reported unlinked.core
    reported crash.dmp
    reported made-up.dmp
    reported small.dmp
    reported "$dumps/names.dmp"
    # the build id that readelf -n has, and how far frames of a file without names are from the starts of their FDEs
    mkdir -p "$work/stripped/usr/local/bin" && strip -o "$work/stripped/usr/local/bin/crash" "$data/usr/local/bin/crash"
    "$program" --root "$work/stripped" --json "$data/crash.core" 2>"$work/err" | python3 -c '
import json, sys

dump = json.load(sys.stdin)
functions = [frame["function"] for frame in dump["threads"][0]["frames"]]
module = dump["modules"][0]
found = [module["build_id"], *((function["offset"], function["start"]) for function in functions if function["name"] is None)]
starts = [("0x4e", "0x401000"), ("0x9", "0x401061"), ("0x86", "0x40108a"), ("0xb", "0x401055")]
assert found == ["cb47e4cd805ea4a5d817ed2970d18a00481898ad", *starts], found
assert module["path"].endswith("/stripped/usr/local/bin/crash") and module["debug_path"] is None, module' ||
        { echo "$program: another build id or another start in the JSON of crash.core" >&2; failed=1; }
    # of recordings: of each stack and of each sample, also where a record is refused, and of call chains
    recorded "$data" --root . tiny.data
    recorded "$data" --root . made-up.data
    recorded "$data" --root . --limit 3 --comm tiny tiny.data
    for recording in cut short_comm short_fork lost build_ids chains full vdso events jit; do
        recorded "$made" --root . "$recording.data"
    done
    (cd "$data" && "$program" --by-thread --pid 200 --json made-up.data 2>"$work/err" | python3 "$checks/stacks/blocks_of_json.py" folded | cmp -s - "$work/threads") ||
        { echo "$program: other stacks of threads in JSON" >&2; failed=1; }
    try 2 "$work/nothing" "$(said "old.folded: folded stacks have no addresses, and no JSON")" --json old.folded
    try 2 "$work/nothing" "$(said "JSON has all frames of the user's side, with how each was found, and no notes")" --json --sure tiny.data
    try 2 "$work/nothing" "$(said "only folded stacks are drawn and compared, and no JSON")" --json --svg crash.core
    try 2 "$work/nothing" "$(said "JSON has all frames of the user's side, with how each was found, and no notes")" --json --explain crash.core
    try 2 "$work/nothing" any
    try 2 "$work/nothing" "$(said "the limit is no number")" --limit many tiny.data
    try 0 "$checks/stacks/tiny.explained" "$work/tiny.summary" --root . --explain tiny.data
    try 1 "$work/nothing" "$(said "missing.data: No such file or directory (os error 2)")" missing.data
    try 0 "$checks/stacks/both.folded" "$work/both.summary" --root . .
    try 1 "$work/nothing" "$(said "srv: no file in it has a name in .data")" --root . srv
    try 2 "$work/nothing" "$(said "a flame graph has no blocks of frames")" --svg --frames tiny.data
    try 2 "$work/nothing" "$(said "crash.core: only recordings and folded stacks are drawn" "nothing was counted")" --svg crash.core
    try 2 "$work/nothing" any --flame tiny.data
    try 2 "$work/nothing" any --title a tiny.data
    drawn "$program" "Flame Graph" --root . --svg .
    drawn "$program" "Flame Graph flame" --root . --svg --flame .
    drawn "$program" "a <&> b" --title "a <&> b" --svg "$checks/stacks/both.folded"
    # folded stacks as input: of a file and of standard input, each alone and beside a recording; and what is none
    try 0 "$checks/stacks/both.folded" "$work/nothing" "$checks/stacks/both.folded"
    try 0 "$checks/stacks/both.folded" "$work/nothing" - <"$checks/stacks/both.folded"
    try 0 "$work/twice.folded" "$work/both.summary" --root . "$checks/stacks/both.folded" .
    try 0 "$checks/stacks/tiny.frames" "$work/tiny.summary" --root . --frames - <"$data/tiny.data"
    try 1 "$work/nothing" "$(said "$work/no_count: line 3 is no folded stack: it has no blank before a count")" "$work/no_count"
    try 1 "$work/nothing" "$(said "standard input: line 2 is no folded stack: after its last blank there is no decimal count below 2^64")" - <"$work/bad_count"
    try 1 "$work/nothing" "$(said "$work/large: the counts of a stack add up to 2^64 or more")" "$work/large"
    try 1 "$work/nothing" "$(said "standard input: empty")" - <"$work/nothing"
    try 2 "$work/nothing" "$(said "$checks/stacks/both.folded: folded stacks have no blocks of frames")" --frames "$checks/stacks/both.folded"
    try 2 "$work/nothing" "$(said "$checks/stacks/both.folded: folded stacks don't say what is sure")" --sure "$checks/stacks/both.folded"
    # two beside one another: as text with two counts, and drawn
    try 0 "$work/compared" "$work/nothing" --diff "$work/old" "$work/new"
    try 0 "$work/compared" "$work/nothing" --diff "$work/old" - <"$work/new"
    try 0 "$work/same" "$work/both.summary" --root . --diff "$checks/stacks/both.folded" .
    try 2 "$work/nothing" "$(said "--diff compares two files or folders, OLD and NEW")" --diff "$work/old"
    try 2 "$work/nothing" "$(said "only folded stacks are compared, and no blocks of frames")" --diff --frames "$work/old" "$work/new"
    try 2 "$work/nothing" "$(said "crash.core: only recordings and folded stacks are compared")" --diff "$work/old" crash.core
    try 1 "$work/nothing" "$(said "missing: No such file or directory (os error 2)")" --diff missing "$work/new"
    "$program" --diff --svg "$work/old" "$work/new" >"$work/out"
    grep -o '<title>[^<]*\|fill="[^"]*"' "$work/out" | cmp - "$work/drawn" || failed=1
    # names by c++filt
    demangled 0 "$work/demangled" --demangle "$work/mangled"
    demangled 0 "$work/demangled.svg" --demangle --svg --flame --title "a b" "$work/mangled"
    demangled 1 "$work/nothing" --demangle --svg "$work/no_count"
    demangled 0 "$work/twice" --demangle --diff "$work/mangled" "$work/mangled"
    try 2 "$work/nothing" any --demangle tiny.data
    try 2 "$work/nothing" "$(said "inlined functions and lines are printed by the script framehop-stacks")" --lines tiny.data
    try 1 "$work/nothing" any srv/tiny
    try 1 "$work/nothing" "$(said "$work/short: line 1 is no folded stack: it has no blank before a count")" "$work/short"
    try 1 "$checks/stacks/tiny.limit" any --root . --limit 3 missing.data tiny.data
    # what no machine recorded: a record that is cut off or ends early, lost records, more files and lines than a round number,
    # build ids that can't be read
    try_in "$made" 1 "$checks/stacks/cut.folded" "$checks/stacks/cut.errors" --root . cut.data
    try_in "$made" 1 "$checks/stacks/short.folded" "$checks/stacks/short_comm.errors" --root . short_comm.data
    try_in "$made" 1 "$checks/stacks/short.folded" "$checks/stacks/short_fork.errors" --root . short_fork.data
    try_in "$made" 0 "$checks/stacks/lost.folded" "$checks/stacks/lost.errors" --root . lost.data
    try_in "$made" 0 "$work/files.folded" "$work/files.errors" --root . files.data
    try_in "$made" 0 "$work/lines.folded" "$work/lines.errors" --root . lines.data
    try_in "$made" 0 "$work/long.folded" "$work/long.errors" --root . long.data
    try_in "$made" 0 "$work/build_ids.folded" "$work/build_ids.errors" --root . build_ids.data
    try_in "$made" 0 "$work/chains.folded" any chains.data
    try_in "$made" 0 "$work/chains.sure" any --sure chains.data
    try_in "$made" 0 "$work/chains.kernel" any --kernel --kallsyms "$work/kallsyms" chains.data
    try_in "$made" 0 "$work/chains.block" any --frames --time 0.00000002,0.000000029 chains.data
    try_in "$made" 0 "$work/kernel.folded" any kernel.data
    try_in "$made" 0 "$work/kernel.named" any --kernel --kallsyms "$work/kallsyms" kernel.data
    try_in "$made" 0 "$work/kernel.unnamed" any --kernel kernel.data
    try_in "$made" 0 "$work/kernel.block" any --kernel --kallsyms "$work/kallsyms" --frames --time ,0.00000001 kernel.data
    try_in "$made" 0 "$work/full.folded" "$work/full.errors" full.data
    try_in "$made" 0 "$work/full.blocks" any --frames --time 0.00000002, full.data
    try_in "$made" 0 "$work/vdso.folded" "$work/vdso.errors" vdso.data
    # 512 frames at most; no file of a process without samples, or of a program that ran without; the status of a folder is the
    # greatest of its files
    try_in "$made" 0 "$work/deep.folded" any deep.data
    try_in "$made" 0 "$work/first" "$work/build_ids.errors" --root . forked.data
    try_in "$made" 0 "$work/executed.folded" "$work/executed.errors" --root . executed.data
    try_in "$work" 1 "$work/all" any mixed
    # the samples of an event, of a time, of a thread
    try_in "$made" 0 "$work/all" any events.data
    try_in "$made" 0 "$work/first" any --event cycles events.data
    try_in "$made" 0 "$work/later" any --event 1 events.data
    mkdir -p "$work/maps" && cp "$checks/stacks/made_up_map.txt" "$work/maps/perf-300.map"
    try_in "$made" 0 "$work/jit.folded" "$work/jit.errors" --perf-map "$work/maps" jit.data
    try_in "$made" 0 "$work/no-jit.folded" any --perf-map "$work/other" jit.data
    try_in "$made" 0 "$work/no-jit.folded" any jit.data
    try_in "$made" 1 "$work/nothing" "$(said "$work/no: no folder")" --perf-map "$work/no" jit.data
    mkdir -p "$work/large-maps" && truncate -s 300M "$work/large-maps/perf-300.map"
    try_in "$made" 0 "$work/no-jit.folded" any --perf-map "$work/large-maps" jit.data
    grep -q 'perf-300.map: no regular file of at most 256 MiB' "$work/err" || { echo "$program: nothing is said of a map of 300 MB" >&2; failed=1; }
    try_in "$made" 0 "$work/all" any --event cycles --event task-clock events.data
    try_in "$made" 1 "$work/nothing" "$(said "events.data: no event 2; the events are 0 cycles, 1 task-clock")" --event 2 events.data
    try_in "$made" 0 "$work/first" any --time ,0.00000001 events.data
    try_in "$made" 0 "$work/later" any --time 0.00000002, events.data
    try_in "$made" 0 "$work/nothing" any --time 0.000000021,0.000000029 events.data
    try_in "$made" 0 "$work/nothing" any --tid 101 events.data
    try_in "$made" 0 "$work/first" any --tid 100 threads.data
    try_in "$made" 0 "$work/second" any --tid 101 threads.data
    try_in "$made" 0 "$work/both" any --pid 100 threads.data
    try_in "$made" 0 "$work/nothing" any --pid 101 threads.data
    try_in "$made" 0 "$work/all" any --pid 7 --pid 100 --tid 100 --comm app events.data
    try_in "$made" 0 "$work/nothing" any --pid 100 --comm ap events.data
    try 0 "$work/threads" any --by-thread --pid 200 made-up.data
    try 0 "$work/other.folded" any --comm other made-up.data
    try 2 "$work/nothing" "$(said "a process or a thread is no number, or the times are not FROM,TO in seconds")" --time 1.5 made-up.data
    try 2 "$work/nothing" "$(said "a process or a thread is no number, or the times are not FROM,TO in seconds")" --pid x made-up.data
    try 2 "$work/nothing" "$(said "each block tells its thread")" --by-thread --frames made-up.data
    try 2 "$work/nothing" "$(said "frames of the kernel are not explained")" --kernel --explain made-up.data
    try 2 "$work/nothing" any --kallsyms "$work/kallsyms" made-up.data
    try 1 "$work/nothing" "$(said "$work/hidden: it has no function with an address; /proc/kallsyms tells them to root")" --kernel --kallsyms "$work/hidden" made-up.data
    try 1 "$work/nothing" "$(said "$work/gzip.data: a compressed file; gzip -d makes one that can be read")" "$work/gzip.data"
    try 1 "$work/nothing" "$(said "$work/by-threads: a recording of perf record --threads, which is not read; without --threads perf writes one file")" "$work/by-threads"
    # the file of speedscope has the folded stacks, of each thread a profile where it is asked for
    profiled 'a "b"' "$checks/stacks/both.folded" --title 'a "b"' "$checks/stacks/both.folded"
    "$program" --by-thread "$data/made-up.data" >"$work/each-thread" 2>"$work/err"
    profiled threads "$work/each-thread" --by-thread "$data/made-up.data"
    try 1 "$work/nothing" any --speedscope --pid 7 made-up.data
    # a reader that ends early, names that would forge a line or reach a terminal, and what is no recording
    { sleep 0.2; "$program" "$data/made-up.data" 2>"$work/err"; echo $? >"$work/status"; } | true
    [ "$(cat "$work/status")" = 0 ] || { echo "$program: status $(cat "$work/status") where its reader has ended: $(cat "$work/err")" >&2; failed=1; }
    try 1 "$work/nothing" "$(said "$work/a\\x0ab: No such file or directory (os error 2)")" "$work/a"$'\n'b
    "$program" --no$'\033'such x 2>"$work/err" && failed=1
    ! grep -q $'\033' "$work/err" || { echo "$program: a command for a terminal in what is said of an option" >&2; failed=1; }
    printf 'PERF\0' >"$work/damaged.data"
    try_in "$work" 1 "$work/nothing" any --json damaged.data
done
[ "$failed" = 0 ] || exit 1
echo "the runs of framehop-stacks with arguments are as they should be"
