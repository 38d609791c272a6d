#!/usr/bin/env bash
# The first hour of a user, as commands: first_hour.sh, at the top of a clone. It needs perf, g++ and gdb besides what README names.
#
# The first answer of README, all that is built, README's recording and core file, then a C++ program of its own, made here at -O2:
# its recording as folded stacks and as a flame graph, with lines and inlined frames, its core file beside gdb's, and what is
# installed. What is built already is not built again. Status 0 where all is as it should be.
set -u
top=$(cd "$(dirname "$(realpath -- "${BASH_SOURCE[0]}")")/.." && pwd) || exit 2
cd "$top" || exit 2
work=$(mktemp -d) || exit 1
trap 'rm -rf "$work"' EXIT

step() { echo "first_hour.sh: $*" >&2; }
fail() { step "$*"; exit 1; }
# Compares what a command prints with the block of README after the line that has the command.
as_in_readme() {
    local command=$1
    eval "$command" >"$work/printed" 2>"$work/said" || fail "$command: status $?: $(cat "$work/said")"
    awk -v command="\$ $command" '$0 == command { on = 1; next } on && /^```/ { exit } on' README.md | cmp -s - "$work/printed" ||
        fail "$command prints another output than README has"
}

step "the first answer"
FRAMEHOP_TRY=1 as_in_readme './framehop-walk examples/readme-walk.json'
step "all is built"
tools/build.sh || fail "tools/build.sh: status $?"
as_in_readme './framehop-walk examples/readme-walk.json'
as_in_readme './framehop-stacks --root crates/framehop_stacks_cli/data crates/framehop_stacks_cli/data/tiny.data | tail -n 3'
as_in_readme './framehop-stacks --root crates/framehop_stacks_cli/data crates/framehop_stacks_cli/data/crash.core | head -n 6'

step "a program of one's own, and its recording"
cat >"$work/hour.cpp" <<'SOURCE'
#include <cstdio>
#include <cstdlib>
#include <string>
#include <vector>

static inline unsigned step(unsigned word) {
    return word / (word % 7 + 1) + 1013904223u;
}
__attribute__((noinline)) unsigned long spend(unsigned long turns) {
    unsigned word = 1;
    unsigned long sum = 0;
    for (unsigned long turn = 0; turn < turns; turn++) sum += step(word = step(word));
    return sum;
}
__attribute__((noinline)) int deref(int *where) {
    return *where + 1;
}
__attribute__((noinline)) int lost(const std::vector<std::string> &names) {
    return deref(names.size() > 3 ? nullptr : (int *)&names) + 1;
}
int main(int count, char **names) {
    std::vector<std::string> all(names, names + count);
    if (count > 1) return lost(std::vector<std::string>(4, "null"));
    std::printf("%lu\n", spend(100000000) % 2);
}
SOURCE
g++ -O2 -g -o "$work/hour" "$work/hour.cpp" || fail "g++ does not compile"
cd "$work" || exit 1
perf record -q --call-graph dwarf -o hour.data ./hour >/dev/null || fail "perf does not record"
"$top/framehop-stacks" hour.data >folded 2>summary || fail "framehop-stacks: status $?: $(cat summary)"
samples=$(perf script -i hour.data -F time 2>/dev/null | grep -c :)
counted=$(awk '{ sum += $NF } END { print sum }' folded)
[ "$samples" = "$counted" ] || fail "$counted samples are counted, and perf has $samples"
grep -q '^hour;_start;__libc_start_main.*;main;_Z5spendm ' folded || fail "no stack from _start to spend"
"$top/framehop-stacks" --svg hour.data >flames.svg 2>/dev/null || fail "no flame graph: status $?"
python3 -c 'import sys, xml.etree.ElementTree as tree; tree.parse(sys.argv[1])' flames.svg || fail "the flame graph is no XML"
"$top/framehop-stacks" --lines hour.data 2>/dev/null | grep -q ';spend(unsigned long) hour.cpp:12;step hour.cpp:7 ' || fail "no line of an inlined frame"

step "its core file"
(ulimit -c unlimited; exec ./hour crash) 2>/dev/null
core=$(ls core core.* 2>/dev/null | head -n 1)
[ -n "$core" ] || fail "no core file in $work: see core(5), and /proc/sys/kernel/core_pattern"
"$top/framehop-stacks" --lines "$core" >blocks 2>said || fail "framehop-stacks: status $?: $(cat said)"
# gdb prints the innermost frame once more
gdb -batch -ex bt ./hour "$core" 2>/dev/null | sed -n 's/^\(#[0-9]* \) *\(0x[0-9a-f]* in \)\{0,1\}\([a-z_]*\).*/\1\3/p' | uniq | sed 's/.* //' | head -n 3 >by-gdb
sed -n 's/^#[0-9]* [0-9a-f]* \([a-z_]*\).*/\1/p' blocks | head -n 3 | cmp -s - by-gdb || fail "other functions than gdb's: $(head -n 8 blocks) and $(cat by-gdb)"
grep -q 'crashed by SIGSEGV' blocks && grep -q '^#0 .*hour.cpp:16' blocks || fail "no signal or no line: $(head -n 4 blocks)"

step "what is installed"
"$top/tools/install.sh" "$work/prefix" || fail "tools/install.sh: status $?"
PATH=$work/prefix/bin:$PATH
framehop-stacks hour.data 2>/dev/null | cmp -s - folded || fail "the installed program prints another output"
for program in walk explain stacks check; do "framehop-$program" --version >/dev/null || fail "framehop-$program is not installed"; done
"$top/tools/install.sh" --uninstall "$work/prefix" && [ -z "$(find "$work/prefix" -type f)" ] || fail "something stays after --uninstall"
step "all is as it should be"
