# The first run of a program of this repository. A program's script sets `name` and `program` (its crate), and reads this file.
#
# A built program that is newer than all sources is started. Otherwise
# 1. the program is interpreted by `rt try`, not yet proved, and its output is printed at once;
# 2. each crate is proved, and the program is built (tools/prove.sh), with the commit in its version (tools/stamp.sh);
# 3. the built program runs on the same input, and its output is compared with the first: status 3 where they differ.
# Where the interpreted program refuses its input (a status that is not 0, and no output), that is all: nothing is proved for it. After an
# interrupt, which ends all proofs that run, the next run proves what is left.
#
# FRAMEHOP_TRY=1 stops after the first step, and FRAMEHOP_BUILD=1 leaves it out.
set -u
top=$(cd "$(dirname "$(realpath -- "${BASH_SOURCE[0]}")")/.." && pwd) || exit 1
built=$top/out/$name
work=

. "$top/tools/prove.sh"

# Runs rt in a folder, in a process group of its own, so that a signal to this script ends it with all that it has started.
run_alone() {
    local folder=$1 status
    shift
    (cd "$folder" && exec rt "$@") <&0 &
    alone=$!
    wait "$alone"
    status=$?
    alone=
    return "$status"
}

# ---- the first output

# Interprets the program on its arguments, in another folder, so files are named by their whole paths; its output goes to
# $work/tried, and its status to $work/status. Fails where rt has no answer, as beyond its limits of steps, time and output.
interpret() {
    local argument ended
    arguments=()
    for argument in "$@"; do
        [ ! -e "$argument" ] || argument=$(realpath -- "$argument")
        arguments+=("$argument")
    done
    run_alone "$top/crates/$program" try -- "${arguments[@]}" >"$work/tried" 2>"$work/messages"
    ended=$(sed -n 's/^run=ended status=\([0-9]*\).*/\1/p' "$work/messages")
    [ -n "$ended" ] || return 1
    echo "$ended" >"$work/status"
    # the commit, which the built program has
    [ "$*" != --version ] || "$top/tools/stamp.sh" "$work/tried" || return 1
    cat "$work/tried"
    grep -vE '^(checked|run)[:=]' "$work/messages" >&2
    return 0
}

# Whether arguments say that standard input is read: none do, or one that is -.
reads_standard_input() {
    local argument
    [ $# -gt 0 ] || return 0
    for argument in "$@"; do [ "$argument" != - ] || return 0; done
    return 1
}

# Prints the output of the interpreted program, where there is one.
reply_first() {
    if reads_standard_input "$@"; then
        say "standard input is read by the built program only"
        return 1
    fi
    say "interpreted, not yet proved:"
    interpret "$@" && return 0
    say "the interpreter has no answer here: $(tail -n 1 "$work/messages")"
    return 1
}

# Runs the built program on the arguments to which the interpreted one has replied, and compares the two outputs.
compare_with_first() {
    local status first
    first=$(cat "$work/status")
    "$built" "${arguments[@]}" >"$work/output" 2>"$work/messages"
    status=$?
    if [ "$status" = "$first" ] && cmp -s "$work/tried" "$work/output"; then
        say "proved and built; the built program gives the same output"
        exit "$status"
    fi
    cp "$work/tried" "$top/out/$name.interpreted"
    cp "$work/output" "$top/out/$name.output"
    say "the built program gives another output (status $status, and of the first $first): compare out/$name.interpreted and out/$name.output"
    exit 3
}

# Proves all crates, and builds the program.
build() {
    mkdir -p "$top/out" || return 1
    touch "$work/start"
    say "proving and building the program, once"
    prove_all "$program" && take "$top/crates/$program/out/$program" "$name" "$work/start"
}

if is_current "$built" && [ "${FRAMEHOP_TRY:-}" != 1 ]; then exec "$built" "$@"; fi
command -v rt >/dev/null || { say "the kit of Rattle is not on the PATH, and the program is not built yet: see \"Start\" in README.md"; exit 1; }
work=$(mktemp -d) || exit 1
alone=
set -m
trap 'rm -rf "$work"' EXIT
trap 'stop 130' INT TERM
replied=
if [ "${FRAMEHOP_BUILD:-}" != 1 ] && reply_first "$@"; then replied=1; fi
if [ "${FRAMEHOP_TRY:-}" = 1 ]; then
    [ -n "$replied" ] || exit 1
    exit "$(cat "$work/status")"
fi
if [ -n "$replied" ] && [ "$(cat "$work/status")" != 0 ] && [ ! -s "$work/tried" ]; then
    say "refused, so nothing is proved and built for it"
    exit "$(cat "$work/status")"
fi
build || exit 1
[ -z "$replied" ] || compare_with_first
"$built" "$@"
