# Proves crates and builds programs, several side by side: read by program.sh and build.sh, which set `top` and `name`.
#
# Each crate is proved in a lane of its own, by `rt lib`, or by `rt run` if it is a program, which is then run once with --version. Of
# what rt makes, what it needs only to prove the crate again after a change (out/incremental) is removed once the crate is proved, but for
# what was there before; with `keep` set nothing is removed. Which folders out/ were made here is listed in out/made.

say() { echo "$name: $*" >&2; }

# Whether a file that was built is newer than all sources.
is_current() {
    [ -f "$1" ] || return 1
    [ -z "$(find "$top/crates.txt" "$top"/crates/*/{src,specs,proofs} -type f -newer "$1" -print -quit 2>/dev/null)" ]
}

# Ends what runs, with all that it has started.
stop() {
    local group
    set +m
    for group in ${alone:-} $(jobs -p); do kill -- "-$group" 2>/dev/null; done
    exit "$1"
}

# all crates of this repository that some crates stand on, with them, each once
closure() {
    awk -v wanted="$*" '
        /^[a-z]/ { split($0, sides, ":"); split(sides[1], words, " "); below[words[1]] = sides[2] }
        END {
            count = split(wanted, todo, " ")
            for (at = 1; at <= count; at++) {
                if (todo[at] in seen || !(todo[at] in below)) continue
                seen[todo[at]]
                print todo[at]
                more = split(below[todo[at]], names, " ")
                for (name = 1; name <= more; name++) todo[++count] = names[name]
            }
        }' "$top/crates.txt"
}

# the crates of this repository that a crate stands on
below() { closure "$1" | tail -n +2; }

is_program() { [ -f "$top/crates/$1/src/main.rt" ]; }

# how many jobs there are: one a processor, at most four, where each has 3 GB of memory
jobs_here() {
    local count memory
    count=$(nproc 2>/dev/null || echo 1)
    memory=$(awk '/^MemAvailable:/ { print int($2 / 3000000) }' /proc/meminfo 2>/dev/null)
    [ "$count" -le 4 ] || count=4
    [ "${memory:-1}" -ge "$count" ] || count=${memory:-1}
    [ "$count" -ge 1 ] || count=1
    echo "$count"
}

# A lane: a copy of a crate and of those below it, with a crates.txt of these only. rt locks the folders that a crate stands on, so two
# crates over one library are proved side by side only in folders of their own. Files are hard links: rt writes new ones.
make_lane() {
    local lane=$2 crate kept=$2/crates/$1/out
    # what an interrupted run has proved
    if [ -d "$kept" ]; then rm -rf "$top/crates/$1/out" && mv "$kept" "$top/crates/$1/out" || return 1; fi
    rm -rf "$lane" && mkdir -p "$lane/crates" || return 1
    for crate in $(closure "$1"); do
        cp -al "$top/crates/$crate" "$lane/crates/" || return 1
        sed -n "/^$crate[ :]/p" "$top/crates.txt" >>"$lane/crates.txt" || return 1
    done
}

# Proves a crate in its lane with so many jobs, and takes its out/ over; the whole log goes to a file.
prove() {
    local lane=$top/out/lanes/$1 out=$top/crates/$1/out had_work=
    [ ! -d "$out/incremental" ] || had_work=1
    [ -d "$out" ] || echo "$1" >>"$top/out/made"
    {
        make_lane "$1" "$lane" && (cd "$lane/crates/$1" && run_rt "$1" "$2") &&
            rm -rf "$out" && mv "$lane/crates/$1/out" "$out" && rm -rf "$lane" &&
            { [ -n "${keep:-}$had_work" ] || rm -rf "$out/incremental"; }
    } >"$top/out/$1.log" 2>&1
}

run_rt() {
    if is_program "$1"; then
        rt run --jobs "$2" -- --version </dev/null
    else
        rt lib --jobs "$2"
    fi
}

# Removes what was proved here of all crates, but where rt has gone on.
forget() {
    local crate
    [ -f "$top/out/made" ] || return 0
    while read -r crate; do
        [ -d "$top/crates/$crate/out/incremental" ] || rm -rf "$top/crates/$crate/out"
    done <"$top/out/made"
    rm -f "$top/out/made"
}

# how far a running proof is, by the last count in its log: functions proved, and all of them
counted() { sed -n 's/^so far: \([0-9]* of [0-9]*\) functions.*/\1/p' "$top/out/$1.log" 2>/dev/null | tail -n 1; }

# lines of a crate's code, by which its share of the work is estimated
lines_of() { find "$top/crates/$1/src" -name '*.rt' -exec cat {} + | wc -l; }

# The minutes that are left, by the lines that are proved and the time that they took. Arguments: seconds so far, lines proved, all lines.
minutes_left() {
    [ "$2" -gt 0 ] && [ "$1" -ge 30 ] && echo ", about $(($1 * ($3 - $2) / $2 / 60 + 1)) minutes left"
}

failed() {
    tail -n 20 "$top/out/$1.log" >&2
    say "$1 is not proved; the whole log is $top/out/$1.log"
}

# Proves crates and those below them, each once those that it stands on are proved, as many side by side as there are jobs. What runs is
# said when it changes, and each half minute.
prove_all() {
    local -A job=() ended=() given=() lines=()
    local -A stands_on=()
    local crates crate lower ready shown='' line free count=0 proved=0 part all=0 now waiting=() start=$SECONDS said=$SECONDS
    mkdir -p "$top/out" || return 1
    mapfile -t crates < <(closure "$@")
    for crate in "${crates[@]}"; do
        lines[$crate]=$(lines_of "$crate") && all=$((all + ${lines[$crate]}))
        stands_on[$crate]=$(below "$crate")
    done
    while [ "$count" -lt "${#crates[@]}" ]; do
        waiting=()
        for crate in "${crates[@]}"; do
            [ -z "${job[$crate]:-}" ] && [ -z "${ended[$crate]:-}" ] || continue
            ready=1
            for lower in ${stands_on[$crate]}; do [ -n "${ended[$lower]:-}" ] || ready=0; done
            [ "$ready" = 0 ] || waiting+=("$crate")
        done
        # the jobs that no running proof has, shared among those that can start
        free=$(jobs_here)
        for crate in "${!job[@]}"; do free=$((free - ${given[$crate]})); done
        while [ "$free" -ge 1 ] && [ "${#waiting[@]}" -gt 0 ]; do
            crate=${waiting[0]}
            given[$crate]=$(((free + ${#waiting[@]} - 1) / ${#waiting[@]}))
            prove "$crate" "${given[$crate]}" &
            job[$crate]=$!
            free=$((free - ${given[$crate]}))
            waiting=("${waiting[@]:1}")
        done
        sleep 2
        line="proving, $count of ${#crates[@]} crates done:"
        now=$proved
        for crate in "${!job[@]}"; do
            part=$(counted "$crate")
            line+=" $crate${part:+ ($part functions)}"
            [ -z "$part" ] || now=$((now + ${lines[$crate]} * ${part% of *} / ${part#* of }))
            kill -0 "${job[$crate]}" 2>/dev/null && continue
            wait "${job[$crate]}" || { failed "$crate"; stop 1; }
            unset "job[$crate]"
            ended[$crate]=1
            count=$((count + 1))
            proved=$((proved + ${lines[$crate]}))
        done
        if [ "$line" != "$shown" ] || [ $((SECONDS - said)) -ge 30 ]; then
            say "$line$(minutes_left $((SECONDS - start)) "$now" "$all")"
            shown=$line
            said=$SECONDS
        fi
    done
}

# Copies a file that was built to out/, with the commit in it, and as old as the start of the run: take FILE NAME START
take() {
    cp "$1" "$top/out/$2.new" && "$top/tools/stamp.sh" "$top/out/$2.new" && touch -r "$3" "$top/out/$2.new" && mv "$top/out/$2.new" "$top/out/$2"
}
