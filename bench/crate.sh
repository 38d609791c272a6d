#!/usr/bin/env bash
# crate.sh NAME COMMAND [ARGUMENT..]: `rt COMMAND ARGUMENT..` in a crate of this folder, as `crate.sh framehop_bench run`.
#
# These crates are beside the gate, which reads every file whose name ends in .rt: so theirs end in .rt.txt. They are laid out in
# a temporary repository in out/, with hard links to the files of the others and to what is proved of them. What is proved of
# the crate itself is kept in out/NAME-kept for the next run. A program that is built is copied to out/NAME at the top.
set -eu
here=$(cd "$(dirname "$(realpath -- "${BASH_SOURCE[0]}")")" && pwd)
top=$(dirname "$here")
name=$1
kept=$top/out/$name-kept
mkdir -p "$top/out"
room=$(mktemp -d "$top/out/$name-XXXXXX")
trap 'rm -rf "$room"' EXIT

git init -q "$room"
cp "$top/HANDLES" "$room/"
cat "$top/crates.txt" "$here/crates.lines" >"$room/crates.txt"
cp -al "$top/crates" "$room/crates"
while IFS=: read -r crate _; do
    cp -r "$here/$crate" "$room/crates/$crate"
    for file in "$room/crates/$crate"/src/*.rt.txt; do mv "$file" "${file%.txt}"; done
done <"$here/crates.lines"
[ ! -d "$kept" ] || mv "$kept" "$room/crates/$name/out"

cd "$room/crates/$name"
status=0
input=/dev/null
[ ! -f stdin ] || input=stdin
rt "${@:2}" <"$input" || status=$?
if [ "$2" = run ] && [ -x "out/$name" ]; then
    cp "out/$name" "$top/out/$name"
fi
[ ! -d out ] || mv out "$kept"
exit "$status"
