#!/usr/bin/env python3
"""try_names.py STACKS [EVERY]: every pair of options of framehop-stacks, with --demangle, --inlines and --lines (tools/names.py), too.

STACKS is the built framehop-stacks. Of every pair, or only of each EVERY-th: those that docs/PROGRAMS.md says do not go together, and no
others, must be refused with status 2, nothing printed and a reason; what is printed must be JSON or a picture where that is asked for.
With each of the three options, and with several of them, the status, the output and what is said must be the program's own, of files
whose names are not mangled and that have no debug information. Then mangled names, which c++filt makes hostile: with quotes, semicolons,
and a control character that a terminal obeys. Status 0 where all is so.
"""

import itertools
import json
import os
import shutil
import subprocess
import sys
import tempfile
import xml.etree.ElementTree
from pathlib import Path

CHECKS = Path(__file__).resolve().parent
DATA = CHECKS.parent / "crates/framehop_stacks_cli/data"
NAMES = CHECKS.parent / "tools/names.py"
OURS = ("--demangle", "--inlines", "--lines")
# Several of them, which are tried with one option.
OURS_TOGETHER = (["--demangle", "--inlines"], ["--demangle", "--lines"], ["--lines", "--inlines"])
# The first two are tried with pairs of options.
FILES = ["tiny.data", "crash.core", "made-up.data", "small.dmp", "old.folded", "-", "missing"]
# Each option once, as it may be given.
OPTIONS = [
    ["--frames"],
    ["--explain"],
    ["--sure"],
    ["--by-thread"],
    ["--kernel"],
    ["--json"],
    ["--diff"],
    ["--speedscope"],
    ["--svg"],
    ["--flame"],
    ["--title", "a 'b' <&> \"c\""],
    ["--title=x"],
    ["--limit", "3"],
    ["--limit=many"],
    ["--comm", "tiny"],
    ["--pid", "200"],
    ["--tid", "200"],
    ["--event", "0"],
    ["--time", ",9"],
    ["--exec", "usr/local/bin/crash"],
    ["--debug-dir", "."],
    ["--buildid-dir", "."],
    ["--vdso", "srv/tiny"],
    ["--perf-map", "."],
    ["--kallsyms", "old.folded"],
    ["--version"],
    ["--unknown"],
]
# Pairs that do not go together, and what each of some options needs.
APART = {
    "--frames": "--sure --by-thread --svg --speedscope --diff",
    "--explain": "--sure --by-thread --svg --speedscope --diff --json --kernel",
    "--json": "--svg --speedscope --diff --sure --kernel",
    "--speedscope": "--svg --diff",
    # (the other file is one of folded stacks, which don't say what is sure)
    "--diff": "--sure",
}
NEEDS = {"--flame": {"--svg"}, "--title": {"--svg", "--speedscope"}, "--kallsyms": {"--kernel"}}
# What a kind of file has none of: folded stacks.
NONE_OF = {"tiny.data": set(), "crash.core": {"--svg", "--speedscope", "--diff", "--sure"}}
# Options that are refused, or print something else, whatever the others are.
OTHERS = {"--limit=many", "--version", "--unknown"}
# What c++filt -i makes of names, as it was printed by that of binutils 2.40; hidden characters as they are printed here.
MANGLED = {
    "_Zli2_sPKcm": 'operator"" _s(char const*, unsigned long)',
    "_ZN3foo17h0123456789abcdefE": "foo",
    "_RINvC1a1fKc3b_E": "a::f::<';'>",
    "_Z1av.cold": "a() [clone .cold]",
    "_ZNSt3mapISsiED1Ev@plt": "std::map<std::string, int>::~map()@plt",
    "_RNvC1au2_1a": "a::\\xc2\\x9b",
    "_RNvC1au3zvg": "a::\\xe2\\x80\\xae",
    "_RNvC1au6ab_g1t": "a::a\\xe2\\x80\\x8bb",
    "_RNvC1au3tvg": "a::\\xe2\\x80\\xa8",
    "_RNvC1au3_9ca": "a::é",
}
failed = []


def ran(command, given=b"", **how):
    done = subprocess.run(list(map(str, command)), cwd=DATA, input=given, capture_output=True, timeout=600, **how)
    return done.returncode, done.stdout, done.stderr


def named(program, *words, given=b""):
    """A run by way of names.py, which must be UTF-8."""
    status, out, errors = ran([sys.executable, NAMES, program, *words], given)
    return status, out.decode(), errors.decode()


def without_lines(out):
    """JSON without what --inlines and --lines add where nothing is known."""
    for empty in ('"inlined":[],', '"source":null,', ',"source":null'):
        out = out.replace(empty.encode(), b"")
    return out


def is_refused(names, path):
    """Whether options are wrong usage, of a file."""
    apart = any(name in names and names & {*others.split()} for name, others in APART.items())
    return apart or any(name in names and not names & needed for name, needed in NEEDS.items()) or bool(names & NONE_OF[path])


def is_well_formed(names, out):
    """Whether what is printed is JSON or a picture, where that is asked for."""
    try:
        if "--svg" in names:
            xml.etree.ElementTree.fromstring(out)
        elif names & {"--json", "--speedscope"}:
            # (a line for each dump, and several for a recording)
            return [json.loads(line) for line in out.decode().split("\n")[:-1]] != [] or json.loads(out) is not None
    except (ValueError, xml.etree.ElementTree.ParseError):
        return False
    return True


def try_usage(words, names, path, wanted):
    """That a pair is refused where it is wrong usage, and else gives what it is asked for."""
    if not names & OTHERS and path in NONE_OF:
        status, out, said = wanted
        # (where nothing was counted the profile for speedscope is an empty one)
        has_output = out and "--speedscope" not in names
        if (status == 2) != is_refused(names, path) or (status == 2 and (has_output or not said)):
            failed.append(f"{words}: status {status}, {said[-200:]!r}")
        if status == 0 and not is_well_formed(names, out):
            failed.append(f"{words}: {out[:300]!r}")


def try_pair(program, options, path, given):
    words = ["--root", ".", *itertools.chain(*options), *([path, "old.folded"] if ["--diff"] in options else [path])]
    names = {option[0] if option[0] in OTHERS else option[0].partition("=")[0] for option in options}
    wanted = ran([program, *words], given)
    try_usage(words, names, path, wanted)
    for ours in [*([name] for name in OURS), *(OURS_TOGETHER if len(options) < 2 else [])]:
        found = ran([sys.executable, NAMES, program, *ours, *words], given)
        found = found[0], without_lines(found[1]), found[2]
        if found != wanted:
            failed.append(f"{ours} {words}: {[f'{a!r} and not {b!r}' for a, b in zip(found, wanted) if a != b]}"[:800])


def try_folded(program):
    """Names in folded stacks, as text, for speedscope, in a picture and beside others."""
    given = "".join(f"app;main;{name};{name}_[k] 2\n" for name in MANGLED).encode()
    labels = {name.replace(";", ":") for name in MANGLED.values()}
    status, out, _ = named(program, "--demangle", "-", given=given)
    wanted = sorted(f"app;main;{label};{label}_[k] 2\n" for label in labels)
    if (status, sorted(out.splitlines(True))) != (0, wanted):
        failed.append(f"folded stacks: {out}")
    status, out, _ = named(program, "--demangle", "--speedscope", "--title", 'a "b"', "-", given=given)
    scope = json.loads(out)
    if {frame["name"] for frame in scope["shared"]["frames"]} != {"app", "main", *labels, *(f"{label}_[k]" for label in labels)} or scope["name"] != 'a "b"':
        failed.append(f"--speedscope: {out}")
    status, out, _ = named(program, "--demangle", "--diff", "--svg", "-", "old.folded", given=given)
    if status or "</svg>" not in out:
        failed.append(f"--diff --svg: status {status}, {out[:200]}")
    status, out, _ = named(program, "--demangle", "-", given=b"a;_Z1av 1\na;_Z1av 2\nb;_ZN1a17h0123456789abcdefE 3\nb;_ZN1a17hfedcba9876543210E 4\n")
    if out != "a;a() 3\nb;a 7\n":
        failed.append(f"names that are demangled to one: {out}")


def try_frames(program, work):
    """Names in blocks and in JSON: the functions of the stored files under mangled names of the same length."""
    renamed = {"srv/tiny": [(b"spin\0", b"_Z1a\0")], "usr/local/bin/crash": [(b"outer\0", b"_Z1av\0"), (b"wait_for_ever\0", b"_RIC2abKc3b_E\0")]}
    for name, names in renamed.items():
        file = work / name
        file.parent.mkdir(parents=True)
        data = DATA.joinpath(name).read_bytes()
        for old, new in names:
            assert old in data, old
            data = data.replace(old, new)
        file.write_bytes(data)
    demangled = [("spin", "a"), ("outer", "a()"), ("wait_for_ever", "ab::<':'>")]
    for words in (["tiny.data"], ["--frames", "tiny.data"], ["--explain", "tiny.data"], ["crash.core"], ["--json", "crash.core"], ["--json", "tiny.data"], ["--explain", "crash.core"]):
        # (the files are read at other paths)
        wanted = ran([program, "--root", ".", *words])[1].decode().replace(f'"path":"{DATA}/', f'"path":"{os.path.realpath(work)}/')
        for old, new in demangled:
            for before, after in ((" ", "+0x"), (";", " "), ('"', '"')):
                wanted = wanted.replace(f"{before}{old}{after}", f"{before}{new}{after}")
        _, out, _ = named(program, "--demangle", "--root", work, *words)
        # (folded stacks are in the order of the new names)
        if sorted(out.splitlines()) != sorted(wanted.splitlines()):
            failed.append(f"{words}: {out[:600]}")


def try_tools(program, work):
    """Where a tool is not there: a line that says so, and status 2."""
    (work / "bin").mkdir()
    for ours in OURS:
        found = ran([sys.executable, NAMES, program, ours, "old.folded"], env={"PATH": str(work / "bin")})
        if found[0] != 2 or found[1] or found[2].count(b"\n") != 1 or b"PATH" not in found[2]:
            failed.append(f"{ours} without its tool: {found}")


def main():
    program = shutil.which(os.path.abspath(sys.argv[1]))
    folded = DATA.joinpath("old.folded").read_bytes()
    alone = [[], *([option] for option in OPTIONS)]
    pairs = [list(pair) for pair in itertools.combinations(OPTIONS, 2)]
    tried = [*itertools.product(alone, FILES), *itertools.product(pairs, FILES[:2])]
    tried = tried[:: int(sys.argv[2]) if len(sys.argv) > 2 else 1]
    for options, path in tried:
        try_pair(program, options, path, folded)
    with tempfile.TemporaryDirectory() as work:
        try_folded(program)
        try_frames(program, Path(work))
        try_tools(program, Path(work))
    for line in failed:
        print(line)
    print(f"{len(tried)} pairs of options and files: {len(failed)} differ")
    sys.exit(1 if failed else 0)


main()
