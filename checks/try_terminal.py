#!/usr/bin/env python3
"""try_terminal.py STACKS CHECK [EXPLAIN]: that the programs print no byte that a terminal obeys, whatever names others gave.

STACKS, CHECK and EXPLAIN are the built framehop-stacks, framehop-check and framehop-explain. Each name in recordings, core files,
minidumps, ELF files, folded stacks, maps of JIT compilers, lists of the kernel's functions, commands and folders becomes one of control
characters, of bytes that are no UTF-8, and of control characters of C1. What is printed and said must be UTF-8 without control
characters but line feeds, and must have the name in another form. Status 0 where it is so.
"""

import os
import subprocess
import sys
import tempfile
from pathlib import Path

CHECKS = Path(__file__).resolve().parent
DATA = CHECKS.parent / "crates/framehop_stacks_cli/data"
NAMES = CHECKS.parent / "tools/names.py"
DASK = CHECKS.parent / "tools/stacks_dask.py"
CHECKED = CHECKS.parent / "crates/framehop_check_cli/data/five_functions.so"
# ESC, BEL, CR, BS, DEL, a byte of C1 that is no UTF-8, the same as UTF-8, ESC
HOSTILE = b"\x1b[31m\x07\r\x08\x7f\x9b2J\xc2\x9b31m\x1b]0;t\x07"
# the same as valid UTF-8
HOSTILE_TEXT = HOSTILE.replace(b"\x9b2J", b"2J").decode()
# characters that are not seen: those that change the direction of others, have no width, or end lines and paragraphs
HIDDEN = "\u202e\u200b\u2028\u2029"
failed = []


def hostile(size):
    """A hostile name of so many bytes."""
    return (HOSTILE * (size // len(HOSTILE) + 1))[:size]


def with_hostile(file, *names):
    """The bytes of a file, in which a hostile name of the same size stands for each of these names."""
    data = file.read_bytes()
    for name in names:
        assert name in data, (file, name)
        data = data.replace(name, hostile(len(name)))
    return data


def obeyed(text, hidden):
    """What of a text a terminal might obey, or is one of these characters that are not seen."""
    try:
        characters = text.decode()
    except UnicodeDecodeError as error:
        return repr(text[max(0, error.start - 10) : error.start + 10])
    bad = [at for at, c in enumerate(characters) if c != "\n" and (ord(c) < 32 or 0x7F <= ord(c) < 0xA0 or c in hidden)]
    return repr(characters[max(0, bad[0] - 10) : bad[0] + 10]) if bad else None


def try_program(what, arguments, has=b"\\x", given=None, env=None, hidden=""):
    """Runs a program, whose output and messages together must have these bytes."""
    done = subprocess.run(arguments, input=given, capture_output=True, timeout=60, env=env)
    for stream, text in (("output", done.stdout), ("error output", done.stderr)):
        found = obeyed(text, hidden)
        if found:
            failed.append(f"{what}: the {stream} has {found}")
    if has not in done.stdout + done.stderr:
        failed.append(f"{what}: nothing of the name is printed; status {done.returncode}: {done.stderr[-200:]}")


def try_stacks(stacks, work):
    def file(name, data):
        path = work / name
        path.parent.mkdir(parents=True, exist_ok=True)
        path.write_bytes(data)
        return str(path)

    # names of threads and of files; then names of functions
    recording = file("names.data", with_hostile(DATA / "tiny.data", b"tiny"))
    file("root/srv/tiny", with_hostile(DATA / "srv/tiny", b"even", b"spin"))
    for form in ([], ["--frames"], ["--explain"], ["--svg"], ["--speedscope"], ["--comm", "none"]):
        # where no sample is counted, no file is read and told
        mark = b"" if "none" in form else b"\\x"
        try_program(f"a recording's names {form}", [stacks, *form, "--root", work / "nowhere", recording], mark)
        try_program(f"functions' names {form}", [stacks, *form, "--root", work / "root", str(DATA / "tiny.data")], mark)
    # a name of UTF-8 without control characters, but with one that turns the order of a line
    hidden = file("hidden.data", (DATA / "tiny.data").read_bytes().replace(b"tiny", "\u202ex".encode()))
    for form in ([], ["--frames"], ["--explain"], ["--svg"], ["--speedscope"]):
        try_program(f"unseen characters {form}", [stacks, *form, "--root", work / "nowhere", hidden], hidden=HIDDEN)
    events = work / "events.data"
    subprocess.run([sys.executable, CHECKS / "stacks/made_up_recording.py", events, "events"], check=True)
    jit = work / "jit.data"
    subprocess.run([sys.executable, CHECKS / "stacks/made_up_recording.py", jit, "jit"], check=True)
    for name in (b"cycles", b"faults", b"page-faults"):
        if name in events.read_bytes():
            path = file("named-events.data", with_hostile(events, name))
            try_program("names of events", [stacks, "--event", "none", path])
    file("maps/perf-300.map", b"".join(b"%x 1000 %s\n" % (at, hostile(20).replace(b"\n", b"")) for at in range(0, 0x100000, 0x1000)))
    try_program("a map of a JIT compiler", [stacks, "--perf-map", work / "maps", str(jit)], b"")
    # core files and minidumps: names of processes, of threads, of modules
    core = file("names.core", with_hostile(DATA / "crash.core", b"/usr/local/bin/crash", b"crash"))
    dump = file("names.dmp", with_hostile(DATA / "small.dmp", "small.exe".encode("utf-16-le")))
    for form in ([], ["--json"], ["--explain"]):
        try_program(f"a core file's names {form}", [stacks, *form, core], b"\\" if "--json" in form else b"\\x")
        try_program(f"a minidump's names {form}", [stacks, *form, dump], b"")
    # folded stacks, read by name and from standard input; a folder whose files have such names
    folded = b"app;%s;main 3\nother;caf\xc3\xa9 1\n" % HOSTILE
    path = file("some.folded", b"a;b 1\n" * 1000 + folded)
    for form in ([], ["--svg"], ["--speedscope"]):
        try_program(f"folded stacks {form}", [stacks, *form, path])
        try_program(f"folded stacks from standard input {form}", [stacks, *form, "-"], given=b"a;b 1\n" * 1000 + folded)
    # names of Rust that c++filt writes with a control character of C1, and with characters that are not seen
    for name in (b"_RNvC1au2_1a", b"_RNvC1au3zvg", b"_RNvC1au3zug", b"_RNvC1au3tvg", b"_RNvC1au3uvg"):
        for form in ([], ["--svg"], ["--speedscope"]):
            asked = [sys.executable, NAMES, stacks, "--demangle", *form, "-"]
            try_program(f"a mangled name {name} {form}", asked, given=b"app;%s 3\n" % name, hidden=HIDDEN)
    # a folder that has no recordings, and what is said of it by the script for many
    empty = work / "\u202ea\u200bb\u2028\x1b\u0085"
    empty.mkdir()
    try_program("a folder without recordings", [sys.executable, DASK, "--program", stacks, empty], hidden=HIDDEN)
    named = work / "folder"
    named.mkdir()
    named.joinpath(HOSTILE_TEXT.replace("\0", "") + ".data").write_bytes(b"PERFILE2")
    try_program("a folder's names", [stacks, str(named)])
    try_program("a name that is not there", [stacks, HOSTILE_TEXT])


def try_explain(explain, work):
    commands = work / "commands.json"
    case = (CHECKS / "cases/explain/tells_that_a_section_has_no_svma.json").read_text()
    escaped = "".join("\\u%04x" % ord(c) for c in HOSTILE_TEXT)
    commands.write_text(case.replace('"m"', f'"{escaped}"'))
    try_program("a module's name", [explain, str(commands)], b"?")


def main():
    stacks, check, *explain = sys.argv[1:4]
    with tempfile.TemporaryDirectory() as folder:
        work = Path(folder)
        try_stacks(stacks, work)
        checked = work / "names.so"
        checked.write_bytes(CHECKED.read_bytes().replace(b"missing_push", b"\x1b[31m\x07\r\x08\x7fpus"))
        try_program("names of functions that are checked", [check, str(checked)])
        if explain:
            try_explain(explain[0], work)
    for line in failed:
        print(line)
    sys.exit(1 if failed else 0)


main()
