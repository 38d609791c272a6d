#!/usr/bin/env python3
"""Compares what the example `crash` prints with what std finds there: crash.py PROGRAM [SIGNAL_MALLOC.so]

- The frames are those of std's unwinder below the handler's own, one for one, and each of them lies in the file and at the
  offset by which addr2line finds the functions of this program that std's Backtrace prints, inlined ones too.
- The program is ended by the signal, also where the stack has overflowed, whose frames are all of one function.
- No memory is asked for in the handler; and SIGNAL_MALLOC.so, which says so, does notice the memory that Backtrace takes.
"""

import re
import signal
import subprocess
import sys

PROGRAM, PRELOAD = sys.argv[1], sys.argv[2:]


def run(*arguments, preload=()):
    variables = {"LD_PRELOAD": preload[0]} if preload else None
    return subprocess.run([PROGRAM, *arguments], stderr=subprocess.PIPE, text=True, errors="replace", env=variables)


def fail(what, text):
    sys.exit(f"crash.py: {what}\n{text}")


def frames_of(text):
    """Each frame's address, file and offset."""
    return [(int(it[0], 16), it[1], it[2]) for it in re.findall(r"^#\d+ (0x\w+) (.*)\+(0x\w+)$", text, re.M)]


def functions_of(frames):
    """The functions of this program, by addr2line."""
    offsets = [offset for _, file, offset in frames if file == PROGRAM]
    command = ["addr2line", "-f", "-i", "-C", "-e", PROGRAM, *offsets]
    names = subprocess.run(command, capture_output=True, text=True, check=True).stdout.splitlines()[::2]
    return [re.sub(r"::h[0-9a-f]{16}$", "", name) for name in names if name.startswith("crash::")]


def compare(what):
    text = run(what, "beside").stderr
    ours = frames_of(text)
    std = [int(address, 16) for address in re.findall(r"^std (0x\w+)$", text, re.M)]
    while std and std[-1] == 0:
        std.pop()
    if not ours or std[-len(ours) :] != [address for address, _, _ in ours] or "the root of the stack" not in text:
        fail(f"{what}: other frames than std's", text)
    printed = re.findall(r"^ +\d+: (crash::.*)$", text, re.M)
    expected = [name for name in printed if name not in ("crash::print_beside", "crash::on_crash")]
    if functions_of(ours) != expected or len(expected) < 3:
        fail(f"{what}: {functions_of(ours)}, and std has {expected}", text)
    return len(ours)


def main():
    counts = [compare(what) for what in ("deep", "sort")]
    for what in ("deep", "sort", "overflow"):
        done = run(what, preload=PRELOAD)
        if done.returncode not in (-signal.SIGSEGV, 128 + signal.SIGSEGV) or "signal_malloc" in done.stderr:
            fail(f"{what}: status {done.returncode}", done.stderr)
    functions = functions_of(frames_of(done.stderr))
    if len(functions) < 190 or set(functions[3:]) != {"crash::recurse"} or "and more" not in done.stderr:
        fail("the frames of an overflow", done.stderr)
    if PRELOAD and run("deep", "beside", preload=PRELOAD).returncode != 9:
        fail("the memory that Backtrace takes is not noticed", "")
    print(f"crash.rs: {sum(counts)} frames as std's unwinder has them" + (", and no memory in the handler" if PRELOAD else ""))


main()
