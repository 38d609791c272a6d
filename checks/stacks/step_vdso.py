#!/usr/bin/env python3
"""step_vdso.py PROGRAM: the stack at each instruction of a function of the vdso, of framehop-stacks and of gdb.

Compiles a program that asks for the time, and lets gdb step through `clock_gettime` of the vdso, one instruction after another, until it
returns. At each one gdb writes a core file, and its backtrace is compared with what PROGRAM, the built framehop-stacks, prints of it.
Prints how many are the same; status 1 where one is not. Needs gcc and gdb.
"""
import os
import re
import subprocess
import sys
import tempfile

SOURCE = """
#include <time.h>
__attribute__((noinline)) static int asks(struct timespec *at) { return clock_gettime(CLOCK_MONOTONIC, at) + 1; }
__attribute__((noinline)) static int middle(struct timespec *at) { return asks(at) * 2; }
int main(void) { struct timespec at; asks(&at); return middle(&at); }
"""

STEPS = """
import gdb
gdb.execute("set pagination off")
gdb.execute("set backtrace past-main on")
gdb.execute("set backtrace past-entry on")
gdb.execute("set auto-load safe-path /")
gdb.execute("break middle")
gdb.execute("run")

def name_at(pc):
    return gdb.execute(f"info symbol {pc:#x}", to_string=True)

def frames():
    frame, pcs = gdb.newest_frame(), []
    while frame is not None:
        if frame.type() not in (gdb.INLINE_FRAME, gdb.TAILCALL_FRAME):
            pcs.append(f"{frame.pc():x}")
        frame = frame.older()
    return pcs

vdso = gdb.execute("info auxv", to_string=True)
start = next(int(line.split()[-1], 16) for line in vdso.splitlines() if "SYSINFO_EHDR" in line)
within = lambda: start <= gdb.newest_frame().pc() < start + 0x2000
while not within():
    gdb.execute("stepi", to_string=True)
step = 0
while within() and step < 400:
    gdb.execute(f"generate-core-file {step}.core", to_string=True)
    print("frames", step, *frames())
    gdb.execute("stepi", to_string=True)
    step += 1
"""


def main():
    if len(sys.argv) != 2:
        sys.exit(__doc__.splitlines()[0])
    program = os.path.realpath(sys.argv[1])
    with tempfile.TemporaryDirectory() as folder:
        with open(os.path.join(folder, "time.c"), "w") as file:
            file.write(SOURCE)
        with open(os.path.join(folder, "steps.py"), "w") as file:
            file.write(STEPS)
        subprocess.run(["gcc", "-O1", "-o", "time", "time.c"], cwd=folder, check=True)
        told = subprocess.run(["gdb", "-batch", "-nx", "-x", "steps.py", "time"], cwd=folder, capture_output=True, text=True).stdout
        steps = [line.split()[1:] for line in told.splitlines() if line.startswith("frames ")]
        same, others = 0, []
        for step, *expected in steps:
            printed = subprocess.run([program, f"{step}.core"], cwd=folder, capture_output=True, text=True).stdout
            found = re.findall(r"^([0-9a-f]+) ", printed, re.M)
            if found == expected and "[root]" in printed:
                same += 1
            else:
                others.append((step, expected, found, printed.splitlines()[-2:]))
        print(f"{len(steps)} instructions, {same} stacks the same")
        for other in others[:10]:
            print(*other, sep="\n    ")
        sys.exit(0 if steps and not others else 1)


main()
