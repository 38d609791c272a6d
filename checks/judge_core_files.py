#!/usr/bin/env python3
"""judge_core_files.py [--keep DIR] [PROGRAM]: stacks of core files, beside gdb's.

Compiles processes of different make, lets each come to a stop, takes its core file (the kernel's where it crashes, else by gdb's
`gcore`), and asks both for the addresses of the frames of each thread, the innermost first. Prints for each process how many threads
have the same addresses to the same end, how many have all of gdb's with more after them, and which others there are. Then the same
with the files of the process taken away, where the core file has their pages too. PROGRAM is the built program, out/framehop-stacks if
none is named. Needs gcc, g++, gdb and python3. Status 1 where a stack contradicts gdb's.
"""
import argparse
import os
import re
import resource
import shutil
import signal
import subprocess
import sys
import tempfile
import time

TOP = os.path.dirname(os.path.dirname(os.path.realpath(__file__)))

DEEP = """
__attribute__((noinline)) int third(volatile int *at) { stop(at); return *at + 1; }
__attribute__((noinline)) int second(volatile int *at, int n) { char room[100]; room[n] = 1; return n > 0 ? second(at, n - 1) + room[n] : third(at) + 1; }
__attribute__((noinline)) int first(volatile int *at) { return second(at, 5) + 1; }
"""

WAIT = """
#include <stdio.h>
#include <unistd.h>
static void stop(volatile int *at) { puts("ready"); fflush(stdout); for (;;) pause(); }
"""

CRASH = """
static void stop(volatile int *at) { *at = 1; }
"""

MAIN = """
int main(void) { volatile int value = 0; return first(&value); }
"""

SIGNAL = """
#include <signal.h>
#include <stdio.h>
#include <unistd.h>
static void stop(volatile int *at) { puts("ready"); fflush(stdout); for (;;) pause(); }
""" + DEEP + """
static void handler(int number) { volatile int value = number; first(&value); }
__attribute__((noinline)) int raised(void) { raise(SIGUSR1); return 1; }
int main(void) { signal(SIGUSR1, handler); return raised() + 1; }
"""

NULL_CALL = """
int (*volatile function)(int) = 0;
__attribute__((noinline)) int calls(int n) { return function(n) + 1; }
int main(void) { return calls(3) + 1; }
"""

OVERFLOW = """
__attribute__((noinline)) int deeper(int n) { volatile char room[1000]; room[n % 1000] = n; return deeper(n + 1) + room[n % 1000]; }
int main(void) { return deeper(0); }
"""

THREADS = """
#include <pthread.h>
""" + WAIT + DEEP + """
static pthread_barrier_t all;
static void *run(void *at) { pthread_barrier_wait(&all); usleep(100000); for (;;) { volatile int value = 0; if (at) first(&value); pause(); } }
int main(void) {
    pthread_t threads[3];
    pthread_barrier_init(&all, 0, 4);
    for (long i = 0; i < 3; i++) pthread_create(&threads[i], 0, run, (void *)i);
    run((void *)1);
}
"""

CATCH = """
#include <cstdio>
#include <stdexcept>
#include <string>
#include <unistd.h>
static void stop(volatile int *) { std::puts("ready"); std::fflush(stdout); for (;;) pause(); }
struct Guard { std::string text; ~Guard() { text += "x"; } };
__attribute__((noinline)) int throws(volatile int *at, int n) { Guard guard{"some text that is long enough"}; if (n == 0) throw std::runtime_error("thrown"); return throws(at, n - 1) + guard.text.size(); }
__attribute__((noinline)) int catches(volatile int *at) { try { return throws(at, 4); } catch (const std::exception &error) { stop(at); return 1; } }
int main() { volatile int value = 0; return catches(&value) + 1; }
"""

ABORT = """
#include <stdexcept>
__attribute__((noinline)) int throws(int n) { if (n == 0) throw std::runtime_error("thrown"); return throws(n - 1) + 1; }
int main() { return throws(4) + 1; }
"""

SLEEP = """
#include <stdio.h>
#include <stdlib.h>
#include <time.h>
static int compare(const void *a, const void *b) { static int n; if (n++ == 50) { puts("ready"); fflush(stdout); struct timespec t = {1000, 0}; nanosleep(&t, 0); } return *(int *)a - *(int *)b; }
int main(void) { int list[1000]; for (int i = 0; i < 1000; i++) list[i] = (i * 7919) % 1000; qsort(list, 1000, sizeof *list, compare); return list[0]; }
"""

PYTHON = """
import json, sys, time
class Stops:
    def __init__(self): self.n = 0
    def __lt__(self, other):
        print("ready", flush=True)
        time.sleep(1000)
def deeper(n): return sorted([Stops(), Stops()]) if n == 0 else [deeper(n - 1) for _ in range(1)]
deeper(5)
"""

# name, compiler, options, source, whether it crashes
PROCESSES = [
    ("C", "gcc", ["-O2", "-g"], WAIT + DEEP + MAIN, False),
    ("C without frame pointers and without optimization", "gcc", ["-O0", "-fomit-frame-pointer"], WAIT + DEEP + MAIN, False),
    ("C with frame pointers", "gcc", ["-O1", "-fno-omit-frame-pointer"], WAIT + DEEP + MAIN, False),
    ("C, static", "gcc", ["-O2", "-static"], WAIT + DEEP + MAIN, False),
    ("C++ in a catch", "g++", ["-O2"], CATCH, False),
    ("C++, an exception that nobody catches", "g++", ["-O2"], ABORT, True),
    ("in a system call, below qsort", "gcc", ["-O2"], SLEEP, False),
    ("in a signal handler's callee", "gcc", ["-O2"], SIGNAL, False),
    ("a write through a null pointer", "gcc", ["-O2"], "#define CRASH\n" + CRASH + DEEP + "int main(void) { return first(0); }", True),
    ("a call of a null pointer", "gcc", ["-O2"], NULL_CALL, True),
    ("stack overflow", "gcc", ["-O0"], OVERFLOW, True),
    ("four threads", "gcc", ["-O2", "-pthread"], THREADS, False),
    ("Python", None, [], PYTHON, False),
]

# prints the thread and the program counters of its frames; inlined functions and those that ended by a jump have no frame of their own
ASKED = """
python
gdb.execute("set pagination off")
gdb.execute("set backtrace past-main on")
gdb.execute("set backtrace past-entry on")
for thread in sorted(gdb.selected_inferior().threads(), key=lambda it: it.num):
    thread.switch()
    frame, list = gdb.newest_frame(), []
    while frame is not None and len(list) < LIMIT:
        if frame.type() not in (gdb.INLINE_FRAME, gdb.TAILCALL_FRAME):
            list.append("%x" % frame.pc())
        try:
            frame = frame.older()
        except gdb.error as error:
            print("why", error)
            break
    print("thread", thread.ptid[1] or thread.ptid[0], *list)
"""


def compiled(folder, name, compiler, options, source):
    """The command that runs a process."""
    if compiler is None:
        file = f"{folder}/process.py"
        with open(file, "w") as it:
            it.write(source)
        return [os.path.realpath(sys.executable), file]
    file = f"{folder}/process.{'cc' if compiler == 'g++' else 'c'}"
    with open(file, "w") as it:
        it.write(source)
    subprocess.run([compiler, "-w", *options, "-o", f"{folder}/process", file], check=True)
    return [f"{folder}/process"]


def crash_limits():
    resource.setrlimit(resource.RLIMIT_CORE, (resource.RLIM_INFINITY, resource.RLIM_INFINITY))
    resource.setrlimit(resource.RLIMIT_STACK, (1 << 20, 1 << 20))


def core_of(folder, command, crashes, whole):
    """Runs a process to its stop, and returns its core file. With `whole` it has the pages of files, too."""

    def before():
        if crashes:
            crash_limits()
        with open("/proc/self/coredump_filter", "w") as it:
            it.write("0x7f" if whole else "0x33")

    ran = subprocess.Popen(command, cwd=folder, stdout=subprocess.PIPE, stderr=subprocess.DEVNULL, preexec_fn=before)
    if crashes:
        ran.wait(60)
        found = [it for it in os.listdir(folder) if re.fullmatch(r"core(\.\d+)?", it)]
        if not found:
            return None
        os.rename(f"{folder}/{found[0]}", f"{folder}/the.core")
        return f"{folder}/the.core"
    ran.stdout.readline()
    time.sleep(0.5)
    subprocess.run(["gcore", "-o", f"{folder}/taken", str(ran.pid)], stdout=subprocess.DEVNULL, stderr=subprocess.DEVNULL)
    ran.send_signal(signal.SIGKILL)
    ran.wait()
    file = f"{folder}/taken.{ran.pid}"
    return file if os.path.exists(file) else None


def frames_of_gdb(program, core, limit):
    with tempfile.NamedTemporaryFile("w", suffix=".gdb") as script:
        script.write(ASKED.replace("LIMIT", str(limit)))
        script.flush()
        said = subprocess.run(["gdb", "-batch", "-nx", "-x", script.name, program, core], capture_output=True, text=True, errors="replace").stdout
    return {int(words[1]): words[2:] for words in map(str.split, said.splitlines()) if words[:1] == ["thread"]}


def frames_here(program, core, root, limit):
    """The addresses of each thread, how its walk ended, and the status."""
    ran = subprocess.run([program, "--limit", str(limit), "--root", root, core], capture_output=True, text=True, errors="replace")
    threads = {}
    for block in ran.stdout.split("\n\n"):
        lines = block.strip("\n").split("\n")
        if len(lines) < 2:
            continue
        tid = int(re.search(r"(\d+)(?: crashed by .*)?:$", lines[0])[1])
        threads[tid] = ([it.split(" ")[1] for it in lines[1:-1]], lines[-1])
    return threads, ran


def compared(name, theirs, ours, shown):
    counts = {"the same": 0, "more here": 0, "more in gdb": 0, "others": 0}
    ends = {}
    for tid, frames in theirs.items():
        found, end = ours.get(tid, ([], "[no thread]"))
        ends[end] = ends.get(end, 0) + 1
        if found == frames:
            kind = "the same"
        elif found[: len(frames)] == frames:
            kind = "more here"
        elif frames[: len(found)] == found:
            kind = "more in gdb"
        else:
            kind = "others"
        counts[kind] += 1
        if kind != "the same" and shown:
            print(f"    thread {tid}: {kind}; here {len(found)}, gdb {len(frames)}")
            for at in range(min(max(len(found), len(frames)), 40)):
                pair = (found[at] if at < len(found) else "-", frames[at] if at < len(frames) else "-")
                if pair[0] != pair[1]:
                    print(f"        {at:3} {pair[0]:>16} {pair[1]:>16}")
    words = ", ".join(f"{count} {kind}" for kind, count in counts.items() if count)
    frames = sum(len(it) for it in theirs.values())
    print(f"{name}: {len(theirs)} threads, {frames} frames in gdb: {words}; ends {' '.join(f'{end} {count}' for end, count in ends.items())}", flush=True)
    return counts["others"]


def main():
    given = argparse.ArgumentParser(description=__doc__, formatter_class=argparse.RawDescriptionHelpFormatter)
    given.add_argument("--keep", help="a folder in which the core files stay")
    given.add_argument("--shown", action="store_true", help="print the frames that differ")
    given.add_argument("--limit", type=int, default=2000)
    given.add_argument("program", nargs="?", default=f"{TOP}/out/framehop-stacks")
    given = given.parse_args()
    top = given.keep or tempfile.mkdtemp(prefix="cores-")
    contradicting = 0
    for number, (name, compiler, options, source, crashes) in enumerate(PROCESSES):
        folder = f"{top}/{number}"
        shutil.rmtree(folder, ignore_errors=True)
        os.makedirs(folder)
        command = compiled(folder, name, compiler, options, source)
        for whole in (False, True):
            core = core_of(folder, command, crashes, whole)
            if core is None:
                print(f"{name}: no core file")
                continue
            theirs = frames_of_gdb(command[0], core, given.limit)
            root = f"{folder}/nothing" if whole else ""
            ours, ran = frames_here(given.program, core, root, given.limit)
            if ran.returncode != 0:
                print(f"{name}: status {ran.returncode}: {ran.stderr.strip()}")
                contradicting += 1
            contradicting += compared(name + (", without its files" if whole else ""), theirs, ours, given.shown)
            os.rename(core, f"{folder}/{'whole' if whole else 'usual'}.core")
    if not given.keep:
        shutil.rmtree(top)
    sys.exit(1 if contradicting else 0)


main()
