#!/usr/bin/env python3
"""judge_dumps.py [--shown N] PROGRAM FOLDER..: stacks of dumps, beside other tools'.

Each file NAME.frames of a folder is a case: NAME beside it is a core file or a minidump, and a line `thread index: address` is a frame
as another tool has it, the innermost with the index 0. checks/stacks/make_dumps.sh makes such folders. PROGRAM, the built
framehop-stacks, runs on NAME with `--root`, and the address of its line number `index` of the block of `thread` must be the same. That
is the pc of the frame: for the innermost frame and for one that a signal interrupted the address of the next instruction, for all
others the return address, in the block as in gdb's and in LLDB's frames (they show the line of the call, but their pc is the return
address). Frames that a debugger makes up for inlined functions are not in the files.

Remarks begin with `#`. `# root: DIR` is where the files are that were mapped, relative to the folder; without it they are where they
were. Other remarks are not read.

Prints a line for each case: its threads, the frames of the judge and of the program, how many of them are equal from the innermost one
on, and how the threads compare:

  same          the same frames
  more here     the judge's frames are the first ones of the program's
  fewer here    the program's frames are the first ones of the judge's; with the last line of each such block, which says why
  different     a frame has another address: with the first such pair

Then the sums. Status 1 where a thread is different or missing, or where PROGRAM has another status than 0.
"""
import argparse
import os
import re
import subprocess
import sys

KINDS = ["same", "more here", "fewer here", "different", "missing"]


def read_case(path):
    """The frames of each thread as the judge has them, and the root."""
    threads, root = {}, ""
    folder = os.path.dirname(os.path.realpath(path))
    for line in open(path, encoding="utf-8"):
        remark = re.match(r"# root: (.*)", line)
        if remark:
            root = os.path.join(folder, remark[1])
        if line.startswith("#") or not line.strip():
            continue
        thread, index, address = re.fullmatch(r"(\d+) (\d+): (?:0x)?([0-9a-f]+)\n?", line).groups()
        frames = threads.setdefault(int(thread), [])
        if int(index) != len(frames):
            sys.exit(f"{path}: frame {index} of thread {thread} is out of order")
        frames.append(int(address, 16))
    return threads, root


def run_program(program, root, limit, dump):
    """The frames of each thread and how its walk ended, by the blocks that the program prints, and the finished run."""
    ran = subprocess.run([program, "--root", root, "--limit", str(limit), dump], capture_output=True, text=True, errors="replace")
    threads = {}
    for block in ran.stdout.split("\n\n"):
        lines = block.strip("\n").split("\n")
        head = re.search(r"(\d+)(?: \".*\")?(?: crashed by .*)?:$", lines[0])
        if head and len(lines) > 1:
            threads[int(head[1])] = [int(line.split(" ")[1], 16) for line in lines[1:-1]], lines[-1]
    return threads, ran


def compare(theirs, ours):
    """How two stacks compare, and how many of their frames are equal from the innermost one on."""
    equal = 0
    while equal < min(len(theirs), len(ours)) and theirs[equal] == ours[equal]:
        equal += 1
    if equal == len(theirs) == len(ours):
        return "same", equal
    if equal == len(theirs):
        return "more here", equal
    if equal == len(ours):
        return "fewer here", equal
    return "different", equal


def shown(at, frames):
    return f"{frames[at]:x}" if at < len(frames) else "-"


def main():
    given = argparse.ArgumentParser(description=__doc__, formatter_class=argparse.RawDescriptionHelpFormatter)
    given.add_argument("--shown", type=int, default=0, help="of threads that differ, print so many frames on both sides of the difference")
    given.add_argument("--limit", type=int, default=100000, help="the most frames of a stack")
    given.add_argument("program")
    given.add_argument("folder", nargs="+")
    given = given.parse_args()
    failed = cases = 0
    sums = dict.fromkeys(["threads", "theirs", "ours", "equal", *KINDS], 0)
    for path in (os.path.join(folder, name) for folder in given.folder for name in sorted(os.listdir(folder)) if name.endswith(".frames")):
        dump = path.removesuffix(".frames")
        judged, root = read_case(path)
        threads, ran = run_program(given.program, root, given.limit, dump)
        counts, remarks = dict.fromkeys(sums, 0), []
        if ran.returncode != 0:
            failed = 1
            remarks.append(f"status {ran.returncode}: {ran.stderr.strip()}")
        for thread, theirs in judged.items():
            frames, end = threads.get(thread, ([], "no block"))
            kind, equal = compare(theirs, frames) if thread in threads else ("missing", 0)
            counts[kind] += 1
            for name, count in ("threads", 1), ("theirs", len(theirs)), ("ours", len(frames)), ("equal", equal):
                counts[name] += count
            if kind == "fewer here":
                remarks.append(f"thread {thread}: {end} after frame {equal - 1}")
            elif kind in ("different", "more here"):
                remarks.append(f"thread {thread}: frame {equal}: here {shown(equal, frames)}, judge {shown(equal, theirs)}")
            if kind != "same":
                for at in range(max(0, equal - given.shown), min(equal + given.shown, max(len(theirs), len(frames)))):
                    remarks.append(f"    {at:4} {shown(at, frames):>16} {shown(at, theirs):>16}")
        failed |= counts["different"] > 0 or counts["missing"] > 0
        cases += 1
        for name, count in counts.items():
            sums[name] += count
        kinds = ", ".join(f"{counts[kind]} {kind}" for kind in KINDS if counts[kind])
        print(f"{os.path.basename(dump)}: threads {counts['threads']}, frames {counts['theirs']}, here {counts['ours']}, equal {counts['equal']}: {kinds}")
        for remark in remarks:
            print(f"    {remark}")
        sys.stdout.flush()
    kinds = ", ".join(f"{sums[kind]} {kind}" for kind in KINDS if sums[kind])
    print(f"{cases} cases: threads {sums['threads']}, frames {sums['theirs']}, here {sums['ours']}, equal {sums['equal']}: {kinds}")
    sys.exit(failed)


main()
