#!/usr/bin/env python3
"""judge_lines.py STACKS FILE..: lines and inlined functions, beside other tools'.

STACKS is the script framehop-stacks, or a built program. Of a core file the judge is `eu-stack -i -s`, of a recording `perf script` with
srclines: of each frame, inlined ones too, that both have, from the innermost on, the line of the source and the name of its file must
be the same; of a recording the names of functions without their parameters and the numbers of their lines, since perf takes the name of
another file. Prints how many frames are the same, and each pair that is not. Status 1 where one is not.
"""

import collections
import re
import subprocess
import sys
from pathlib import Path

NAMES = Path(__file__).resolve().parents[2] / "tools/names.py"


def output(*command):
    return subprocess.run(command, stdout=subprocess.PIPE, stderr=subprocess.DEVNULL, check=False).stdout.decode()


def bare(name):
    """A name without parameters, template arguments, namespaces, and the suffix of a clone."""
    name = re.sub(r" \[clone .*", "", name)
    name = re.sub(r"\(anonymous namespace\)::|\(\) const|\bconst$", "", name)
    while True:
        shorter = re.sub(r"<[^<>]*>|\([^()]*\)", "", name)
        if shorter == name:
            break
        name = shorter
    words = name.split("::")[-1].split(" ")
    return words[-1] if "operator" not in name else name[name.index("operator") :]


def program_stacks(program, path, *options):
    """The frames of each block, the innermost first: (function, file, line)."""
    text = output(sys.executable, str(NAMES), program, "--lines", "--demangle", *options, path)
    for block in text.split("\n\n"):
        head, *lines = block.strip("\n").split("\n")
        frames = []
        for line in lines:
            place = re.search(r" at ([^()]*):(\d+)$", line)
            name = re.match(r"(?:#\d+ )?[0-9a-f]+ (.*?)(?:\+0x[0-9a-f]+)? \(", line)
            if name:
                frames.append((bare(name[1]), place[1].rpartition("/")[2] if place else "", place[2] if place else ""))
        if head:
            yield head, frames


def core_stacks(path):
    """The same by eu-stack, by threads."""
    threads = {}
    for line in output("eu-stack", "-i", "-s", "--core", path).split("\n"):
        thread, frame, place = re.match(r"TID (\d+):", line), re.match(r"#\d+ +0x[0-9a-f]+(?: - 1)? *(.*)", line), re.match(r"    (.*?):(\d+)", line)
        if thread:
            frames = threads.setdefault(thread[1], [])
        elif frame:
            frames.append((bare(re.sub(r" - 1$", "", frame[1])), "", ""))
        elif place:
            frames[-1] = frames[-1][0], place[1].rpartition("/")[2], place[2]
    return threads


def recorded_stacks(path):
    """The same by perf, a list for each sample."""
    for sample in output("perf", "script", "-i", path, "-F", "comm,ip,sym,srcline").split("\n\n"):
        frames = []
        for line in sample.split("\n")[1:]:
            frame, place = re.match(r"\s+[0-9a-f]+ (.*)", line), re.match(r"  (\S.*):(\d+)", line)
            if frame:
                frames.append((bare(frame[1].replace(" (inlined)", "")), "", ""))
            elif place and frames:
                frames[-1] = frames[-1][0], place[1], place[2] if place[2] != "0" else ""
        if sample.strip():
            yield frames


def compared(pairs, shown):
    """Counts pairs of stacks by frames: what is shown of a frame must be the same."""
    counts, others = collections.Counter(), collections.Counter()
    for ours, theirs in pairs:
        for one, other in zip(map(shown, ours), map(shown, theirs)):
            counts["same" if one == other else "different"] += 1
            if one != other:
                others[f"{one} and not {other}"] += 1
                break
        counts["frames of the judge"] += len(theirs)
    return counts, others


def main():
    program, *paths = sys.argv[1:]
    failed = False
    for path in paths:
        with open(path, "rb") as file:
            is_recording = file.read(8) == b"PERFILE2"
        if is_recording:
            pairs = zip((frames for _, frames in program_stacks(program, path, "--frames")), recorded_stacks(path))
            counts, others = compared(pairs, lambda frame: (frame[0], frame[2]))
        else:
            judge = core_stacks(path)
            ours = {re.search(r"/(\d+)", head)[1]: frames for head, frames in program_stacks(program, path)}
            counts, others = compared([(ours[thread], judge[thread]) for thread in judge], lambda frame: frame[1:])
        print(f"{path}: {dict(counts)}")
        for text, count in others.most_common():
            print(f"  {count} {text}")
        failed = failed or bool(others)
    sys.exit(1 if failed else 0)


main()
