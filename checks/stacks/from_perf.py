#!/usr/bin/env python3
"""from_perf.py [N]: rewrites the samples that perf prints as the blocks of `framehop-stacks --frames`, or as folded stacks of at most N frames.

Standard input is the output of `perf script --no-inline --ns --show-mmap-events -F comm,pid,tid,time,ip,sym,symoff,dso --symfs DIR -i
RECORDING`. perf prints a return address and its offset less one, and an offset of the file in the place of an address. All stacks are taken to end at
their root, and
all frames to be found by unwind data.
"""

import re
import sys
from collections import Counter

MAPPED = re.compile(r"PERF_RECORD_MMAP2? \d+/\d+: \[0x([0-9a-f]+)\(0x([0-9a-f]+)\) @ (?:0x)?([0-9a-f]+).* (\S+)$")
SAMPLE = re.compile(r"^\s*(\S+)\s+(\d+)/(\d+)\s+(\d+)\.(\d{9}):")
FRAME = re.compile(r"^\s+([0-9a-f]+) (\S+)\+(0x[0-9a-f]+) \((.*)\)$")


def samples(lines):
    """The name, process, thread, time and frames of each sample."""
    mappings, frames = [], []
    for line in lines:
        if mapped := MAPPED.search(line):
            mappings.append((int(mapped[1], 16), int(mapped[2], 16), int(mapped[3], 16), mapped[4]))
        elif began := SAMPLE.match(line):
            frames = []
            yield began[1], began[2], began[3], int(began[4] + began[5]), frames
        elif frame := FRAME.match(line):
            place, file = int(frame[1], 16), frame[4]
            start, offset = next((it[0], it[2]) for it in mappings if it[3] == file and it[2] <= place < it[2] + it[1])
            frames.append((place - offset + start + bool(frames), frame[2], frame[3], file))


def folded(found, limit):
    for name, _, _, _, frames in found:
        mark = ";[limit]" if len(frames) >= limit else ""
        yield name + mark + "".join(f";{function}" for _, function, _, _ in reversed(frames[:limit]))


def main():
    found = list(samples(sys.stdin))
    if len(sys.argv) > 1:
        for line, count in sorted(Counter(folded(found, int(sys.argv[1]))).items()):
            print(line, count)
        return
    for name, process, thread, time, frames in found:
        print(f"{name} {process}/{thread} {time}:")
        for at, (address, function, offset, file) in enumerate(frames):
            print(f"{address:x} {function}+{int(offset, 16) + (at > 0):#x} ({file})" + (" [cfi]" if at else ""))
        print("[root]\n")


main()
