#!/usr/bin/env python3
"""judge_code.py STACKS STOPS PAUSE PROGRAM ARGUMENT..: judges the callers that STACKS (framehop-stacks) finds by the processor.

PROGRAM is stopped at STOPS moments, about PAUSE microseconds apart, and stepped until the function that it was in has returned
(single_step.c). Of its registers and its stack at each stop a recording is made; the caller of the innermost frame that STACKS prints
for it must be where the processor has come to. Printed are how many were right, wrong and left open, by the mark of the frame, and what
was wrong. The status is 1 if a frame by [cfi] or [code] was wrong.
"""

import collections
import os
import re
import struct
import subprocess
import sys
import tempfile

HERE = os.path.dirname(os.path.abspath(__file__))
PERF_RECORD_COMM, PERF_RECORD_SAMPLE, PERF_RECORD_MMAP2 = 3, 9, 10
IN_USER_SPACE = 2
IP_TID_TIME_REGS_STACK = 0x3007
SAMPLE_ID_ALL = 1 << 18
# as the kernel numbers them: ax to sp, ip, flags to ss, and r8 to r15
REGISTERS = 0xFF0FFF
STACK = 60000
# DWARF's columns in the kernel's order
COLUMNS = [0, 3, 2, 1, 4, 5, 6, 7]


def record(kind, body):
    return struct.pack("<IHH", kind, IN_USER_SPACE, 8 + len(body)) + body


def padded(text):
    return text + b"\0" + bytes(-(len(text) + 1) % 8)


def identified(kind, body, time, process=1):
    return record(kind, body + struct.pack("<IIQ", process, process, time))


def name(process, text, time):
    return identified(PERF_RECORD_COMM, struct.pack("<II", process, process) + padded(text), time, process)


def mapping(process, start, end, offset, path, time):
    head = struct.pack("<IIQQQ", process, process, start, end - start, offset)
    return identified(PERF_RECORD_MMAP2, head + bytes(24) + struct.pack("<II", 5, 2) + padded(path), time, process)


def mappings(maps, time):
    for line in maps.splitlines():
        words = line.split(None, 5)
        if b"x" in words[1] and len(words) > 5:
            start, end = (int(word, 16) for word in words[0].split(b"-"))
            yield mapping(1, start, end, int(words[2], 16), words[5], time)


def sample(process, ip, registers, stack, time):
    head = struct.pack("<QIIQQ", ip, process, process, time, 2) + struct.pack(f"<{len(registers)}Q", *registers)
    stack = stack[: len(stack) // 8 * 8]
    return record(PERF_RECORD_SAMPLE, head + struct.pack("<Q", len(stack)) + stack + struct.pack("<Q", len(stack)))


def in_kernels_order(columns, ip):
    return [columns[at] for at in COLUMNS] + [ip, 0x246, 0x33, 0x2B] + columns[8:]


def recording(body, registers=REGISTERS):
    attribute = struct.pack("<IIQQQQQ", 1, 128, 0, 1000, IP_TID_TIME_REGS_STACK, 0, SAMPLE_ID_ALL)
    attribute += bytes(32) + struct.pack("<QI", registers, STACK) + bytes(36)
    header = b"PERFILE2" + struct.pack("<QQQQQQQQ", 104, 144, 104, 144, 248, len(body), 0, 0) + bytes(32)
    return header + attribute + struct.pack("<QQ", 248, 0) + body


def stops_of(pipe):
    """The records of a recording, and of each stop in order the instruction pointer and stack pointer after the return, or None."""
    records, returns, time = [name(1, b"judged", 1)], [], 1
    while line := pipe.readline().split():
        time += 1
        if line[0] == b"maps":
            records += mappings(pipe.read(int(line[1])), time)
        elif line[0] == b"stop":
            numbers = [int(word, 16) for word in line[1:18]]
            stack = pipe.read(int(line[18]))
            records.append(sample(1, numbers[16], in_kernels_order(numbers[:16], numbers[16]), stack, time))
            returns.append(None)
        elif line[0] == b"back":
            returns[-1] = int(line[17], 16)
    return records, returns


def blocks(program, file):
    """Of each sample the lines of its frames and of the end."""
    printed = subprocess.run([program, "--frames", file], stdout=subprocess.PIPE, stderr=subprocess.DEVNULL, check=True).stdout.decode(errors="replace")
    return [lines for block in printed.split("\n\n") if (lines := block.splitlines()[1:])]


def caller(lines):
    """The mark and the address of the caller, or the mark of the end."""
    if lines[1:] and not lines[1].startswith("["):
        return re.search(r"\[([a-z-]+)\]$", lines[1])[1], int(lines[1].split()[0], 16)
    return (lines[1:] or [""])[0], None


def verdict_of(found, came_to):
    return "not judged" if came_to is None else "no caller" if found is None else "right" if found == came_to else "wrong"


def main():
    program, stops, pause = sys.argv[1:4]
    with tempfile.TemporaryDirectory() as folder:
        stepper, file = os.path.join(folder, "single_step"), os.path.join(folder, "stops.data")
        subprocess.run(["gcc", "-O1", "-w", "-o", stepper, os.path.join(HERE, "single_step.c")], check=True)
        with subprocess.Popen([stepper, pause, stops, *sys.argv[4:]], stdout=subprocess.PIPE) as running:
            records, returns = stops_of(running.stdout)
        with open(file, "wb") as made:
            made.write(recording(b"".join(records)))
        printed = blocks(program, file)
    assert len(printed) == len(returns), f"{len(printed)} blocks of {len(returns)} stops"
    counts, wrong = collections.Counter(), []
    for lines, came_to in zip(printed, returns):
        mark, found = caller(lines)
        verdict = verdict_of(found, came_to)
        counts[mark, verdict] += 1
        if verdict == "wrong":
            wrong.append(f"{mark}: {lines[0]}: {found:x}, and the processor came to {came_to:x}")
    for (mark, verdict), count in sorted(counts.items()):
        print(f"{count:6} {mark} {verdict}")
    print(*wrong[:20], sep="\n")
    sys.exit(any(line.startswith(("cfi:", "code:")) for line in wrong))


if __name__ == "__main__":
    main()
