#!/usr/bin/env python3
"""Compares `framehop-check --missing` with readelf, file by file.

    checks/compare_missing.py PROGRAM FILE..

The code of each file that no FDE covers is worked out from the sections and FDEs that readelf prints. What is listed must be in
it, the sums must be its, and what is not listed of it must be instructions that objdump calls nop or int3.
"""

import re
import subprocess
import sys

SUMMARY = re.compile(
    r": (\d+) bytes of code, (\d+) with rows \((\d+\.\d) %\), (\d+) without \((\d+\.\d) %\), (\d+) of padding \((\d+\.\d) %\)"
)


def output(*words):
    done = subprocess.run(words, capture_output=True, text=True, errors="replace")
    return done.stdout


def sections(path):
    """The executable sections that the file has the bytes of, as (start, end)."""
    found = []
    for line in output("readelf", "-SW", path).splitlines():
        match = re.match(r"\s*\[\s*\d+\]\s+(\S+)\s+(\S+)\s+([0-9a-f]+)\s+[0-9a-f]+\s+([0-9a-f]+)\s+[0-9a-f]+\s+(\w*)\s", line)
        if match and "X" in match[5] and match[2] != "NOBITS":
            found.append((int(match[3], 16), int(match[3], 16) + int(match[4], 16)))
    return found


def fdes(path):
    """The addresses of FDEs, as (start, end), of .eh_frame or else .debug_frame."""
    by_section = {}
    name = None
    for line in output("readelf", "--debug-dump=frames", path).splitlines():
        match = re.match(r"Contents of the (\S+) section", line)
        if match:
            name = match[1]
        match = re.search(r" FDE .*pc=([0-9a-f]+)\.\.([0-9a-f]+)", line)
        if match:
            by_section.setdefault(name, []).append((int(match[1], 16), int(match[2], 16)))
    return by_section.get(".eh_frame", by_section.get(".debug_frame", []))


def united(ranges):
    result = []
    for start, end in sorted(ranges):
        if start >= end:
            continue
        if result and start <= result[-1][1]:
            result[-1] = (result[-1][0], max(result[-1][1], end))
        else:
            result.append((start, end))
    return result


def without(ranges, others):
    """The parts of united ranges that are in none of others."""
    result = []
    others = united(others)
    for start, end in ranges:
        for other_start, other_end in others:
            if other_end <= start or other_start >= end:
                continue
            if other_start > start:
                result.append((start, other_start))
            start = max(start, other_end)
        if start < end:
            result.append((start, end))
    return result


def size(ranges):
    return sum(end - start for start, end in ranges)


def is_padding(path, start, end):
    text = output("objdump", "-d", "--no-show-raw-insn", f"--start-address={start}", f"--stop-address={end}", path)
    lines = [line.split("\t", 1)[1] for line in text.splitlines() if re.match(r"\s*[0-9a-f]+:\t", line)]
    return lines and all(re.search(r"\bnop|int3|xchg\s+%ax,%ax|data16", line) for line in lines)


def compare(program, path):
    lines = output(program, "--missing", path).splitlines()
    summary = SUMMARY.search(lines[-1])
    code = united(sections(path))
    missing = without(code, fdes(path))
    listed = []
    for line in lines[:-1]:
        match = re.match(r"0x([0-9a-f]+)-0x([0-9a-f]+) (\d+)( \S.*)?$", line)
        start, end = int(match[1], 16), int(match[2], 16)
        assert end - start == int(match[3]), line
        listed.append((start, end))
    assert listed == sorted(listed), path
    assert without(united(listed), missing) == [], path
    padding = without(missing, listed)
    numbers = [int(summary[index]) for index in (1, 2, 4, 6)]
    wanted = [size(code), size(code) - size(missing), size(listed), size(padding)]
    assert numbers == wanted, (path, numbers, wanted)
    for start, end in padding:
        assert is_padding(path, start, end), (path, hex(start), hex(end))
    print(f"{path}: {len(listed)} ranges, {numbers[2]} of {numbers[0]} bytes without rows, {len(padding)} of padding")


def main():
    if len(sys.argv) < 3:
        sys.exit(__doc__)
    for path in sys.argv[2:]:
        compare(sys.argv[1], path)


if __name__ == "__main__":
    main()
