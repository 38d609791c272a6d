#!/usr/bin/env python3
"""mutate_elf_files.py PROGRAM COUNT FILE..: ELF and PE files with bytes changed, cut out or repeated, by framehop-explain --elf.

Each run must end with status 0 or 1 within a second and one more for each megabyte. Half of the changes of an ELF file are in its
headers, in its notes and in the names of its sections. Prints how many ended by which status, what was refused how often, and the
slowest run; with status 1 where a run ended otherwise. The changes are the same in each run of this script.
"""

import random
import re
import struct
import sys
from collections import Counter

from mutate_recordings import changed, run

PT_NOTE, SHT_STRTAB, SHT_NOTE = 4, 3, 7


def parts_of(file):
    """Where the headers, notes and tables of strings of an ELF file begin, and their sizes; of another file, all of it."""
    if file[:4] != b"\x7fELF":
        return [(0, len(file))]
    segments, sections = struct.unpack_from("<QQ", file, 32)
    segment_count, section_count = struct.unpack_from("<H", file, 56)[0], struct.unpack_from("<H", file, 60)[0]
    parts = [(0, 64), (segments, 56 * segment_count), (sections, 64 * section_count)]
    for at in range(segment_count):
        kind, _, offset, _, _, size = struct.unpack_from("<IIQQQQ", file, segments + 56 * at)
        parts += [(offset, size)] * (kind == PT_NOTE)
    for at in range(section_count):
        _, kind, _, _, offset, size = struct.unpack_from("<IIQQQQ", file, sections + 64 * at)
        parts += [(offset, size)] * (kind in (SHT_STRTAB, SHT_NOTE))
    return [(offset, size) for offset, size in parts if size]


def changed_file(files, source):
    file = source.choice(files)
    if source.random() < 0.5:
        return changed([file], source)
    offset, size = source.choice(parts_of(file))
    return file[:offset] + changed([file[offset : offset + size]], source) + file[offset + size :]


def main():
    program, count = sys.argv[1], int(sys.argv[2])
    files = [open(name, "rb").read() for name in sys.argv[3:]]
    ends, refusals, slowest, bad = Counter(), Counter(), (0, None), []
    for seed in range(count):
        data = changed_file(files, random.Random(seed))
        status, said, for_a_megabyte = run(program, ["--elf"], data)
        took = for_a_megabyte * max(len(data) / 1e6, 0.2)
        ends[status] += 1
        slowest = max(slowest, (took, seed))
        if status == 1:
            refusals[re.sub(r"\d+", "N", said.split(": ", 2)[-1])] += 1
        if status not in (0, 1) or took > 1 + len(data) / 1e6:
            bad.append((seed, status, took, said))
    print("status", dict(ends), "slowest %.2f s (seed %s)" % slowest)
    for text, number in refusals.most_common():
        print(f"{number:6} {text}")
    for seed, status, took, said in bad:
        print(f"bad: seed {seed}, status {status}, {took:.2f} s: {said}")
    sys.exit(1 if bad else 0)


if __name__ == "__main__":
    main()
