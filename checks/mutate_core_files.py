#!/usr/bin/env python3
"""mutate_core_files.py PROGRAM COUNT CORE..: core files with bytes changed, cut out or repeated, by framehop-stacks.

Each run must end with status 0, or with status 1 and a refusal that names an offset or what the file is not, within a second and one
more for each megabyte. Half of the changes are in the program headers and the notes. Prints how many ended by which status, what was refused how often, and
the slowest run; with status 1 where a run ended otherwise. The changes are the same in each run of this script.
"""

import random
import re
import struct
import sys
from collections import Counter

from mutate_recordings import changed, run


def front_of(core):
    """The size of the headers and of the notes, which come first."""
    table, count = struct.unpack_from("<Q", core, 32)[0], struct.unpack_from("<H", core, 56)[0]
    headers = [struct.unpack_from("<IIQQQQQQ", core, table + 56 * at) for at in range(count)]
    return max(offset + size for kind, _, offset, _, _, size, _, _ in headers if kind == 4)


def changed_core(cores, source):
    core = source.choice(cores)
    if source.random() < 0.5:
        return changed([core], source)
    front = front_of(core)
    return changed([core[:front]], source) + core[front:]


def is_named(said):
    return re.search(r"offset \d+|without threads|no folded stack", said)


def main():
    program, count = sys.argv[1], int(sys.argv[2])
    cores = [open(name, "rb").read() for name in sys.argv[3:]]
    ends, refusals, slowest, bad = Counter(), Counter(), (0, None), []
    for seed in range(count):
        source = random.Random(seed)
        data = changed_core(cores, source)
        status, said, for_a_megabyte = run(program, [], data)
        took = for_a_megabyte * max(len(data) / 1e6, 0.2)
        ends[status] += 1
        slowest = max(slowest, (took, seed))
        if status == 1:
            refusals[re.sub(r"\d+", "N", said.split(": ", 2)[-1])] += 1
        if status not in (0, 1) or took > 1 + len(data) / 1e6 or (status == 1 and not is_named(said)):
            bad.append((seed, status, took, said))
    print("status", dict(ends), "slowest %.2f s (seed %s)" % slowest)
    for text, number in refusals.most_common():
        print(f"{number:6} {text}")
    for seed, status, took, said in bad:
        print(f"bad: seed {seed}, status {status}, {took:.2f} s: {said}")
    sys.exit(1 if bad else 0)


if __name__ == "__main__":
    main()
