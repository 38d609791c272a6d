#!/usr/bin/env python3
"""mutate_minidumps.py PROGRAM COUNT MINIDUMP..: minidumps with bytes changed, cut out or repeated, by framehop-stacks.

Each run must end with status 0, or with status 1 and a refusal that names an offset or what the file is not, within a second and one
more for each megabyte.
Half of the changes are in the header, the directory and the streams that it names; in those of text from /proc, too. Prints how many
ended by which status, what was refused how often, and the slowest run; with status 1 where a run ended otherwise. The changes are the
same in each run of this script.
"""

import random
import re
import struct
import sys
from collections import Counter

from mutate_core_files import is_named
from mutate_recordings import changed, run


def parts_of(dump):
    """Where the header with the directory, and the streams, begin, and their sizes."""
    count, directory = struct.unpack_from("<II", dump, 8)
    entries = [struct.unpack_from("<III", dump, directory + 12 * at) for at in range(count)]
    return [(0, directory + 12 * count)] + [(offset, size) for kind, size, offset in entries if kind and size]


def changed_dump(dumps, source):
    dump = source.choice(dumps)
    if source.random() < 0.5:
        return changed([dump], source)
    offset, size = source.choice(parts_of(dump))
    return dump[:offset] + changed([dump[offset : offset + size]], source) + dump[offset + size :]


def main():
    program, count = sys.argv[1], int(sys.argv[2])
    dumps = [open(name, "rb").read() for name in sys.argv[3:]]
    ends, refusals, slowest, bad = Counter(), Counter(), (0, None), []
    for seed in range(count):
        data = changed_dump(dumps, random.Random(seed))
        status, said, for_a_megabyte = run(program, [], data)
        took = for_a_megabyte * max(len(data) / 1e6, 0.2)
        ends[status] += 1
        slowest = max(slowest, (took, seed))
        if status == 1:
            refusals[re.sub(r"\d+", "N", said.split(": ", 2)[-1])] += 1
        if status not in (0, 1) or took > 1 + len(data) / 1e6 or (status == 1 and not is_named(said)):
            bad.append((seed, status, took, said))
    print("status", dict(ends), "slowest %.2f s (seed %s)" % slowest)
    for text, number in refusals.most_common():
        print(f"{number:6} {text}")
    for seed, status, took, said in bad:
        print(f"bad: seed {seed}, status {status}, {took:.2f} s: {said}")
    sys.exit(1 if bad else 0)


if __name__ == "__main__":
    main()
