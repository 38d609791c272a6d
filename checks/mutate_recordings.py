#!/usr/bin/env python3
"""mutate_recordings.py PROGRAM COUNT RECORDING..: recordings with bytes changed, cut out or repeated, by the program.

Each run must end with status 0 or 1 within a second for each megabyte. Prints how many ended by which status, what was refused how
often, and the slowest run; with status 1 where a run ended otherwise. The changes are the same in each run of this script.
"""

import os
import random
import subprocess
import sys
import tempfile
import time
from collections import Counter


def changed(recordings, source):
    data = bytearray(source.choice(recordings))
    for _ in range(source.choice([1, 1, 2, 5, 30, 300])):
        at = source.randrange(len(data)) if source.random() < 0.6 else source.randrange(min(len(data), 2000))
        kind = source.randrange(4)
        if kind == 0:
            data[at] = source.randrange(256)
        elif kind == 1:
            size = source.choice([1, 2, 4, 8])
            data[at : at + size] = source.choice([b"\xff" * size, bytes(size), source.randbytes(size)])
        elif kind == 2 and source.random() < 0.3:
            del data[at : at + source.choice([1, 8, 100, 5000, len(data)])]
        elif kind == 3 and source.random() < 0.3:
            data[at:at] = data[at : at + source.choice([1, 8, 100, 5000])]
        if not data:
            data = bytearray(1)
    return data


def run(program, options, data):
    """The status of the program, or "timeout"; its last line of errors; and its seconds for each megabyte."""
    with tempfile.NamedTemporaryFile(delete=False) as file:
        file.write(data)
    start = time.time()
    try:
        done = subprocess.run([program] + options + [file.name], capture_output=True, timeout=60)
        status, said = done.returncode, done.stderr.decode(errors="replace").strip().split("\n")[-1]
    except subprocess.TimeoutExpired:
        status, said = "timeout", ""
    os.unlink(file.name)
    return status, said, (time.time() - start) / max(len(data) / 1e6, 0.2)


def main():
    program, count = sys.argv[1], int(sys.argv[2])
    recordings = [open(name, "rb").read() for name in sys.argv[3:]]
    ends, refusals, slowest, bad = Counter(), Counter(), (0, None), []
    for seed in range(count):
        source = random.Random(seed)
        status, said, took = run(program, ["--frames"] if seed % 3 == 0 else [], changed(recordings, source))
        ends[status] += 1
        slowest = max(slowest, (took, seed))
        if status == 1:
            refusals[said.split(": ", 2)[-1].rstrip("0123456789")] += 1
        # what is left of a recording may be taken for folded stacks, of which there are no frames
        is_text = status == 2 and "folded stacks" in said
        if not (status in (0, 1) or is_text) or took > 1:
            bad.append((seed, status, took))
    print("status", dict(ends), "slowest %.2f s for a megabyte (seed %s)" % slowest)
    for text, number in refusals.most_common():
        print(f"{number:6} {text}")
    for seed, status, took in bad:
        print(f"bad: seed {seed}, status {status}, {took:.2f} s for a megabyte")
    sys.exit(1 if bad else 0)


if __name__ == "__main__":
    main()
