#!/usr/bin/env python3
"""compare_recording_reading.py PROGRAM COUNT RECORDING..: recordings read in parts, beside the same read whole.

A recording of 1 MiB or more that is named is read in parts: what is before and after its records, the records without the bodies of
samples, and each of these bodies when its sample is unwound. From standard input it is read whole. What is printed, what is said and
the status must be the same, of folded stacks, of blocks, with --explain, and where samples are chosen; of each RECORDING, and of COUNT copies with bytes
changed, cut out or repeated. Prints how many were compared, how many of them are large enough, and how many differ; with status 1
where some do. The changes are the same in each run of this script.
"""

import random
import subprocess
import sys
import tempfile

from mutate_recordings import changed

FORMS = [], ["--frames"], ["--frames", "--explain"], ["--comm", "q", "--by-thread"], ["--time", "0,1000000000"]
READ_IN_PARTS = 1 << 20


def outcome(program, form, path, name):
    """What a run prints, with a word in the place of the name that it has for the file."""
    source = open(path, "rb") if name == "-" else subprocess.DEVNULL
    done = subprocess.run([program, *form, name], stdin=source, capture_output=True)
    shown = b"standard input" if name == "-" else path.encode()
    return done.returncode, done.stdout, done.stderr.replace(b": " + shown + b":", b": FILE:")


def differs(program, path):
    return [form for form in FORMS if outcome(program, form, path, path) != outcome(program, form, path, "-")]


def main():
    program, count, names = sys.argv[1], int(sys.argv[2]), sys.argv[3:]
    bad = [(name, form) for name in names for form in differs(program, name)]
    recordings = [open(name, "rb").read() for name in names]
    sizes = [len(recording) for recording in recordings]
    for seed in range(count):
        with tempfile.NamedTemporaryFile() as file:
            data = changed(recordings, random.Random(seed))
            sizes.append(len(data))
            file.write(data)
            file.flush()
            bad += [(f"seed {seed}", form) for form in differs(program, file.name)]
    large = sum(size >= READ_IN_PARTS for size in sizes)
    print(f"{len(names)} recordings and {count} changed ones compared, {large} of 1 MiB or more, {len(bad)} differ")
    for name, form in bad:
        print("differs:", name, *form)
    sys.exit(1 if bad else 0)


if __name__ == "__main__":
    main()
