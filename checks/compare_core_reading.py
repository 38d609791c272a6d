#!/usr/bin/env python3
"""compare_core_reading.py PROGRAM COUNT CORE..: core files that framehop-stacks reads in parts, beside the same read whole.

A core file that is named is read in parts: its headers and its notes, and the memory that is asked for. From standard input it is
read whole. What is printed, what is said and the status must be the same, of the blocks, with --explain and with --json; of each
CORE, and of COUNT copies with bytes changed, cut out or repeated, half of them in the headers and the notes. Prints how many were
compared and how many differ; with status 1 where some do. The changes are the same in each run of this script.
"""

import random
import subprocess
import sys
import tempfile

from mutate_core_files import changed_core

FORMS = [], ["--explain"], ["--json"]


def outcome(program, form, path, name):
    """What a run prints, with a word in the place of the name that it has for the file."""
    source = open(path, "rb") if name == "-" else subprocess.DEVNULL
    done = subprocess.run([program, *form, name], stdin=source, capture_output=True)
    shown = b"standard input" if name == "-" else path.encode()
    return done.returncode, done.stdout, done.stderr.replace(b": " + shown + b":", b": FILE:")


def differs(program, path):
    return [form for form in FORMS if outcome(program, form, path, path) != outcome(program, form, path, "-")]


def main():
    program, count, names = sys.argv[1], int(sys.argv[2]), sys.argv[3:]
    bad = [(name, form) for name in names for form in differs(program, name)]
    cores = [open(name, "rb").read() for name in names]
    for seed in range(count):
        with tempfile.NamedTemporaryFile() as file:
            file.write(changed_core(cores, random.Random(seed)))
            file.flush()
            bad += [(f"seed {seed}", form) for form in differs(program, file.name)]
    print(f"{len(names)} core files and {count} changed ones compared, {len(bad)} differ")
    for name, form in bad:
        print("differs:", name, *form)
    sys.exit(1 if bad else 0)


if __name__ == "__main__":
    main()
