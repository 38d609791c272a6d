#!/usr/bin/env python3
"""compare_object_reading.py PROGRAM COUNT CORE PATH FILE: a mapped ELF file of which framehop-stacks does not read all sections, beside the
same read whole.

FILE is the file that CORE has mapped as PATH, of 1 MiB or more. It is read without data and debug information where it is found by its path,
and whole where --exec names it. What is printed, what is said and the status must be the same, of FILE and of COUNT copies with bytes
changed, cut out or repeated, half of them in its headers, notes and tables of strings. Prints how many were compared, of how many a copy has
stacks of its own, and how many differ; with status 1 where some do. The changes are the same in each run of this script.
"""

import os
import random
import subprocess
import sys
import tempfile

from mutate_elf_files import changed_file


def outcome(program, options, core):
    """The status, what is printed, and what is said but that a file that --exec names is not the one that is mapped."""
    done = subprocess.run([program, *options, core], stdin=subprocess.DEVNULL, capture_output=True)
    said = [line for line in done.stderr.splitlines() if b": no mapped file that was asked for has its build id" not in line]
    return done.returncode, done.stdout, said


def main():
    program, count, core, path, name = sys.argv[1], int(sys.argv[2]), *sys.argv[3:]
    whole = open(name, "rb").read()
    bad, seen = [], set()
    with tempfile.TemporaryDirectory() as root, tempfile.TemporaryDirectory() as empty:
        copy = root + path
        os.makedirs(os.path.dirname(copy))
        for seed in range(-1, count):
            with open(copy, "wb") as file:
                file.write(changed_file([whole], random.Random(seed)) if seed >= 0 else whole)
            by_path = outcome(program, ["--root", root, "--root", "/"], core)
            by_name = outcome(program, ["--root", empty, "--root", "/", "--exec", copy], core)
            seen.add(repr(by_name))
            if by_path != by_name:
                bad.append(seed)
    print(f"{count + 1} files compared, of {len(seen)} outcomes, {len(bad)} differ")
    for seed in bad:
        print("differs:", "the file" if seed < 0 else f"seed {seed}")
    sys.exit(1 if bad else 0)


if __name__ == "__main__":
    main()
