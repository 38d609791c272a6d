#!/usr/bin/env python3
"""compare_file_reading.py PROGRAM COUNT [--root DIR] CORE..: core files whose mapped files are read when they are asked for, beside all.

For blocks framehop-stacks reads those mapped files that the stacks ask for; for --json it reads all. The frames and the ends of the
walks must be the same; of each CORE, and of COUNT copies with bytes changed, cut out or repeated, half of them in the headers and the
notes. Prints how many were compared and how many differ; with status 1 where some do. The changes are the same in each run.
"""

import json
import random
import re
import subprocess
import sys
import tempfile

from mutate_core_files import changed_core


def place_of(frame):
    """Where a frame is, as a block tells it."""
    module, function = frame["module"], frame["function"]
    if function:
        return f"{function['name']}+{function['offset']} ({module['file']})"
    return f"[unknown] ({module['file']}+{module['offset']})" if module else "[unknown] ([unknown])"


def line_of(frame):
    trampoline = "<signal handler called> " * frame["signal_trampoline"]
    found = f" [{frame['found_by']}]" * bool(frame["found_by"])
    return f"#{frame['frame']} {frame['address'][2:]} {trampoline}{place_of(frame)}{found}"


def lines_of(report):
    """The lines of the frames and of the ends of the walks, as blocks have them."""
    for thread in report["threads"]:
        yield from map(line_of, thread["frames"])
        yield f"[{thread['end']}" + f" {(thread['end_address'] or '0x')[2:]}" * bool(thread["end_address"]) + "]"


def run(program, options, path):
    return subprocess.run([program, *options, path], stdin=subprocess.DEVNULL, capture_output=True)


def differs(program, options, path):
    blocks, report = run(program, options, path), run(program, [*options, "--json"], path)
    if blocks.returncode or report.returncode:
        return not (blocks.returncode and report.returncode)
    printed = re.findall(r"^(?:#\d+ .*|\[.*\])$", blocks.stdout.decode(errors="surrogateescape"), re.MULTILINE)
    return printed != list(lines_of(json.loads(report.stdout)))


def main():
    program, count, names, options = sys.argv[1], int(sys.argv[2]), sys.argv[3:], []
    if names[0] == "--root":
        options, names = names[:2], names[2:]
    bad = [name for name in names if differs(program, options, name)]
    cores = [open(name, "rb").read() for name in names]
    for seed in range(count):
        with tempfile.NamedTemporaryFile() as file:
            file.write(changed_core(cores, random.Random(seed)))
            file.flush()
            if differs(program, options, file.name):
                bad.append(f"seed {seed}")
    print(f"{len(names)} core files and {count} changed ones compared, {len(bad)} differ")
    for name in bad:
        print("differs:", name)
    sys.exit(1 if bad else 0)


if __name__ == "__main__":
    main()
