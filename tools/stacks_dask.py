#!/usr/bin/env python3
"""Folded stacks of many recordings, which the workers of Dask's distributed scheduler unwind: one recording is one task.

What is printed is what `framehop-stacks` prints of the same files with the same options: each line once, in the order of the bytes,
with how often it occurs in all of them; with --svg a flame graph of them all, and with --speedscope JSON. A folder stands for the files
in it whose names end in .data. Each worker reads the files by the same paths, and needs the program there too. Without --scheduler,
workers of this machine are started.

Where a worker dies, its recordings are unwound again by another one. What the program says on standard error is printed with the
name of the file. The status is the greatest of all runs: 1 where a recording can't be read, 2 for wrong usage.

Needs Dask's distributed scheduler: Debian's package python3-distributed.
"""
import argparse
import collections
import os
import subprocess
import sys

# what is installed stays as it is
sys.dont_write_bytecode = True

HERE = os.path.dirname(os.path.realpath(__file__))
# blocks.py lies beside this file, or where it is installed
sys.path += [HERE, os.path.join(HERE, "..", "lib", "framehop")]
from blocks import printed

# Options of the program that are handed on with each recording: those without a value, those whose value is a path, and others.
FLAGS = ["sure", "by-thread", "kernel", "demangle", "inlines", "lines"]
PATHS = ["root", "exec", "debug-dir", "buildid-dir", "vdso", "perf-map", "kallsyms"]
VALUED = ["limit", "comm", "pid", "tid", "event", "time"]
# Those that are made of the stacks of all.
PICTURE_FLAGS = ["svg", "flame", "speedscope"]


def program_here():
    """The program beside this file: installed, or in the repository."""
    installed = os.path.join(HERE, "framehop-stacks")
    return installed if os.path.exists(installed) else os.path.join(HERE, "..", "framehop-stacks")


def is_dump(path):
    """Whether a file begins as a core file or a minidump, of which there are no folded stacks."""
    try:
        with open(path, "rb") as file:
            return file.read(4) in (b"\x7fELF", b"MDMP")
    except OSError:
        return False


def fold(program, options, path):
    """Runs the program on a recording: its status, the counts of its lines, and what it said."""
    if is_dump(path):
        return 2, collections.Counter(), b"only recordings and folded stacks are folded"
    run = subprocess.run([program, *options, path], capture_output=True, stdin=subprocess.DEVNULL)
    counts = collections.Counter()
    for line in run.stdout.splitlines():
        stack, _, count = line.rpartition(b" ")
        counts[stack] += int(count)
    return (run.returncode if run.returncode >= 0 else 1), counts, run.stderr


def recordings_in(paths):
    """The files of a list of files and folders, and the folders that have none."""
    files, empty = [], []
    for path in paths:
        names = sorted(name for name in os.listdir(path) if name.endswith(".data")) if os.path.isdir(path) else None
        files += [path] if names is None else [os.path.join(path, name) for name in names]
        empty += [path] if names == [] else []
    return files, empty


def merge(futures, err):
    """The sum of the counts of all runs, and the greatest status. Writes what was said of each."""
    total, status = collections.Counter(), 0
    for path, future in futures:
        returned, counts, said = future.result()
        total.update(counts)
        status = max(status, returned)
        for line in said.splitlines():
            err.write(b"%s: %s\n" % (printed(path).encode(), line))
    return total, status


def text_of(total):
    """Folded stacks in the order of the bytes."""
    return b"".join(b"%s %d\n" % (stack, total[stack]) for stack in sorted(total))


def arguments(words):
    parser = argparse.ArgumentParser(description=__doc__, formatter_class=argparse.RawDescriptionHelpFormatter, allow_abbrev=False)
    workers = parser.add_mutually_exclusive_group()
    workers.add_argument("--scheduler", help="the address of a scheduler that runs, as tcp://HOST:8786")
    workers.add_argument("--workers", type=int, default=os.cpu_count(), help="how many workers to start here")
    parser.add_argument("--program", default=program_here(), help="framehop-stacks, at the same path on each worker")
    for name in FLAGS + PICTURE_FLAGS:
        parser.add_argument(f"--{name}", action="store_true", help="as of framehop-stacks")
    for name in PATHS + VALUED:
        parser.add_argument(f"--{name}", action="append", default=[], metavar="VALUE", help="as of framehop-stacks")
    parser.add_argument("--title", help="as of framehop-stacks")
    parser.add_argument("paths", nargs="+", metavar="FILE_OR_FOLDER")
    asked = parser.parse_args(words)
    if "-" in asked.paths:
        parser.error("workers read no standard input")
    return asked


def value(asked, name):
    return getattr(asked, name.replace("-", "_"))


def handed_on(asked):
    """The options that are handed on with each recording. A path is that of the folder where this script was started."""
    options = [f"--{name}" for name in FLAGS if value(asked, name)]
    options += [f"--{name}={os.path.abspath(path)}" for name in PATHS for path in value(asked, name)]
    return options + [f"--{name}={it}" for name in VALUED for it in value(asked, name)]


def picture(asked):
    """The options of what is made of the stacks of all."""
    options = [f"--{name}" for name in PICTURE_FLAGS if value(asked, name)]
    return options + ([] if asked.title is None else [f"--title={asked.title}"])


def refuses(program, options):
    """Whether the program refuses options that do not go together, which it says."""
    run = subprocess.run([program, *options, "/dev/null/nothing"], stdin=subprocess.DEVNULL, stdout=subprocess.DEVNULL, stderr=subprocess.PIPE)
    if run.returncode == 2:
        sys.stderr.buffer.write(run.stderr)
    return run.returncode == 2


def fold_all(asked, files):
    """The sum of the counts of all files, and the greatest status."""
    from distributed import Client, LocalCluster

    options = handed_on(asked)
    cluster = asked.scheduler or LocalCluster(n_workers=asked.workers, threads_per_worker=1, dashboard_address=None)
    with Client(cluster) as client:
        # a path may be given twice, and counts twice: so a task has no key of its own
        futures = [(path, client.submit(fold, asked.program, options, os.path.abspath(path), pure=False)) for path in files]
        total, status = merge(futures, sys.stderr.buffer)
    if not asked.scheduler:
        cluster.close()
    return total, status


def main(words):
    asked = arguments(words)
    asked.program = os.path.abspath(asked.program)
    if refuses(asked.program, handed_on(asked) + picture(asked)):
        return 2
    files, empty = recordings_in(asked.paths)
    for path in empty:
        print(f"framehop-stacks: {printed(path)}: no file in it has a name in .data", file=sys.stderr)
    total, status = fold_all(asked, files) if files else (collections.Counter(), 0)
    status = max(status, 1 if empty else 0)
    sys.stderr.flush()
    if not picture(asked):
        sys.stdout.buffer.write(text_of(total))
        return status
    # (a text of a blank line counts nothing)
    drawn = subprocess.run([asked.program, *picture(asked), "-"], input=text_of(total) + b"\n")
    return max(status, drawn.returncode)


if __name__ == "__main__":
    sys.exit(main(sys.argv[1:]))
