#!/usr/bin/env python3
"""Tries stacks_dask.py over a cluster of this machine, beside the gate: try_stacks_dask.py PROGRAM

PROGRAM is a built framehop-stacks. The stored recordings, several times over, must give what one run of the program gives, with
each option that concerns recordings, as text, as a picture and for speedscope, and also where a worker is killed while it works.
Status 0 where they do.
"""
import io
import os
import signal
import subprocess
import sys
import tempfile
import time

TOOLS = os.path.join(os.path.dirname(os.path.realpath(__file__)), "..", "tools")
sys.path.insert(0, TOOLS)
import stacks_dask

DATA = os.path.join(stacks_dask.HERE, "..", "crates", "framehop_stacks_cli", "data")
PATHS = [os.path.join(DATA, name) for name in ["tiny.data", "made-up.data"] * 4]
# Options of recordings, each at least once, and what is made of their stacks; files are named from the folder of the data.
FORMS = [
    [],
    ["--sure", "--by-thread"],
    ["--limit", "3", "--comm", "tiny", "--comm=app"],
    ["--pid", "200", "--tid", "200", "--event", "0", "--time", ",99999999"],
    ["--kernel", "--kallsyms", "KALLSYMS", "--perf-map", "."],
    ["--demangle", "--debug-dir", ".", "--buildid-dir", ".", "--vdso", "srv/tiny", "--exec", "srv/tiny"],
    ["--inlines"],
    ["--lines"],
    ["--svg", "--flame", "--title", "a <b>"],
    ["--speedscope", "--title", "a"],
]
# What is refused, with status 2.
REFUSED = [["--flame"], ["--title", "a"], ["--svg", "--speedscope"], ["--limit", "many"], ["--time", "1"], ["--kallsyms", "srv/tiny"], ["--frames"], ["--diff"]]
failed = []


def script(folder, name, lines):
    path = os.path.join(folder, name)
    with open(path, "w") as file:
        file.write("#!/bin/sh\n" + lines)
    os.chmod(path, 0o755)
    return path


def ran(command):
    done = subprocess.run(command, cwd=DATA, capture_output=True)
    return done.returncode, done.stdout, done.stderr


def by_workers(program, *words):
    return ran([sys.executable, os.path.join(TOOLS, "stacks_dask.py"), "--program", program, "--root", ".", *words])


def try_forms(program, workers, kallsyms):
    """Each form, beside one run of the program over the same files."""
    for form in FORMS:
        words = [kallsyms if word == "KALLSYMS" else word for word in form]
        wanted, found = ran([program, "--root", ".", *words, *PATHS]), by_workers(program, *workers, *words, *PATHS)
        if found[:2] != wanted[:2]:
            failed.append(f"{form}: workers print something else: {found} and not {wanted}"[:2000])
    for words in REFUSED:
        found = by_workers(program, *workers, *words, PATHS[0])
        if found[0] != 2 or found[1] or not found[2]:
            failed.append(f"{words}: not refused: {found}"[:500])


def try_files(program, workers):
    """A folder, one without recordings, a file that is missing, a core file, and standard input."""
    if by_workers(program, "--workers", "2", ".")[:2] != ran([program, "--root", ".", "."])[:2]:
        failed.append("the files of a folder are others")
    for path, status, said in [("srv", 1, b"no file in it"), ("missing.data", 1, b"missing.data"), ("crash.core", 2, b"crash.core: only"), ("-", 2, b"standard input")]:
        found = by_workers(program, *workers, path)
        if (found[0], found[1]) != (status, b"") or said not in found[2]:
            failed.append(f"{path}: {found}"[:500])


def try_a_death(program, cluster, folder):
    """All recordings by the two workers of a cluster, one of which is killed while it works."""
    from distributed import Client

    slow = script(folder, "slow", f'sleep 1\nexec "{program}" "$@"\n')
    with Client(cluster) as client:
        futures = [(path, client.submit(stacks_dask.fold, slow, ["--root", DATA], path, pure=False)) for path in PATHS]
        time.sleep(2.5)
        pids = client.run(os.getpid)
        os.kill(sorted(pids.values())[0], signal.SIGKILL)
        total, status = stacks_dask.merge(futures, io.BytesIO())
    if (status, stacks_dask.text_of(total)) != ran([program, "--root", ".", *PATHS])[:2]:
        failed.append("something is printed else where a worker is killed")


def main(program):
    from distributed import LocalCluster

    with tempfile.TemporaryDirectory() as folder, LocalCluster(n_workers=2, threads_per_worker=1, dashboard_address=None) as cluster:
        kallsyms = os.path.join(folder, "kallsyms")
        with open(kallsyms, "w") as file:
            file.write("ffffffff81000000 T one\n")
        # as it is installed: with --demangle, --inlines and --lines by way of other tools
        whole = script(folder, "framehop-stacks", f'exec "{sys.executable}" "{TOOLS}/names.py" "{program}" "$@"\n')
        workers = ["--scheduler", cluster.scheduler_address]
        try_forms(whole, workers, kallsyms)
        try_files(whole, workers)
        try_a_death(whole, cluster, folder)
    print("\n".join(failed) or f"{len(PATHS)} recordings by two workers with {len(FORMS)} forms, and with one of them killed: as by one run")
    return 1 if failed else 0


if __name__ == "__main__":
    if len(sys.argv) != 2:
        sys.exit(__doc__.splitlines()[0])
    sys.exit(main(os.path.realpath(sys.argv[1])))
