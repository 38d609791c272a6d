"""What the scripts of this folder share: runs of a program on files of one kind at three sizes, each of twice as many items as the one
before, and what their time, memory and output are judged by.
"""
import os
import subprocess
import sys
import tempfile
import threading
import time
from typing import NamedTuple

# with twice as many items a run may take so many times as long, as much memory and as much output as the one before
GROWS = 3
# seconds, MB and MB that are not judged: a run takes them whatever it reads
UNSEEN_SECONDS, UNSEEN_MEMORY, UNSEEN_OUTPUT = 0.3, 16, 0.1
# a run that takes longer, in seconds, is ended
LONGEST = 60
# the most MB of memory, and of output, for each MB of the files, and beside them
MOST_FOR_EACH, MOST_BESIDE = 64, 64


class Run(NamedTuple):
    """The status of a run, its seconds, and the MB of memory that it took at most and of what it wrote."""
    status: int
    seconds: float
    memory: float
    output: float


def count_bytes(pipe, counted):
    while data := pipe.read1(1 << 20):
        counted.append(len(data))


def run(command):
    """Runs a command, whose output is counted."""
    counted = []
    begun = time.monotonic()
    with subprocess.Popen(command, stdin=subprocess.DEVNULL, stdout=subprocess.PIPE, stderr=subprocess.STDOUT) as process:
        reader = threading.Thread(target=count_bytes, args=(process.stdout, counted))
        reader.start()
        while True:
            pid, status, usage = os.wait4(process.pid, os.WNOHANG)
            if pid:
                break
            if time.monotonic() > begun + LONGEST:
                process.kill()
            time.sleep(0.002)
        seconds = time.monotonic() - begun
        process.returncode = os.waitstatus_to_exitcode(status)
        reader.join()
    return Run(process.returncode, seconds, usage.ru_maxrss / 1024, sum(counted) / 1e6)


def grows(before, after, unseen):
    return after > max(unseen, GROWS * before)


def faults(before, after, size, statuses):
    """What is wrong with a run on files of a size in MB, beside the one on half as many items."""
    found = []
    if after.status not in statuses:
        found.append(f"status {after.status}")
    if max(after.memory, after.output) > MOST_FOR_EACH * size + MOST_BESIDE:
        found.append("memory or output for its size")
    if before:
        found += [name for name, is_more in (
            ("time", grows(before.seconds, after.seconds, UNSEEN_SECONDS)),
            ("memory", grows(before.memory - UNSEEN_MEMORY, after.memory - UNSEEN_MEMORY, UNSEEN_MEMORY)),
            ("output", grows(before.output, after.output, UNSEEN_OUTPUT)),
        ) if is_more]
    return found


def size_of(folder):
    """The MB that the files of a folder take on a disk."""
    files = (os.path.join(at, name) for at, _, names in os.walk(folder) for name in names)
    return sum(512 * os.lstat(file).st_blocks for file in files) / 1e6


def make(generator, kind, items, folder):
    """Makes the files of a kind by a process of its own: the memory of this one would count as that of what it starts."""
    subprocess.run([sys.executable, generator, kind, str(items), folder], check=True)


def try_kinds(generator, kinds, sizes, commands_for, statuses=(0,), excepted=()):
    """Runs the commands for each kind on files of each size that a generator makes in a folder: `commands_for(kind, folder)` are they,
    by what is said of them. Prints what each takes, and ends with status 1 where something is wrong. Of a kind that is excepted
    growth is only printed."""
    bad = []
    print(f"{'kind':26} {'run':12} {'items':>6} {'MB':>7} {'status':>6} {'seconds':>8} {'memory MB':>9} {'output MB':>9}")
    for kind in kinds:
        before = {}
        for items in sizes:
            with tempfile.TemporaryDirectory() as folder:
                make(generator, kind, items, folder)
                size = size_of(folder)
                for said, command in commands_for(kind, folder).items():
                    now = run(command)
                    found = faults(before.get(said), now, size, statuses)
                    print(f"{kind:26} {said:12} {items:6} {size:7.2f} {now.status:6} {now.seconds:8.2f} {now.memory:9.0f} {now.output:9.2f}"
                          f"{'  more: ' + ', '.join(found) if found else ''}", flush=True)
                    if found and kind not in excepted:
                        bad.append(f"{kind} {said} {items}: {', '.join(found)}")
                    before[said] = now
            if any(ran.status < 0 for ran in before.values()):
                break
    for line in bad:
        print(f"bad: {line}")
    sys.exit(1 if bad else 0)
