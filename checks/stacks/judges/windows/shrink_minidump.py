#!/usr/bin/env python3
"""shrink_minidump.py FRAMES FROM TO: copies a minidump of Windows for x86_64 with what its stacks need only.

These are the threads that the file FRAMES has, their contexts and their stacks from rsp on, and the whole streams of the system, of the
modules, and of the exception. FRAMES has lines `thread index: address`, as checks/stacks/judge_dumps.py reads them.
"""
import struct
import sys

THREADS, MODULES, MEMORY, EXCEPTION, SYSTEM, MISC = 3, 4, 5, 6, 7, 15

frames, old, target = sys.argv[1:]
wanted = {int(line.split(" ")[0]) for line in open(frames) if line[0] != "#"}
data = open(old, "rb").read()
count, directory = struct.unpack_from("<II", data, 8)
streams = {}
for at in range(directory, directory + 12 * count, 12):
    kind, size, offset = struct.unpack_from("<III", data, at)
    streams.setdefault(kind, (size, offset))


def entries(kind, size):
    """The entries of a list."""
    start = streams[kind][1]
    (number,) = struct.unpack_from("<I", data, start)
    return [bytearray(data[start + 4 + size * it : start + 4 + size * (it + 1)]) for it in range(number)]


kept = [it for it in (SYSTEM, THREADS, MODULES, MEMORY, EXCEPTION, MISC) if it in streams]
out = bytearray(32 + 12 * len(kept))


def add(block):
    """The offset at which a block is put."""
    out.extend(bytes(-len(out) % 4))
    offset = len(out)
    out.extend(block)
    return offset


def copied(block, at):
    """Copies what the location at an offset of a block names, and corrects the location."""
    size, offset = struct.unpack_from("<II", block, at)
    if size:
        struct.pack_into("<I", block, at + 4, add(data[offset : offset + size]))


def as_list(blocks):
    return struct.pack("<I", len(blocks)) + b"".join(blocks)


exception = bytearray()
crashed, crashed_rsp = None, 0
if EXCEPTION in streams:
    size, offset = streams[EXCEPTION]
    exception = bytearray(data[offset : offset + size])
    (crashed,) = struct.unpack_from("<I", exception)
    (crashed_rsp,) = struct.unpack_from("<Q", data, struct.unpack_from("<I", exception, 164)[0] + 152)
    copied(exception, 160)

threads, memory = [], []
for thread in entries(THREADS, 48):
    (number,) = struct.unpack_from("<I", thread)
    if number not in wanted:
        continue
    first, size, offset = struct.unpack_from("<QII", thread, 24)
    (rsp,) = struct.unpack_from("<Q", data, struct.unpack_from("<I", thread, 44)[0] + 152)
    rsp = (crashed_rsp if number == crashed else rsp) & ~15
    start = offset + rsp - first
    copied(thread, 40)
    struct.pack_into("<QII", thread, 24, rsp, first + size - rsp, add(data[start : offset + size]))
    threads.append(thread)
    memory.append(bytes(thread[24:40]))

modules = entries(MODULES, 108)
for module in modules:
    (name,) = struct.unpack_from("<I", module, 20)
    (length,) = struct.unpack_from("<I", data, name)
    struct.pack_into("<I", module, 20, add(data[name : name + 4 + length + 2]))
    for at in 76, 84:
        copied(module, at)

contents = {THREADS: as_list(threads), MODULES: as_list(modules), MEMORY: as_list(memory), EXCEPTION: bytes(exception)}
system = bytearray(data[streams[SYSTEM][1] :][: streams[SYSTEM][0]])
struct.pack_into("<I", system, 24, add(struct.pack("<IH", 0, 0)))
contents[SYSTEM] = system
if MISC in streams:
    contents[MISC] = data[streams[MISC][1] :][: streams[MISC][0]]
for at, kind in enumerate(kept):
    struct.pack_into("<III", out, 32 + 12 * at, kind, len(contents[kind]), add(contents[kind]))
struct.pack_into("<4sIIIIIQ", out, 0, b"MDMP", struct.unpack_from("<I", data, 4)[0], len(kept), 32, 0, 0, 0)
open(target, "wb").write(out)
