#!/usr/bin/env python3
"""compare_stacks.py PERF OURS [SHOWN]: compares the stack of each sample with perf's.

PERF is the output of `perf script --no-inline --ns --show-mmap-events -F comm,pid,tid,time,ip,sym,uregs -i RECORDING`, OURS that of
`framehop-stacks --frames RECORDING`. Both have the frames from the innermost on. perf prints a return address less one, and not the
address but the offset in the file: so ours are moved by any mapping of the recording that has them. Prints how many stacks are the
same, how many have more frames here or there, and how many contradict one another, of which the first SHOWN are shown; how many
reach the root; how they end, with those of one frame, and those of which perf has more; where the words are that could not be read;
how many stacks have frames by which mark; and how many frames have the same name.
"""

import re
import sys
from collections import Counter
from functools import lru_cache

ROOTS = ("_start", "clone3", "__clone3", "__GI___clone3", "clone", "__clone", "_dl_start_user", "__clone3_internal")
MAPPED = re.compile(r"PERF_RECORD_MMAP2? (-?\d+)/\d+: \[0x([0-9a-f]+)\((?:0x)?([0-9a-f]+)\) @ (?:0x)?([0-9a-f]+)")
MARK = re.compile(r" \[(signal|frame-pointer|code|guess)\]$")
# How many bytes of a stack perf copies at most.
MOST_COPIED = 65528
mappings, stack_pointers = set(), {}


def perf_samples(path):
    """The frames of each sample by its thread and its time, without those of the kernel; notes the stack pointers."""
    head = re.compile(r"^\s*(.+?)\s+(\d+)/(\d+)\s+(\d+)\.(\d{9}):")
    found, frames = {}, None
    for line in open(path, errors="replace"):
        if not line.strip():
            continue
        mapped = MAPPED.search(line)
        if mapped:
            start = int(mapped[2], 16)
            mappings.add((start, start + int(mapped[3], 16), int(mapped[4], 16)))
        if "PERF_RECORD_" in line:
            frames = None
            continue
        began, pointer = head.match(line), re.match(r" ABI:.* SP:0x([0-9a-f]+) ", line)
        if pointer:
            stack_pointers[key] = int(pointer[1], 16)
        elif began and not line.startswith(("\t", "        ")):
            frames, key = [], (int(began[3]), int(began[4]) * 10**9 + int(began[5]))
            found.setdefault(key, []).append(frames)
        elif frames is not None:
            words = line.split(None, 1)
            if int(words[0], 16) < 1 << 63:
                frames.append((int(words[0], 16), words[1].strip() if len(words) > 1 else ""))
    return found


def our_samples(path):
    """The frames of each sample by its thread and its time, and how its walk ended."""
    head = re.compile(r"^(.*) (\d+)/(\d+) (\d+):$")
    found, stack = {}, None
    for line in open(path, errors="replace"):
        line = line.rstrip("\n")
        began = head.match(line)
        if began:
            stack = [[], None]
            found.setdefault((int(began[3]), int(began[4])), []).append(stack)
        elif line.startswith("[") and stack is not None:
            stack[1] = line.strip("[]")
        elif line and stack is not None:
            address, place = line.split(" ", 1)
            is_return_address = bool(stack[0]) and not place.endswith(" [signal]")
            stack[0].append((int(address, 16) - is_return_address, place))
    return found


@lru_cache(None)
def offsets(address):
    return frozenset([address]) | frozenset(address - start + offset for start, end, offset in mappings if start <= address < end)


def name_of(place):
    return "" if place.startswith("[unknown]") else place.rsplit(" (", 1)[0].rsplit("+0x", 1)[0]


def is_part(few, many, same):
    rest = iter(many)
    return all(any(same(frame, other) for other in rest) for frame in few)


def is_no_code(frame):
    return not any(offset <= frame[0] < offset + end - start for start, end, offset in mappings)


def kind_of(ours, perf):
    theirs = [frame[0] for frame in perf]
    mine = [theirs[i] if i < len(theirs) and theirs[i] in offsets(frame[0]) else frame[0] for i, frame in enumerate(ours)]
    if mine == theirs:
        return "same"
    if mine[: len(theirs)] == theirs:
        return "more here"
    if theirs[: len(mine)] == mine:
        return "more in perf"
    if is_part(perf, ours, lambda frame, other: frame[0] in offsets(other[0])):
        return "perf skips frames"
    if is_part(ours, perf, lambda frame, other: other[0] in offsets(frame[0])):
        return "frames skipped here"
    if any(is_no_code(frame) for frame in perf):
        return "perf left the code"
    return "contradicting"


def count_names(counts, ours, perf):
    for (address, place), (their_address, their_name) in zip(ours, perf):
        if their_address not in offsets(address):
            continue
        name = name_of(place)
        if name == their_name:
            counts["same"] += 1
        elif their_name == "[unknown]":
            counts["here only"] += 1
        else:
            counts["other" if name else "in perf only"] += 1


def show(key, end, ours, perf):
    print("---", key, end)
    for i in range(max(len(ours), len(perf))):
        mine = "%x %s" % ours[i] if i < len(ours) else "-"
        theirs = "%x %s" % perf[i] if i < len(perf) else "-"
        print(" ", i, mine, "| perf", theirs)


def place_of_word(key, end):
    """Where a word is that could not be read, by the stack pointer of the sample."""
    address, pointer = int(end.split(" ")[1], 16), stack_pointers.get(key)
    if pointer is None:
        return "not known"
    if address < pointer:
        return "below the stack pointer"
    return "in a larger copy" if address < pointer + MOST_COPIED else "above the largest copy"


def main():
    perf, ours = perf_samples(sys.argv[1]), our_samples(sys.argv[2])
    shown = int(sys.argv[3]) if len(sys.argv) > 3 else 0
    kinds, ends, names, perf_roots, samples = Counter(), Counter(), Counter(), 0, 0
    lone, more, words, marks = Counter(), Counter(), Counter(), Counter()
    for key, stacks in ours.items():
        for place, (frames, end) in enumerate(stacks):
            samples += 1
            if end.startswith("cannot-access-memory"):
                words[place_of_word(key, end)] += 1
            end = end.split(" ")[0]
            ends[end] += 1
            lone[end] += len(frames) == 1
            marks.update({mark[1] for mark in (MARK.search(frame) for _, frame in frames) if mark})
            theirs = perf.get(key, [])
            if place >= len(theirs):
                kinds["not in perf"] += 1
                continue
            kind = kind_of(frames, theirs[place])
            kinds[kind] += 1
            more[end] += kind == "more in perf"
            perf_roots += bool(theirs[place]) and theirs[place][-1][1].split("+")[0] in ROOTS
            count_names(names, frames, theirs[place])
            if kind == "contradicting" and shown:
                shown -= 1
                show(key, end, frames, theirs[place])
    print(f"samples {samples}, of perf {sum(map(len, perf.values()))}:", dict(kinds))
    print(f"to the root: {ends['root']}, in perf {perf_roots}; ends:", dict(ends))
    print("of one frame:", dict(+lone), "more in perf:", dict(+more), "words that could not be read:", dict(words))
    print("with frames by marks:", dict(marks))
    print("names:", dict(names))


main()
