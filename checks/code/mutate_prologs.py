#!/usr/bin/env python3
"""mutate_prologs.py FILE [PLACES]: how often framehop-check notices a changed unwind code.

Of each kind of change so many places (60) are tried, the same ones each time: the change counts as found where the program, with --notes,
prints a line that it does not print of the file as it is.

The built program is out/framehop-check of this repository, or that of the variable FRAMEHOP_CHECK.
"""
import collections
import random
import struct
import sys

from mutate_frames import lines_of

PUSH, ALLOC_LARGE, ALLOC_SMALL, SAVE, SAVE_FAR, SAVE_XMM, SAVE_XMM_FAR = 0, 1, 2, 4, 5, 8, 9
SLOTS = {SAVE: 2, SAVE_FAR: 3, SAVE_XMM: 2, SAVE_XMM_FAR: 3}


def sections(data):
    """The first RVA, the size in memory and the place in the file of each section, by its name."""
    coff = struct.unpack_from("<I", data, 0x3C)[0] + 4
    count, = struct.unpack_from("<H", data, coff + 2)
    size, = struct.unpack_from("<H", data, coff + 16)
    table = coff + 20 + size
    found = {}
    for number in range(count):
        name, in_memory, rva, _, place = struct.unpack_from("<8sIIII", data, table + 40 * number)
        found[name.rstrip(b"\0")] = (rva, in_memory, place)
    return found


def places_in(data):
    found, seen = collections.defaultdict(list), set()
    parts = sections(data)
    rva, size, place = parts[b".pdata"]
    for at in range(place, place + size - 11, 12):
        info = struct.unpack_from("<I", data, at + 8)[0]
        part = next((it for it in parts.values() if it[0] <= info < it[0] + it[1]), None)
        if info in seen or part is None or info == 0:
            continue
        seen.add(info)
        header = info - part[0] + part[2]
        if data[header + 3] % 16 == 5 and data[header + 3] < 0xF0:
            found["rbp 16 bytes higher"].append((header + 3, bytes([data[header + 3] + 16])))
        slot, end = header + 4, header + 4 + 2 * data[header + 2]
        while slot < end:
            offset, code, number = data[slot], data[slot + 1] % 16, data[slot + 1] // 16
            if code in (PUSH, ALLOC_SMALL) and offset > 0:
                found["an offset one byte further"].append((slot, bytes([offset + 1])))
                found["an offset one byte shorter"].append((slot, bytes([offset - 1])))
            if code == PUSH and offset > 0:
                found["a push told as 16 bytes"].append((slot + 1, bytes([ALLOC_SMALL | 1 << 4])))
            if code == ALLOC_SMALL and offset > 0 and number < 15:
                found["an allocation 8 bytes larger"].append((slot + 1, bytes([code | number + 1 << 4])))
            if code == ALLOC_SMALL and offset > 0 and number > 0:
                found["an allocation 8 bytes smaller"].append((slot + 1, bytes([code | number - 1 << 4])))
            slot += 2 * (SLOTS.get(code, 1) if code != ALLOC_LARGE else 2 + number)
    return found


def main():
    with open(sys.argv[1], "rb") as file:
        data = file.read()
    count = int(sys.argv[2]) if len(sys.argv) > 2 else 60
    before, chosen = lines_of(data), random.Random(1)
    for kind, places in sorted(places_in(data).items()):
        tried = chosen.sample(places, min(count, len(places)))
        alarms, notes = 0, 0
        for at, new in tried:
            lines = lines_of(data[:at] + new + data[at + len(new) :]) - before
            is_alarm = any(": note:" not in line for line in lines)
            alarms += is_alarm
            notes += bool(lines) and not is_alarm
        print(f"{kind}: {len(tried)} tried, {alarms} found by alarms, {notes} by notes only", flush=True)


if __name__ == "__main__":
    main()
