#!/usr/bin/env python3
"""Puts under each frame of stacks what `readelf --debug-dump=frames-interp` has for it: explain.py ELF <STACKS.

The stacks are those of from_perf.py, of an executable that is mapped at its own addresses and has rows by rsp only.
"""
import bisect
import re
import subprocess
import sys


def rows_of(path):
    """The rows of a file: where each begins, the offset of its FDE, and its columns."""
    dump = subprocess.run(["readelf", "--debug-dump=frames-interp", path], check=True, capture_output=True, text=True)
    rows, offset, first, columns, cies = [], "", 0, [], {}
    for line in dump.stdout.splitlines():
        entry = re.match(r"([0-9a-f]{8}) \S+ \S+ (CIE|FDE)(?: cie=([0-9a-f]+) pc=([0-9a-f]+))?", line)
        if entry:
            offset, first = int(entry[1], 16), int(entry[4] or "0", 16)
            is_cie, cie = entry[2] == "CIE", entry[3]
            if not is_cie:
                # an FDE without instructions has the row of its CIE
                rows.append((first, offset, cies[cie]))
            continue
        words = line.split()
        if words[:1] == ["LOC"]:
            columns = words[1:]
        elif words and re.fullmatch(r"[0-9a-f]{16}", words[0]):
            row = dict(zip(columns, words[1:]))
            if is_cie:
                cies[f"{offset:08x}"] = row
            else:
                rows.append((int(words[0], 16), offset, row))
    return rows


def note_of(rows, address):
    """The note of a frame by its lookup address."""
    _, offset, row = rows[bisect.bisect_right([start for start, _, _ in rows], address) - 1]
    if row["ra"] == "u":
        told = "EndOfStack: end of the stack"
    else:
        cfa, rbp = int(row["CFA"].removeprefix("rsp+")), row.get("rbp", "u").removeprefix("c-")
        fields, saved = f"sp_offset_by_8: {cfa // 8}", f"; rbp at CFA - {rbp}"
        if rbp == "u":
            rule, saved = f"OffsetSp {{ {fields} }}", ""
        else:
            fields += f", bp_storage_offset_from_sp_by_8: {(cfa - int(rbp)) // 8}"
            rule = f"OffsetSpAndRestoreBp {{ {fields} }}"
        told = f"{rule}: CFA = rsp + {cfa}{saved}; return address at CFA - " + row["ra"].removeprefix("c-")
    return f"  0x{address:x}: row of FDE 0x{offset:x} of .eh_frame: {told}"


def main():
    rows = rows_of(sys.argv[1])
    is_first = True
    for line in sys.stdin.read().splitlines():
        print(line)
        frame = re.match(r"(?:#\d+ )?([0-9a-f]+) .*\)( \[cfi\])?$", line)
        if frame:
            # a caller's frame is looked up inside the call
            print(note_of(rows, int(frame[1], 16) - (0 if is_first else 1)))
            is_first = False
        else:
            is_first = True


main()
