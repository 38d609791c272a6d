#!/usr/bin/env python3
"""with_files.py CORE MAPS: gives a core file of qemu the note NT_FILE, which the kernel's core files have and qemu's do not.

MAPS is what the process printed of its /proc/self/maps. The notes are copied to the end of the file, with the new one after them.
"""
import re
import struct
import sys

PT_NOTE, NT_FILE = 4, 0x46494C45

data = bytearray(open(sys.argv[1], "rb").read())
mapped = []
for line in open(sys.argv[2]):
    found = re.match(r"([0-9a-f]+)-([0-9a-f]+) \S+ ([0-9a-f]+) \S+ \d+ +(/.*)$", line)
    if found:
        mapped.append((int(found[1], 16), int(found[2], 16), int(found[3], 16) // 4096, found[4].encode() + b"\0"))
text = struct.pack("<QQ", len(mapped), 4096) + b"".join(struct.pack("<QQQ", *it[:3]) for it in mapped) + b"".join(it[3] for it in mapped)
note = struct.pack("<III", 5, len(text), NT_FILE) + b"CORE\0\0\0\0" + text + bytes(-len(text) % 4)

(headers,) = struct.unpack_from("<Q", data, 32)
size, count = struct.unpack_from("<HH", data, 54)
for at in range(headers, headers + size * count, size):
    kind, _, offset = struct.unpack_from("<IIQ", data, at)
    if kind == PT_NOTE:
        (length,) = struct.unpack_from("<Q", data, at + 32)
        notes = bytes(data[offset : offset + length])
        struct.pack_into("<Q", data, at + 8, len(data))
        struct.pack_into("<Q", data, at + 32, length + len(note))
        data += notes + note
open(sys.argv[1], "wb").write(data)
