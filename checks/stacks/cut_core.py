#!/usr/bin/env python3
"""Leaves out of a core file all memory but the first page of each file and the stack from its innermost frame on: cut_core.py CORE CUT

The stack is the segment that the stack pointer of the first thread lies in; at most 8 KB of it are kept.
"""
import struct
import sys

PT_LOAD, PT_NOTE, NT_PRSTATUS, RSP = 1, 4, 1, 112 + 19 * 8

core = open(sys.argv[1], "rb").read()
table, count = struct.unpack_from("<Q", core, 32)[0], struct.unpack_from("<H", core, 56)[0]
headers = [list(struct.unpack_from("<IIQQQQQQ", core, table + 56 * i)) for i in range(count)]
notes = next(h for h in headers if h[0] == PT_NOTE)
names, size, kind = struct.unpack_from("<III", core, notes[2])
assert kind == NT_PRSTATUS
stack_pointer = struct.unpack_from("<Q", core, notes[2] + 12 + (names + 3) // 4 * 4 + RSP)[0]

cut = bytearray(core[:table + 56 * count])
for at, header in enumerate(headers):
    kind, flags, offset, address, physical, file_size, memory_size, alignment = header
    kept = b""
    if kind == PT_NOTE:
        kept = core[offset:offset + file_size]
    elif address <= stack_pointer < address + memory_size:
        first = (stack_pointer - 256) & ~0xfff
        offset, address, memory_size = offset + first - address, first, address + memory_size - first
        kept = core[offset:offset + min(memory_size, 8192)]
    elif core[offset:offset + 4] == b"\x7fELF" and not flags & 1:
        kept = core[offset:offset + min(file_size, 4096)]
    cut += bytes(-len(cut) % 16)
    struct.pack_into("<IIQQQQQQ", cut, table + 56 * at, kind, flags, len(cut), address, physical, len(kept), memory_size, 1)
    cut += kept
open(sys.argv[2], "wb").write(cut)
