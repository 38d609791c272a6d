"""Writes an ELF file with a hole of so many MiB, and its headers as that moves what comes after it: enlarge.py FILE MIB OTHER.

In a file with sections, `.comment` becomes `.debug_x`, which has the hole: it is as one that was built for debugging. In a core file
the hole comes before the last segment of which the file has bytes.
"""
import struct
import sys

COMMENT, DEBUG = b"\0.comment\0", b"\0.debug_x\0"
WORD = struct.Struct("<Q")


def word(data, place):
    return WORD.unpack_from(data, place)[0]


def fields(data, table, sizes):
    """The places in the file of a field of each header of a table, by the places of the table's offset and of its header's size."""
    size, count = struct.unpack_from("<HH", data, sizes)
    start = word(data, table)
    return range(start, start + size * count, size) if size else []


path, size, other = sys.argv[1:]
data, gap = bytearray(open(path, "rb").read()), int(size) << 20
segments, sections = fields(data, 0x20, 0x36), fields(data, 0x28, 0x3A)
if sections:
    names = word(data, sections[struct.unpack_from("<H", data, 0x3E)[0]] + 24)
    name = data.index(COMMENT, names) + 1 - names
    section = next(place for place in sections if struct.unpack_from("<I", data, place)[0] == name)
    hole = word(data, section + 24) + word(data, section + 32)
    data[names + name - 1 : names + name + len(COMMENT) - 1] = DEBUG
    WORD.pack_into(data, section + 32, word(data, section + 32) + gap)
else:
    hole = max(offset for offset in (word(data, place + 8) for place in segments) if offset < len(data))
for place in [0x28, *(place + 8 for place in segments), *(place + 24 for place in sections)]:
    if word(data, place) >= hole:
        WORD.pack_into(data, place, word(data, place) + gap)
with open(other, "wb") as file:
    file.write(data[:hole])
    file.seek(gap, 1)
    file.write(data[hole:])
