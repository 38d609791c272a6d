"""Writes a file with another last byte of a section: damage_section.py FILE SECTION OTHER."""
import struct
import sys

SECTION = struct.Struct("<IIQQQQIIQQ")


def sections(data):
    """Yields the name, the offset and the size of each section of a 64-bit little-endian ELF file."""
    table, = struct.unpack_from("<Q", data, 0x28)
    size, count, names = struct.unpack_from("<HHH", data, 0x3A)
    headers = [SECTION.unpack_from(data, table + size * index) for index in range(count)]
    strings = headers[names][4]
    for header in headers:
        start = strings + header[0]
        yield data[start:data.index(b"\0", start)].decode(), header[4], header[5]


path, name, other = sys.argv[1:]
data = bytearray(open(path, "rb").read())
offset, size = next((offset, size) for found, offset, size in sections(data) if found == name)
data[offset + size - 1] ^= 1
open(other, "wb").write(data)
