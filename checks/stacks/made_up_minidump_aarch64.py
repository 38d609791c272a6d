#!/usr/bin/env python3
"""Writes a minidump of aarch64: made_up_minidump_aarch64.py FILE

Three threads, two lists of memory and four modules, by the structs of Microsoft's minidumpapiset.h and winnt.h
(`ARM64_NT_CONTEXT`) and of Breakpad's minidump_format.h (`MDRawContextARM64_Old`, `MDCVInfoELF`). The list of threads has
four bytes of padding after its count. LLDB reads the file: `target create --core FILE`.
"""
import struct
import sys

THREAD_LIST, MODULE_LIST, MEMORY_LIST, EXCEPTION, SYSTEM_INFO, MEMORY64_LIST = 3, 4, 5, 6, 7, 9
ARM64_OLD, LINUX = 0x8003, 0x8201
CONTEXT_CONTROL, CONTEXT_FULL_OLD = 0x400001, 0x80000006


class File:
    """The bytes of a file; `add` returns where its bytes begin."""

    def __init__(self, size):
        self.data = bytearray(size)

    def add(self, data, alignment=8):
        self.data += bytes(-len(self.data) % alignment)
        offset = len(self.data)
        self.data += data
        return offset


def context(base, fp, lr, sp, pc):
    """winnt.h: ContextFlags, Cpsr, x0 to x28, fp, lr, sp, pc, and 32 vector registers."""
    words = [base + number for number in range(29)] + [fp, lr, sp, pc]
    return struct.pack("<II33Q", CONTEXT_CONTROL, 0x60001000, *words) + bytes(512 + 8 + 128)


def old_context(base, fp, lr, sp, pc):
    """Breakpad's older form: flags of eight bytes, the same registers, and cpsr."""
    words = [base + number for number in range(29)] + [fp, lr, sp, pc]
    return struct.pack("<Q33QI", CONTEXT_FULL_OLD, *words, 0x60001000) + bytes(4 + 4 + 512)


def string(units):
    return struct.pack("<I", len(units)) + units + b"\0\0"


def words(base, count):
    return b"".join(struct.pack("<Q", base + number) for number in range(count))


def main():
    file = File(32 + 12 * 6)
    streams = []

    def stream(kind, data):
        streams.append((kind, len(data), file.add(data)))

    def location(data):
        return struct.pack("<II", len(data), file.add(data) if data else 0)

    stream(SYSTEM_INFO, struct.pack("<HHHBBIIIIIHH24x", ARM64_OLD, 0, 0, 4, 1, 6, 1, 0, LINUX, 0, 0, 0))
    stack = words(0x5000_0000, 32)
    second_stack = words(0x6000_0000, 16)
    stack_at, second_at = file.add(stack), file.add(second_stack)
    contexts = [
        context(0x1100, 0x1111, 0x2222, 0x3333, 0x4444),
        old_context(0x2200, 0xFFFF_F000_0810, 0x0011_AAAA_0000_0900, 0xFFFF_F000_0800, 0xAAAA_0000_0800),
        b"",
    ]
    crashed = context(0x3300, 0xFFFF_F000_0010, 0x002D_AAAA_0000_0748, 0xFFFF_F000_0000, 0xAAAA_0000_0710)
    places = [(0xFFFF_F000_0000, stack, stack_at), (0xFFFF_F000_0800, second_stack, second_at), (0, b"", 0)]
    threads = struct.pack("<II", 3, 0)
    for tid, part, (start, memory, offset) in zip((501, 502, 503), contexts, places):
        threads += struct.pack("<IIIIQQII", tid, 0, 0, 0, 0x7000_0000 + tid, start, len(memory), offset) + location(part)
    stream(THREAD_LIST, threads)

    exception = struct.pack("<IIIIQQII15Q", 501, 0, 11, 1, 0, 0x10, 0, 0, *[0] * 15)
    stream(EXCEPTION, exception + location(crashed))

    stream(MEMORY_LIST, struct.pack("<I", 1) + struct.pack("<QII", 0xFFFF_F000_0000, len(stack), stack_at))
    first, second = words(0xA000, 4), words(0xB000, 2)
    base = file.add(first + second)
    stream(MEMORY64_LIST, struct.pack("<QQ4Q", 2, base, 0xAAAA_0000_0000, len(first), 0xAAAA_0001_0000, len(second)))

    build_id = bytes(range(0x10, 0x24))
    guid = struct.pack("<IHH", 0x01234567, 0x89AB, 0xCDEF) + bytes(range(0xF0, 0xF8))
    modules = struct.pack("<I", 4)
    for start, size, time, name, record in (
        (0xAAAA_0000_0000, 0x12000, 1, "/usr/bin/größe".encode("utf-16-le"), b"LEpB" + build_id),
        (0xFFFF_A000_0000, 0x1000, 2, "C:\\𝄞.dll".encode("utf-16-le"), b"RSDS" + guid + struct.pack("<I", 3) + b"c:\\made\\up.pdb\0\0"),
        (0xFFFF_B000_0000, 0x2000, 3, b"a\0\x1d\xdcb\0", b"NB10" + bytes(12)),
        (0xFFFF_C000_0000, 0x3000, 4, b"", b""),
    ):
        modules += struct.pack("<QIIII52x", start, size, 0x100 + time, time, file.add(string(name), 4)) + location(record) + bytes(24)
    stream(MODULE_LIST, modules)

    header = struct.pack("<4sHHIIIIQ", b"MDMP", 0xA793, 0x1234, len(streams), 32, 0, 0x5000_0000, 0)
    directory = b"".join(struct.pack("<III", *entry) for entry in streams)
    file.data[: len(header) + len(directory)] = header + directory
    with open(sys.argv[1], "wb") as output:
        output.write(file.data)


main()
