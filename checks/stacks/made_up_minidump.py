#!/usr/bin/env python3
"""made_up_minidump.py FILE: writes a minidump of Windows on aarch64 that no machine made, of which each stack is known by hand.

Its code has frame pointers only. Of three threads, one got an access violation and has signed return addresses, one has a frame
pointer to memory that is not there, and one has no registers. No stream has the number of the process. By the structs of
Microsoft's minidumpapiset.h and winnt.h (`ARM64_NT_CONTEXT`); the memory is in MINIDUMP_MEMORY64_LIST. LLDB reads it:
`target create --core FILE`.
"""

import struct
import sys

THREAD_LIST, MODULE_LIST, EXCEPTION, SYSTEM_INFO, MEMORY64_LIST, MISC_INFO = 3, 4, 6, 7, 9, 15
ARM64, WINDOWS = 12, 2
CONTEXT_ARM64_CONTROL, EXCEPTION_ACCESS_VIOLATION = 0x400001, 0xC0000005
PROGRAM, LIBRARY, STACK = 0x7FF6_1000_0000, 0x7FFB_0000_0000, 0x40_0000_0000
SIGNATURE = 0x5A0B << 48


class File:
    """The bytes of a file; `add` returns where its bytes begin."""

    def __init__(self, size):
        self.data = bytearray(size)

    def add(self, data, alignment=8):
        self.data += bytes(-len(self.data) % alignment)
        offset = len(self.data)
        self.data += data
        return offset


def context(fp, lr, sp, pc):
    """ContextFlags, Cpsr, x0 to x28, fp, lr, sp, pc, and 32 vector registers."""
    return struct.pack("<II33Q", CONTEXT_ARM64_CONTROL, 0x60001000, *[0] * 29, fp, lr, sp, pc) + bytes(512 + 8 + 128)


def string(text):
    units = text.encode("utf-16-le")
    return struct.pack("<I", len(units)) + units + b"\0\0"


def stack():
    words = [0] * 16
    words[2], words[3] = STACK + 0x30, SIGNATURE | PROGRAM + 0x1124
    words[6], words[7] = STACK + 0x50, SIGNATURE | LIBRARY + 0x408
    return struct.pack("<16Q", *words)


def main():
    file = File(32 + 12 * 6)
    streams = []

    def stream(kind, data):
        streams.append((kind, len(data), file.add(data)))

    def location(data):
        return struct.pack("<II", len(data), file.add(data) if data else 0)

    stream(SYSTEM_INFO, struct.pack("<HHHBBIIIIIHH24x", ARM64, 0, 0, 4, 1, 10, 0, 0, WINDOWS, 0, 0, 0))
    # SizeOfInfo, and Flags1 without MINIDUMP_MISC1_PROCESS_ID
    stream(MISC_INFO, struct.pack("<IIIIII", 24, 2, 0x1111, 0, 0, 0))
    crashed = context(STACK + 0x10, 0, STACK, PROGRAM + 0x1200)
    threads = struct.pack("<I", 3)
    for tid, registers in ((4660, context(1, 2, 3, 4)), (4661, context(0x50, 0, STACK + 0x60, LIBRARY + 0x800)), (4662, b"")):
        threads += struct.pack("<IIIIQQII", tid, 0, 0, 0, 0, STACK, 0, 0) + location(registers)
    stream(THREAD_LIST, threads)
    exception = struct.pack("<IIIIQQII15Q", 4660, 0, EXCEPTION_ACCESS_VIOLATION, 0, 0, PROGRAM + 0x1200, 0, 0, *[0] * 15)
    stream(EXCEPTION, exception + location(crashed))

    memory = stack()
    stream(MEMORY64_LIST, struct.pack("<QQQQ", 1, file.add(memory), STACK, len(memory)))
    modules = struct.pack("<I", 2)
    for base, size, name in ((PROGRAM, 0x5000, "C:\\app\\größe.exe"), (LIBRARY, 0x2000, "C:\\app\\plug.dll")):
        record = b"RSDS" + bytes(range(16)) + struct.pack("<I", 1) + b"c:\\made\\up.pdb\0"
        modules += struct.pack("<QIIII52x", base, size, 0, 0, file.add(string(name), 4)) + location(record) + bytes(24)
    stream(MODULE_LIST, modules)

    header = struct.pack("<4sHHIIIIQ", b"MDMP", 0xA793, 0, len(streams), 32, 0, 0, 0)
    directory = b"".join(struct.pack("<III", *entry) for entry in streams)
    file.data[: len(header) + len(directory)] = header + directory
    with open(sys.argv[1], "wb") as output:
        output.write(file.data)


main()
