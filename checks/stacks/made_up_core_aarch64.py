#!/usr/bin/env python3
"""Writes a core file of aarch64: made_up_core_aarch64.py FILE

Two threads with pointer authentication, after Linux's include/linux/elfcore.h (`struct elf_prstatus`, `struct elf_prpsinfo`),
arch/arm64/include/uapi/asm/ptrace.h (`struct user_pt_regs`, `struct user_pac_mask`) and fs/binfmt_elf.c (`fill_files_note`).
A page of the stack was dumped, and of the code nothing. `readelf -hln` reads it.
"""
import struct
import sys

PAGE = 0x1000
PAC_MASK = 0x007F_0000_0000_0000
ET_CORE, EM_AARCH64 = 4, 183
PT_LOAD, PT_NOTE = 1, 4
NT_PRSTATUS, NT_PRPSINFO, NT_FILE, NT_ARM_PAC_MASK = 1, 3, 0x46494C45, 0x406


def padded(data):
    return data + bytes(-len(data) % 4)


def note(owner, kind, descriptor):
    name = owner.encode() + b"\0"
    return padded(struct.pack("<III", len(name), len(descriptor), kind) + name) + padded(descriptor)


def prstatus(tid, signal, registers):
    front = struct.pack("<iiihxxQQiiii", signal, 0, 0, signal, 0, 0, tid, 1, 500, 500)
    return front + bytes(64) + struct.pack("<34Q", *registers) + struct.pack("<ixxxx", 1)


def registers(base, fp, lr, sp, pc):
    """x0 to x28 are numbers of their own; then x29, x30, sp, pc and pstate."""
    return [base + number for number in range(29)] + [fp, lr, sp, pc, 0x60001000]


def prpsinfo(pid, name, arguments):
    front = struct.pack("<BcBbxxxxQIIiiii", 0, b"R", 0, 0, 0x400600, 1000, 1000, pid, 1, 500, 500)
    return front + name.ljust(16, b"\0") + arguments.ljust(80, b"\0")


def files(entries):
    front = struct.pack("<QQ", len(entries), PAGE)
    places = b"".join(struct.pack("<QQQ", start, end, offset // PAGE) for start, end, offset, _ in entries)
    return front + places + b"".join(path + b"\0" for *_, path in entries)


def program_header(kind, flags, offset, address, in_file, in_memory, alignment):
    return struct.pack("<IIQQQQQQ", kind, flags, offset, address, 0, in_file, in_memory, alignment)


def main():
    first = registers(0x1100, 0xFFFF_F000_0010, 0x002D_AAAA_0000_0748, 0xFFFF_F000_0000, 0xAAAA_0000_0710)
    second = registers(0x2200, 0xFFFF_F000_0810, 0x0011_AAAA_0000_0900, 0xFFFF_F000_0800, 0xAAAA_0000_0800)
    masks = struct.pack("<QQ", PAC_MASK | 0xFF80_0000_0000_0000, PAC_MASK)
    notes = b"".join([
        note("CORE", NT_PRSTATUS, prstatus(501, 11, first)),
        note("CORE", NT_PRPSINFO, prpsinfo(501, b"made-up", b"./made-up")),
        note("CORE", NT_FILE, files([
            (0xAAAA_0000_0000, 0xAAAA_0000_1000, 0, b"/usr/bin/made-up"),
            (0xAAAA_0001_0000, 0xAAAA_0001_2000, 0x10000, b"/usr/bin/made-up"),
            (0xFFFF_A000_0000, 0xFFFF_A000_1000, 0x3000, b"/usr/lib/libmade.so"),
        ])),
        note("LINUX", NT_ARM_PAC_MASK, masks),
        note("CORE", NT_PRSTATUS, prstatus(502, 0, second)),
    ])
    stack = b"".join(struct.pack("<Q", 0x5000_0000 + word) for word in range(PAGE // 8))
    start = 64 + 3 * 56
    data = start + len(notes) + (-(start + len(notes)) % PAGE)
    header = b"\x7fELF" + bytes([2, 1, 1]) + bytes(9)
    header += struct.pack("<HHIQQQIHHHHHH", ET_CORE, EM_AARCH64, 1, 0, 64, 0, 0, 64, 56, 3, 0, 0, 0)
    table = program_header(PT_NOTE, 0, start, 0, len(notes), 0, 4)
    table += program_header(PT_LOAD, 5, data, 0xAAAA_0000_0000, 0, PAGE, PAGE)
    table += program_header(PT_LOAD, 6, data, 0xFFFF_F000_0000, 0x200, 2 * PAGE, PAGE)
    with open(sys.argv[1], "wb") as file:
        file.write((header + table + notes).ljust(data, b"\0") + stack[:0x200])


main()
