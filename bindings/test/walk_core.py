#!/usr/bin/env python3
"""Walks the threads of a core file of x86_64 by bindings/python/framehop.py: walk_core.py [--root DIR] CORE

For each thread a line `TID N:`, a line for each frame with its number and its address, as `eu-stack` prints them, and how the
walk ended, after a `#`. Modules are read from the files that were mapped (NT_FILE), below DIR.
"""

import argparse
import struct
import sys
from pathlib import Path

sys.path.insert(0, str(Path(__file__).resolve().parent.parent / "python"))
import framehop

NT_PRSTATUS, NT_FILE = 1, 0x46494C45
# where a thread's number and registers are in the bytes of NT_PRSTATUS (elf_prstatus of <sys/procfs.h>), and their order
THREAD_OFFSET, REGISTERS_OFFSET = 32, 112
REGISTERS = "r15 r14 r13 r12 bp rbx r11 r10 r9 r8 rax rcx rdx rsi rdi orig_rax ip cs eflags sp".split()


def notes(core):
    """The kind and the bytes of each note."""
    for kind, _, offset, _, _, size, _, _ in core.segments:
        end = offset + size if kind == 4 else offset
        while offset < end:
            name_size, bytes_size, note = struct.unpack_from("<III", core.data, offset)
            start = offset + 12 + (name_size + 3) // 4 * 4
            yield note, core.data[start : start + bytes_size]
            offset = start + (bytes_size + 3) // 4 * 4


def mappings(note):
    """The start, the offset in the file and the path of each mapping of a file."""
    count, page = struct.unpack_from("<QQ", note)
    paths = note[16 + 24 * count :].split(b"\0")
    for at in range(count):
        start, _, pages = struct.unpack_from("<QQQ", note, 16 + 24 * at)
        yield start, pages * page, paths[at].decode()


def memory(core, address, size):
    """The bytes of the memory from an address on, at most so many, as far as the core file has them."""
    for kind, _, offset, start, _, length, _, _ in core.segments:
        if kind == 1 and start <= address < start + length:
            return core.data[offset + address - start : offset + min(address - start + size, length)]
    return b""


def add_modules(unwinder, core, root):
    for kind, note in notes(core):
        for start, offset, path in mappings(note) if kind == NT_FILE else ():
            try:
                unwinder.add_module(root + path, start, offset)
            except (OSError, ValueError):
                pass  # a mapping without code, or a file that is not there


def threads(core):
    """The number of each thread, its registers and its stack from the stack pointer on."""
    for kind, note in notes(core):
        if kind == NT_PRSTATUS:
            values = struct.unpack_from(f"<{len(REGISTERS)}Q", note, REGISTERS_OFFSET)
            registers = {name: it for name, it in zip(REGISTERS, values) if name not in ("orig_rax", "cs", "eflags")}
            stack = memory(core, registers["sp"] // 8 * 8, 1 << 20)
            yield struct.unpack_from("<I", note, THREAD_OFFSET)[0], registers, stack


def main():
    parser = argparse.ArgumentParser()
    parser.add_argument("--root", default="")
    parser.add_argument("core", type=Path)
    arguments = parser.parse_args()
    core = framehop.ElfFile(arguments.core.read_bytes())
    with framehop.Unwinder() as unwinder:
        add_modules(unwinder, core, arguments.root)
        for number, registers, stack in threads(core):
            print(f"TID {number}:")
            frames, end = unwinder.walk(registers, stack)
            for number, address in enumerate(frames):
                print(f"#{number} 0x{address:016x}")
            print(f"# {end}")


if __name__ == "__main__":
    main()
