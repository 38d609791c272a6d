"""Stored dumps with other bytes at offsets, for checks/cases: a process with one thread, whose frame pointer is 0, and one module."""

import struct

CORE = "crates/framehop_stacks_cli/data/crash.core"
MINIDUMP = "crates/framehop_stacks_cli/data/small.dmp"
# the program, the process and the thread of both, as their blocks begin
OF_CORE = "crash 32706/32706 crashed by SIGSEGV (SEGV_MAPERR at 0x10):"
# where the stack begins in the core file
STACK = 0x7FFFB27B1000


def words(*values):
    return struct.pack(f"<{len(values)}Q", *values).hex()


def in_core(path, ip, stack=(0,), page=b"\0"):
    """The core file: the file of a path is mapped at 0x400000, and may be executed. Of its first page the process has these
    bytes, and without them no build id."""
    return {
        "0x7c": "05",
        "0x69c": "01",
        "0x6c4": path.encode().hex() + "00",
        "0x314": words(0),
        "0x374": words(ip),
        "0x38c": words(STACK),
        "0xd000": words(*stack),
        "0x3000": page.hex(),
        # the registers of the second thread are no such note
        "0x13ec": "00",
    }


def in_minidump(name, base, ip, stack=(0,), record=b""):
    """The minidump, of 0x2b04 bytes: a module of this name and CodeView record is loaded at its base, where its memory lies, too."""
    units = name.encode("utf-16-le")
    return {
        # the list of threads has one, and that of modules, too; there is no exception
        "0x30": "34000000",
        "0x25d8": "01",
        "0x3c": "70000000",
        "0x269c": "01",
        "0x50": "00",
        "0x26a0": words(base),
        "0x26b4": "042b0000",
        "0x26ec": struct.pack("<II", len(record), 0x2B0A + len(units)).hex(),
        "0x5d8": words(0),
        "0x630": words(ip),
        "0xa10": words(*stack),
        "add": (struct.pack("<I", len(units)) + units + bytes(2) + record).hex(),
    }
