#!/usr/bin/env python3
"""Makes dumps that no machine made, or changes stored ones: made_up_dumps.py DATA FOLDER.

DATA is crates/framehop_stacks_cli/data. Core files of the notes that other systems write (FreeBSD's sys/elf_common.h, NetBSD's and
OpenBSD's sys/exec_elf.h), and without any; crash.core with half a page of its stack cut off, and with other fields of siginfo_t; small.dmp and
crash.dmp with other streams.
"""
import struct
import sys
import zlib
from pathlib import Path

data, folder = Path(sys.argv[1]), Path(sys.argv[2])


def core_of(*notes):
    """An ELF core file of x86_64 that has a segment of notes and nothing else."""
    block = b""
    for owner, kind, descriptor in notes:
        name = owner.encode() + b"\0"
        block += struct.pack("<III", len(name), len(descriptor), kind) + name + bytes(-len(name) % 4) + descriptor + bytes(-len(descriptor) % 4)
    header = b"\x7fELF\x02\x01\x01" + bytes(9) + struct.pack("<HHIQQQIHHHHHH", 4, 62, 1, 0, 64, 0, 0, 64, 56, 1, 0, 0, 0)
    return header + struct.pack("<IIQQQQQQ", 4, 0, 120, 0, 0, len(block), 0, 4) + block


def with_siginfo(signal, code, fields):
    """crash.core, whose first thread got another signal."""
    core = bytearray((data / "crash.core").read_bytes())
    at = core.index(struct.pack("<III", 5, 128, 0x53494749) + b"CORE\0") + 20
    struct.pack_into("<iii", core, at, signal, 0, code)
    core[at + 16:at + 24] = fields
    # pr_cursig of each NT_PRSTATUS
    note = struct.pack("<III", 5, 336, 1) + b"CORE\0"
    at = core.find(note)
    while at >= 0:
        struct.pack_into("<h", core, at + 20 + 12, signal)
        at = core.find(note, at + 1)
    return bytes(core)


def with_streams(name, added=(), dropped=()):
    """A stored minidump with further streams, (type, function of their offset), and without those of some types."""
    dump = bytearray((data / name).read_bytes())
    count, directory = struct.unpack_from("<II", dump, 8)
    entries = [struct.unpack_from("<III", dump, directory + 12 * at) for at in range(count)]
    entries = [it for it in entries if it[0] not in dropped]
    for kind, made in added:
        at = len(dump)
        stream = made(at)
        size = stream if isinstance(stream, tuple) else (len(stream), stream)
        entries.append((kind, size[0], at))
        dump += size[1]
    struct.pack_into("<II", dump, 8, len(entries), len(dump))
    for it in entries:
        dump += struct.pack("<III", *it)
    return bytes(dump)


def string_of(text):
    units = text.encode("utf-16-le")
    return struct.pack("<I", len(units)) + units + b"\0\0"


def thread_names(*names):
    """The list of the names of threads, and the names after it."""

    def made(at):
        entries, strings = b"", b""
        start = at + 4 + 12 * len(names)
        for tid, name in names:
            entries += struct.pack("<IQ", tid, start + len(strings))
            strings += string_of(name)
        return 4 + len(entries), struct.pack("<I", len(names)) + entries + strings

    return made


def modules(*listed):
    """A list of modules by their base and name; a name of None is that of the first."""

    def made(at):
        entries, strings = b"", b""
        start = first = at + 4 + 108 * len(listed)
        for base, name in listed:
            where = first if name is None else start + len(strings)
            entries += struct.pack("<QIIII", base, 0x8000, 0, 0, where) + bytes(52 + 32)
            strings += b"" if name is None else string_of(name)
        return 4 + len(entries), struct.pack("<I", len(listed)) + entries + strings

    return made


def exception(tid, code, flags, address, *parameters):
    words = list(parameters) + [0] * (15 - len(parameters))
    return lambda at: struct.pack("<II", tid, 0) + struct.pack("<IIQQII15Q", code, flags, 0, address, len(parameters), 0, *words) + bytes(8)


def without_build_id(program):
    """A program whose note of its build id is of another type."""
    changed = bytearray(program)
    changed[changed.index(struct.pack("<III", 4, 20, 3) + b"GNU\0") + 8] = 9
    return bytes(changed)


def with_checksum(name, checksum):
    """A stored minidump whose first module has a checksum in the place of its build id, as LLDB writes it."""
    dump = bytearray((data / name).read_bytes())
    record = dump.index(b"LEpB")
    place = dump.index(struct.pack("<II", 24, record))
    struct.pack_into("<I", dump, place, 8)
    struct.pack_into("<I", dump, record + 4, checksum)
    return bytes(dump)


program = without_build_id((data / "usr/local/bin/crash").read_bytes())
(folder / "usr/local/bin").mkdir(parents=True)
(folder / "usr/local/bin/crash").write_bytes(program)

files = {
    "freebsd.core": core_of(("FreeBSD", 1, bytes(240)), ("FreeBSD", 3, bytes(120))),
    "netbsd.core": core_of(("NetBSD-CORE", 1, bytes(160)), ("NetBSD-CORE@1", 33, bytes(208))),
    "openbsd.core": core_of(("OpenBSD", 10, bytes(116)), ("OpenBSD@1", 20, bytes(200))),
    "nothing.core": core_of(("CORE", 6, bytes(16))),
    "cut.core": (data / "crash.core").read_bytes()[:0xe800],
    "kill.core": with_siginfo(11, 0, struct.pack("<iI", 4711, 1000)),
    "queue.core": with_siginfo(3, -1, struct.pack("<iI", 4711, 1000)),
    "kernel.core": with_siginfo(11, 0x80, bytes(8)),
    "fault.core": with_siginfo(7, 2, struct.pack("<Q", 0x7f0000001000)),
    "timer.core": with_siginfo(34, -2, bytes(8)),
    "unknown.core": with_siginfo(11, 77, struct.pack("<Q", 0x1234)),
    "abort.dmp": with_streams("crash.dmp", [(6, exception(31455, 6, 0xfffffffa, 31455))], [6]),
    "stopped.dmp": with_streams("crash.dmp", [(6, exception(31455, 19, 0, 0))], [6]),
    "fault.dmp": with_streams("crash.dmp", [(6, exception(31455, 11, 1, 0x10))], [6]),
    "names.dmp": with_streams("small.dmp", [(24, thread_names((284, "first"), (244, "UI thread"), (248, "größe\x1b[31m"), (284, "writer")))]),
    "checksum.dmp": with_checksum("crash.dmp", zlib.crc32(program)),
    "another.dmp": with_checksum("crash.dmp", zlib.crc32(program) ^ 1),
    "read.dmp": with_streams("small.dmp", [(6, exception(244, 0xc0000006, 0, 0x1400010a8, 8, 0xdead0000, 0xc000000e))], [6]),
    "breakpoint.dmp": with_streams("small.dmp", [(6, exception(244, 0x80000003, 0, 0x1400010a8, 0))], [6]),
    "other.dmp": with_streams("small.dmp", [(6, exception(244, 0xe06d7363, 1, 0x1400010a8, 0x19930520, 1))], [6]),
    "wow64.dmp": with_streams("small.dmp", [(4, modules((0x140000000, "C:\\judges\\small.exe"), (0x7ff000000, "C:\\Windows\\System32\\WoW64.dll")))], [4]),
    "none.dmp": with_streams("small.dmp", [], [3]),
    "shared.dmp": with_streams("small.dmp", [(4, modules((0x140000000, "C:\\" + "n" * 20000), *(((i + 1) << 20, None) for i in range(100))))], [4]),
}
for name, content in files.items():
    (folder / name).write_bytes(content)
