"""The build ids of a file and of the vdso, as `perf buildid-list` prints them: of 20 bytes; of 16 after the section of another feature; and without the
feature none. Of each build id there is a copy as perf keeps it, which is loaded at an address of its own."""

import json
import struct

from perf_pieces import BUILD_IDS, EVENTS_EXEC, EVENTS_FRONT, LEAF_MAPPING, changed, of_process, recording, summary

LEAF, VDSO = "4cbf1957466eff2c78364be9ae423ae2c93865ca", "a599807156a2a62fe956a82e388aeeabc874119c"
TRACING_DATA, BUILD_ID = 1 << 1, 1 << 2
TIME = 2553713447498


def mapped(start, name):
    """The record of a mapping, of a name of at most 15 bytes, with its time and its id."""
    record = changed(LEAF_MAPPING, (16, struct.pack("<Q", start)), (72, name.ljust(16, b"\0")))
    return of_process(record, 7570, TIME, 9)


def sample(ip):
    body = struct.pack("<QIIQQQQQQ", ip, 7570, 7570, TIME + ip, 0, 9, 0, 0, 2) + bytes(8 * 8) + struct.pack("<Q", ip) + bytes(11 * 8) + bytes(16)
    return struct.pack("<IHH", 9, 2, 8 + len(body)) + body


RECORDS = [EVENTS_EXEC, mapped(0x401000, b"/usr/bin/leaf"), mapped(0x70000000, b"[vdso]"), sample(0x401008), sample(0x70000008)]


def of_20(at):
    return struct.pack("<QQ", at + 16, len(BUILD_IDS)) + BUILD_IDS


def of_16(at):
    """The same with the size 16 of the first build id."""
    return struct.pack("<QQQQ", 0, 0, at + 32, len(BUILD_IDS)) + changed(BUILD_IDS, (32, b"\x10"))


FILES = {"of 20 bytes": recording(EVENTS_FRONT, RECORDS, BUILD_ID, of_20), "of 16 bytes": recording(EVENTS_FRONT, RECORDS, TRACING_DATA | BUILD_ID, of_16), "without": recording(EVENTS_FRONT, RECORDS, 0, of_20)}


def noted(build_id, start):
    """A file with a build id that is loaded from an address on."""
    note = struct.pack("<III", 4, len(build_id) // 2, 3) + b"GNU\0" + bytes.fromhex(build_id)
    return {"arch": "x86_64", "sections": [{"name": ".note.gnu.build-id", "svma": ["0", "0"], "data": note.hex()}], "loaded": [f"{start:x}", f"{start + 0x3000:x}"]}


# of each recording: where the copies of the file and of the vdso are loaded that it leads to, or where the first page of the mapping is
STARTS = {"of 20 bytes": (0x400000, 0x800000), "of 16 bytes": (0x200000, 0x800000), "without": (0, 0)}


def blocks(leaf, vdso):
    first = f"leaf 7570/7570 {TIME + 0x401008}:\n401008 [unknown] (/usr/bin/leaf+{leaf + 0x1008:#x})\n[frame-pointer-0]\n\n"
    return first + f"leaf 7570/7570 {TIME + 0x70000008}:\n70000008 [unknown] ([vdso]+{vdso + 0x1008:#x})\n[frame-pointer-0]\n\n"


INPUT = json.dumps({
    "arguments": ["--root", "nothing", "--frames", "--buildid-dir", "debug"],
    "bytes": "",
    "files": {name: {"end": "0x0", "add": made.hex()} for name, made in FILES.items()},
    "beside": {
        f"debug/.build-id/{LEAF[:2]}/{LEAF[2:]}/elf": noted(LEAF, 0x400000),
        f"debug/.build-id/{LEAF[:2]}/{LEAF[2:32]}/elf": noted(LEAF[:32], 0x200000),
        f"debug/.build-id/{VDSO[:2]}/{VDSO[2:]}/vdso": noted(VDSO, 0x800000),
    },
})
EXPECTED = "".join(blocks(*it) for it in STARTS.values())
WITHOUT = "/usr/bin/leaf: there is no such file\n" + summary(2, "frame-pointer-0 2") + "1 sample with a frame in [vdso], of which no file was found: --vdso FILE names it\n"
ERRORS = summary(2, "frame-pointer-0 2") * 2 + WITHOUT
