"""A sample of a program that gives each register another value, as `perf script -D` prints them, with other instruction pointers and times. The
.eh_frame of its file has a row at 0x401000 + N by which the return address is the register of DWARF's number N. The file has the build id of
the record of its mapping; then the mapping is one of data, and of a file with another build id."""

import json
import struct

from perf_pieces import MACHINE_EXEC, MACHINE_EXIT, MACHINE_FORK, MACHINE_FRONT, MACHINE_KERNEL, MACHINE_MADE_UP, MACHINE_SAMPLE, TINY_DATA, TINY_MAPPING, changed, of_process, recording, summary

# rax, rdx, rcx, rbx, rsi, rdi, rbp, rsp and r8 to r15
REGISTERS = (0x1001, 0x1004, 0x1003, 0x1002, 0x1005, 0x1006, 0x1007, 0x7FFDF0A80B90, *range(0x1008, 0x1010))
TIME, EXECUTED = 879621395511, 879556930338
BUILD_ID = "b2ec3d8f8d18218088ec54db8115c2525b70cb9b"
ROWS = "1000000000000000017a5200017810011b0c07086c00000018000000e4efffff10000000001610027000411610027100411610027200411610027300411610027400411610027500411610027600411610027700411610027800411610027900411610027a00411610027b00411610027c00411610027d00411610027e00411610027f000000000000000000"
TINY = [{"name": ".eh_frame", "svma": ["402000", "402088"], "data": ROWS}, {"name": ".note.gnu.build-id", "svma": ["0", "0"], "data": f"040000001400000003000000474e5500{BUILD_ID}"}]


def sample(number):
    ip = struct.pack("<Q", 0x401000 + number)
    return changed(MACHINE_SAMPLE, (8, ip), (0x90, ip), (24, struct.pack("<Q", TIME + number)))


def machine(mapping, samples):
    mapped = of_process(mapping, 22494, EXECUTED + 1, 0xB7, 0)
    records = [MACHINE_KERNEL, MACHINE_MADE_UP, MACHINE_FORK, MACHINE_EXEC, mapped, *samples, MACHINE_EXIT]
    return {"end": "0x0", "add": recording(MACHINE_FRONT, records).hex()}


def block(number, end):
    return f"regs 22494/22494 {TIME + number}:\n{0x401000 + number:x} {end}\n\n"


INPUT = json.dumps({
    "arguments": ["--root", ".", "--frames"],
    "bytes": "",
    "files": {
        "registers": machine(TINY_MAPPING, map(sample, range(16))),
        "data": machine(TINY_DATA, [sample(16)]),
        "another build id": machine(changed(TINY_MAPPING, (63, b"\x9c")), [sample(17)]),
    },
    "beside": {"usr/bin/tiny": {"arch": "x86_64", "sections": TINY, "loaded": ["400000", "403000"]}},
})
EXPECTED = "".join(block(number, f"[unknown] (/usr/bin/tiny+{0x401000 + number:#x})\n[not-code {value:x}]") for number, value in enumerate(REGISTERS))
EXPECTED += block(16, "[unknown] ([unknown])\n[no-caller]") + block(17, "[unknown] (/usr/bin/tiny+0x1011)\n[moved-backwards]")
ERRORS = summary(16, "not-code 16") + summary(1, "no-caller 1") + "/usr/bin/tiny: its build id is not the recording's\n" + summary(1, "moved-backwards 1")
