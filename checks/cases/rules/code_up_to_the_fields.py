"""Pushes and pops up to the greatest offset that a rule of x86_64 holds, 65,535 words, and with rbp 32,767 words above the
stack pointer. With one more there is no rule of the code, and the function's opcode says that rbp is followed."""

import json

# a regular page with one function from 0x1000 to ..., whose opcode names the frame pointer
BEFORE = "010000001c000000000000001c000000000000001c00000002000000001000003400000034000000"
AFTER = "000000003400000002000000080001000010000000000001"
OPCODE = (
    "opcode 0x1000000 of function 0x1000: UseFramePointer: CFA = rbp + 16; rbp at CFA - 16; return address at CFA - 8"
)
PUSHES = bytes([0x53]) * 65540
# pop rbx, and ret; with a nop before them; with a pop rbp before the last 25,535 pops
POPS = bytes([0x5B]) * 65535 + bytes([0xC3])
WITH_RBP = POPS[:40000] + bytes([0x5D]) + POPS[40001:]


def rule(kind, sp_offset_by_8, rbp_offset_by_8=None):
    cfa = 8 * sp_offset_by_8
    if rbp_offset_by_8 is None:
        name, fields, rbp = "OffsetSp", "", ""
    else:
        name, fields = "OffsetSpAndRestoreBp", f", bp_storage_offset_from_sp_by_8: {rbp_offset_by_8}"
        rbp = f"; rbp at CFA - {cfa - 8 * rbp_offset_by_8}"
    rule = f"{name} {{ sp_offset_by_8: {sp_offset_by_8}{fields} }}"
    return f"{kind} of function 0x1000: {rule}: CFA = rsp + {cfa}{rbp}; return address at CFA - 8"


# the code, the offset in it, the address of the first of the words and their count, what is told, and rbp and rsp of the
# caller; the first of several words is 0x7000, the last one 0x5000
PLACES = [
    (PUSHES, 65534, 0x100 + 8 * 65534, 1, rule("prologue", 65535), 0x200, 0x100 + 8 * 65535),
    (PUSHES, 65535, 0x200, 2, OPCODE, 0x7000, 0x210),
    (POPS, 1, 0x100 + 8 * 65534, 1, rule("epilogue", 65535), 0x200, 0x100 + 8 * 65535),
    (bytes([0x90]) + POPS, 1, 0x200, 2, OPCODE, 0x7000, 0x210),
    (WITH_RBP, 7233, 0x100 + 8 * 32767, 58303 - 32767, rule("epilogue", 58303, 32767), 0x7000, 0x100 + 8 * 58303),
    (WITH_RBP, 7232, 0x200, 2, OPCODE, 0x7000, 0x210),
]

commands, lines = [], []
for number, (code, offset, base, count, told, rbp, rsp) in enumerate(PLACES):
    end = 0x1000 + len(code)
    info = BEFORE + end.to_bytes(4, "little").hex() + AFTER
    sections = [
        {"name": "__unwind_info", "svma": ["500000", "500044"], "data": info},
        {"name": "__text", "svma": ["1000", f"{end:x}"], "data": code.hex()},
    ]
    add = {"do": "add", "unwinder": number, "name": "m", "start": "0", "end": "1000000", "base": "0", "base_svma": "0"}
    words = ["7000", *["0"] * (count - 2), "5000"][-count:]
    commands += [{"do": "new"}, {**add, "sections": sections, "segments": []}, {
        "do": "step", "unwinder": number, "cache": 0, "kind": "ip", "address": f"{0x1000 + offset:x}",
        "regs": {"ip": "1000", "sp": "100", "bp": "200"}, "memory": {"base": f"{base:x}", "words": words},
    }]
    others = " ".join(f"r{register}=0" for register in range(8, 16))
    lines += [
        f"new {number}", "add", "  m: compact unwind info without __eh_frame, 1 page", "step 5000",
        f"  m+0x{0x1000 + offset:x}: {told}",
        f"regs ip=5000 rax=0 rdx=0 rcx=0 rbx=0 rsi=0 rdi=0 rbp={rbp:x} rsp={rsp:x} {others}",
    ]
head = {"arch": "x86_64", "policy": "both", "caches": 1, "commands": commands}
INPUT, EXPECTED = json.dumps(head, separators=(",", ":")), "\n".join(lines) + "\n"
