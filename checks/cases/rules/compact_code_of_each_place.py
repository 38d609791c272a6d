"""Code that is lent from the segment's start, from the section's, and from between them, with the function from 0x1000 to
0x2000 as a whole; then code that begins after the function, ends before its end, or lies elsewhere: there the opcode
alone counts."""

import json

# a regular page with the function, whose opcode comes last
INFO = (
    "010000001c000000000000001c000000000000001c00000002000000001000003400000034000000002000000000000034000000"
    "020000000800010000100000"
)
# where the code begins, and which of the bytes from 0 to 0x2000 it has
WITH_FUNCTION = [(0, 0, 0x2000), (0x1000, 0x1000, 0x2000), (0xFF8, 0xFF8, 0x2000)]
WITHOUT = [(0x1001, 0x1001, 0x2000), (0, 0, 0x1FFF), (0x1000, 0x1000, 0x1FFF), (0x2000, 0, 0x2000), (0x1000, 0, 0)]


def module(number, opcode, code, place, start, end):
    """The commands that make a module; its code is that of a segment where it begins at 0 or beyond the function."""
    lent = (bytes([0x90]) * 0x1000 + code + bytes([0x90]) * (0x1000 - len(code)))[start:end]
    part = {"svma": [f"{place:x}", f"{place + len(lent):x}"], "data": lent.hex()}
    segments = [{"name": "__TEXT", **part}] if place in (0, 0x2000) else []
    sections = [] if segments else [{"name": "__text", **part}]
    info = {"name": "__unwind_info", "svma": ["5000", "5044"], "data": INFO + opcode.to_bytes(4, "little").hex()}
    add = {"do": "add", "unwinder": number, "name": "m", "start": "0", "end": "10000", "base": "0", "base_svma": "0"}
    return [{"do": "new"}, {**add, "sections": [info, *sections], "segments": segments}]


def case(arch, regs, steps):
    """The input and the output: each step is an opcode, the code, the frame, and what is printed with the code and without
    it, over words from 0x100 on."""
    commands, lines = [], []
    for opcode, code, kind, address, words, with_code, without in steps:
        for places, printed in ((WITH_FUNCTION, with_code), (WITHOUT, without)):
            for place in places:
                number = len(commands) // 3
                commands += module(number, opcode, bytes.fromhex(code), *place)
                memory = {"base": "100", "words": words}
                step = {"do": "step", "unwinder": number, "cache": 0, "kind": kind, "address": address}
                commands.append({**step, "regs": regs, "memory": memory})
                lines += [f"new {number}", "add", "  m: compact unwind info without __eh_frame, 1 page", *printed]
    head = {"arch": arch, "policy": "both", "caches": 1, "commands": commands}
    return json.dumps(head, separators=(",", ":")), "\n".join(lines) + "\n"


def registers(ip, rbp, rsp):
    others = " ".join(f"r{number}=0" for number in range(8, 16))
    return f"regs ip={ip} rax=0 rdx=0 rcx=0 rbx=0 rsi=0 rdi=0 rbp={rbp} rsp={rsp} {others}"


# the word at 0x108 is 0x5000, at 0x180 0x6000; rbp points to 0x300 and 0x8000
WORDS = ["0", "5000", *["0"] * 14, "6000", *["0"] * 15, "300", "8000"]
BY_RBP = ["step 8000", registers("8000", "300", "210")]
FALLBACK = "UseFramePointer: CFA = rbp + 16; rbp at CFA - 16; return address at CFA - 8"
INPUT, EXPECTED = case("x86_64", {"ip": "1000", "sp": "100", "bp": "200"}, [
    # push rbp; mov rbp, rsp, after the push; the opcode is that of a frame
    (
        0x01000000, "554889e5", "ip", "1001", WORDS,
        [
            "step 5000",
            "  m+0x1001: prologue of function 0x1000: OffsetSp { sp_offset_by_8: 2 }: CFA = rsp + 16; return address at CFA - 8",
            registers("5000", "200", "110"),
        ],
        [BY_RBP[0], f"  m+0x1001: opcode 0x1000000 of function 0x1000: {FALLBACK}", BY_RBP[1]],
    ),
    # the same after both: a nop comes next, so it is no prologue
    (
        0x01000000, "554889e5", "ip", "1004", WORDS,
        *[[BY_RBP[0], f"  m+0x1004: opcode 0x1000000 of function 0x1000: {FALLBACK}", BY_RBP[1]]] * 2,
    ),
    # sub rsp, 0x80; the opcode has its size there
    (
        0x03032000, "4881ec80000000", "ra", "1011", WORDS,
        [
            "step 6000",
            "  m+0x1010: opcode 0x3032000 of function 0x1000: OffsetSp { sp_offset_by_8: 17 }: CFA = rsp + 136; "
            "return address at CFA - 8",
            registers("6000", "200", "188"),
        ],
        [
            BY_RBP[0],
            "  m+0x1010: opcode 0x3032000 of function 0x1000: CompactUnwindInfo(NoTextBytesToLookUpIndirectStackOffset): "
            f"fallback: {FALLBACK}",
            BY_RBP[1],
        ],
    ),
])
