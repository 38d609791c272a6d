"""The same for aarch64: sub sp, sp, #0x50; stp x22, x21, [sp, #0x20]; stp x20, x19, [sp, #0x30]; stp x29, x30, [sp, #0x40],
after the first of these. The opcode is that of a frame."""

import runpy
from pathlib import Path

case = runpy.run_path(str(Path(__file__).with_name("compact_code_of_each_place.py")))["case"]
INPUT, EXPECTED = case("aarch64", {"lr": "3000", "sp": "100", "fp": "200"}, [
    (
        0x04000000, "ff4301d1f65702a9f44f03a9fd7b04a9", "ip", "1004", ["0"] * 32 + ["300", "8000"],
        [
            "step 3000",
            "  m+0x1004: prologue of function 0x1000: OffsetSp { sp_offset_by_16: 5 }: CFA = sp + 80; return address in lr",
            "regs lr=3000 sp=150 fp=200",
        ],
        [
            "step 8000",
            "  m+0x1004: opcode 0x4000000 of function 0x1000: UseFramePointer: CFA = fp + 16; fp at CFA - 16; "
            "return address at CFA - 8",
            "regs lr=8000 sp=210 fp=300",
        ],
    ),
])
