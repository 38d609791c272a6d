"""A sample of aarch64 that was made by hand, after `perf_event.h` and arm64's `perf_regs.h`: identifier, instruction pointer, thread, time, id, cpu,
period, a call chain, and of the user x29, lr, sp, pc and a word of the stack. The file of its mapping has rows by which the return address is x29,
lr, sp, the word and the one after it, each at an instruction pointer of its own. Then the registers are of another ABI, which is told."""

import json
import struct

from perf_pieces import LEAF_FRONT, LEAF_MAPPING, changed, of_process, recording, summary

# PERF_SAMPLE_IDENTIFIER and the others, and the four registers
FRONT = changed(LEAF_FRONT, (160, struct.pack("<Q", 0x131E7)), (216, struct.pack("<Q", 0x1E0000000)))
SAMPLE = bytes.fromhex(
    "09000000020098000700000000000000000840000000000005000000060000006400000000000000070000000000000003000000000000000100000000000000"
    "01000000000000000008400000000000020000000000000010f0ff7f00000000000740000000000000f0ff7f0000000000084000000000001000000000000000"
    "111100000000000022220000000000000800000000000000"
)
# the file, and pages above the stack: an address has as many bits as the last of them
MAPPINGS = [of_process(changed(LEAF_MAPPING, (16, struct.pack("<QQQ", start, 0x1000, 0))), 5, 1, 7, 0, 7) for start in (0x400000, 0xF0000000)]
ROWS = "1000000000000000017a520001781e011b0c1f102c00000018000000a40700002000000000161e028d0041161e028e0041161e028f0041161e038f000641161e038f080600000000"
LEAF = [{"name": ".eh_frame", "svma": ["400040", "400088"], "data": ROWS}]


def sample(number, abi=2):
    ip = struct.pack("<Q", 0x400800 + number)
    return changed(SAMPLE, (16, ip), (112, ip), (80, bytes([abi])))


def block(*lines):
    return "\n".join(["[unknown] 5/6 100:", *lines, "", ""])


RECORDS = [*MAPPINGS, *map(sample, range(5)), sample(0, 0), sample(0, 1), sample(0, 3)]
INPUT = json.dumps({
    "arguments": ["--root", ".", "--frames", "--limit", "2"],
    "bytes": recording(FRONT, RECORDS).hex(),
    "files": {"recording": {}},
    "beside": {"usr/bin/leaf": {"arch": "aarch64", "sections": LEAF, "loaded": ["400000", "401000"]}},
})
FIRST = "40080{} [unknown] (/usr/bin/leaf+0x40080{})"
EXPECTED = block(FIRST.format(0, 0), "[not-code 7ffff010]") + block(FIRST.format(1, 1), "400700 [unknown] (/usr/bin/leaf+0x400700) [cfi]", "[limit]")
EXPECTED += block(FIRST.format(2, 2), "[not-code 7ffff000]") + block(FIRST.format(3, 3), "[not-code 1111]") + block(FIRST.format(4, 4), "[return-address-unknown]")
EXPECTED += block("[no-user-registers]") + block("[32-bit-process]") + block("[unknown-abi]")
ERRORS = summary(8, "32-bit-process 1", "limit 1", "no-user-registers 1", "not-code 3", "return-address-unknown 1", "unknown-abi 1")
