"""A stack of 5,000 frame records, each 16 bytes above the one before; the last one has no caller's."""
import json

FRAMES = 5_000
words = []
for frame in range(1, FRAMES):
    words += [f"{0x10000 + 16 * frame:x}", f"{0x100000 + 4 * frame:x}"]
walk = {"do": "walk", "unwinder": 0, "cache": 0, "pc": "100000", "regs": {"lr": "100000", "sp": "10000", "fp": "10000"},
        "memory": {"base": "10000", "words": [*words, "0", "0"]}, "limit": 10_000}
INPUT = '{"arch":"aarch64","policy":"both","caches":1,"commands":[{"do":"new"},' + json.dumps(walk) + "]}"
callers = "".join(f"ra {0x100000 + 4 * frame:x}\n" for frame in range(1, FRAMES))
# 0x10000 + 4,999 * 16 is 0x23870, and the last caller's address is 0x104e1c
EXPECTED = "new 0\nip 100000\n" + callers + "end\nregs lr=104e1c sp=23870 fp=23870\n"
