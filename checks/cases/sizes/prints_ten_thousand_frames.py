"""Each frame pointer is 16 above the one before it, and each return address is 0x1000: 80,000 bytes of output."""
import json

FRAMES = 10_000
words = []
for frame in range(1, FRAMES):
    words += [f"{16 * frame:x}", "1000"]
walk = {"do": "walk", "unwinder": 0, "cache": 0, "pc": "1000", "regs": {"lr": "1000", "sp": "0", "fp": "0"},
        "memory": {"base": "0", "words": [*words, "0", "0"]}, "limit": FRAMES}
INPUT = '{"arch":"aarch64","policy":"both","caches":1,"commands":[{"do":"new"},' + json.dumps(walk) + "]}"
last = 16 * (FRAMES - 1)
EXPECTED = "new 0\nip 1000\n" + "ra 1000\n" * (FRAMES - 1) + f"limit\nregs lr=1000 sp={last:x} fp={last:x}\n"
