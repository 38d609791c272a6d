"""Steps at 1,998 addresses, over one stack; a session has no most of commands."""
import json

STEPS = 1_998
words = ["1", "2", "3", "4", "40", "1004fcdc4"]


def step(number):
    regs = {"lr": "1004e0830", "sp": "10", "fp": "20"}
    memory = {"base": "0", "words": words}
    return {"do": "step", "unwinder": 0, "cache": 0, "kind": "ip", "address": f"{0x100000 + number:x}", "regs": regs,
            "memory": memory}


commands = [{"do": "new"}, *map(step, range(STEPS)), {"do": "stats", "cache": 0}]
INPUT = '{"arch":"aarch64","policy":"both","caches":1,"commands":' + json.dumps(commands) + "}"
# 509 sets of two entries: the first 1,018 addresses find room, and the others a set that is full
EXPECTED = (
    "new 0\n" + "step 1004fcdc4\nregs lr=1004fcdc4 sp=30 fp=40\n" * STEPS
    + f"stats hits=0 empty={2 * 509} modules=0 address={STEPS - 2 * 509}\n"
)
