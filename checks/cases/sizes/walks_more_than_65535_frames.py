"""A stack of 70,000 frame records, each 16 bytes above the one before: a walk to a limit of 66,000, and one to the
root."""
import json

FRAMES, LIMIT, STACK = 70_000, 66_000, 0x7000
words = []
for frame in range(1, FRAMES):
    words += [f"{STACK + 16 * frame:x}", "1000"]
memory = {"base": f"{STACK:x}", "words": [*words, "0", "0"]}


def walk(limit):
    regs = {"ip": "1000", "sp": f"{STACK:x}", "bp": f"{STACK:x}"}
    return {"do": "walk", "unwinder": 0, "cache": 0, "pc": "1000", "regs": regs, "memory": memory, "limit": limit}


def registers(frame):
    zeros = "".join(f" r{number}=0" for number in range(8, 16))
    place = STACK + 16 * frame
    return f"regs ip=1000 rax=0 rdx=0 rcx=0 rbx=0 rsi=0 rdi=0 rbp={place:x} rsp={place:x}{zeros}\n"


def frames(count):
    return "ip 1000\n" + "ra 1000\n" * (count - 1)


commands = [{"do": "new"}, walk(LIMIT), walk(2**32 - 1)]
INPUT = '{"arch":"x86_64","policy":"both","caches":1,"commands":' + json.dumps(commands) + "}"
EXPECTED = (
    "new 0\n" + frames(LIMIT) + "limit\n" + registers(LIMIT - 1)
    + frames(FRAMES) + "end\n" + registers(FRAMES - 1)
)
