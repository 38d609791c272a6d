"""A hundred modules, added from the greatest start down; those of even numbers have an FDE whose CFA is rsp + 16.

A step in each of them, by the unwinder and by its clone, is by its own unwind data; after a module is removed the frame
pointer is followed, and the clone still has it."""
import json

MODULES = 100
# a CIE, and an FDE from 0x1000 to 0x1020
FRAMES = "10000000ffffffff040008000178100c070890011c0000000000000000100000000000002000000000000000" "0e10000000000000"


def start(number):
    return 0x100000 - 0x1000 * number


def add(number):
    sections = [] if number % 2 else [{"name": ".debug_frame", "data": FRAMES}]
    begin, end = f"{start(number):x}", f"{start(number) + 0x1000:x}"
    return {"do": "add", "unwinder": 0, "name": "m", "start": begin, "end": end, "base": begin, "base_svma": "1000",
            "sections": sections, "segments": []}


def step(unwinder, number):
    regs = {"ip": "1", "sp": "10", "bp": "20"}
    memory = {"base": "0", "words": ["1", "2", "300", "4", "40", "500"]}
    return {"do": "step", "unwinder": unwinder, "cache": 0, "kind": "ra", "address": f"{start(number) + 17:x}",
            "regs": regs, "memory": memory}


def caller(ip, rsp, rbp):
    zeros = "".join(f" r{number}=0" for number in range(8, 16))
    return f"step {ip:x}\nregs ip={ip:x} rax=0 rdx=0 rcx=0 rbx=0 rsi=0 rdi=0 rbp={rbp:x} rsp={rsp:x}{zeros}\n"


by_frame_pointer = caller(0x500, 0x30, 0x40)
by_row = caller(4, 0x20, 0x20)
each = range(MODULES)
in_each = "".join(by_frame_pointer if number % 2 else by_row for number in each)
removals = [it for n in each for it in ({"do": "remove", "unwinder": 0, "start": f"{start(n):x}"}, step(0, n))]
commands = [{"do": "new"}, *map(add, each), {"do": "clone", "unwinder": 0}, *(step(u, n) for u in (0, 1) for n in each),
            *removals, *(step(1, n) for n in each)]
INPUT = '{"arch":"x86_64","policy":"both","caches":1,"commands":' + json.dumps(commands) + "}"
EXPECTED = (
    "new 0\n" + "add\n" * MODULES + "clone 1\n" + in_each * 2 + ("remove\n" + by_frame_pointer) * MODULES + in_each
)
