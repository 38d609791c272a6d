"""A .debug_frame of 140,000 FDEs of 16 bytes of code each, from 0x1000 on. In the last one the CFA is rsp + 32, in all
others it is the CIE's, rsp + 24; after the last one a first frame has its return address at rsp."""
import json

FDES = 140_000
# a CIE whose CFA is rsp + 24
section = [bytes.fromhex("10000000ffffffff01000178100c071890010000")]
for fde in range(1, FDES + 1):
    rules = bytes.fromhex("0e20000000000000") if fde == FDES else b""
    section += [(20 + len(rules)).to_bytes(4, "little"), bytes(4), (16 * fde + 0xFF0).to_bytes(8, "little"),
                (16).to_bytes(8, "little"), rules]
module = {"do": "add", "unwinder": 0, "name": "m", "start": "0", "end": "400000", "base": "0", "base_svma": "0",
          "sections": [{"name": ".debug_frame", "data": b"".join(section).hex()}], "segments": []}


def step(address):
    regs = {"ip": f"{address:x}", "sp": "10", "bp": "20"}
    memory = {"base": "0", "words": ["1", "2", "300", "4", "40", "500"]}
    return {"do": "step", "unwinder": 0, "cache": 0, "kind": "ip", "address": f"{address:x}", "regs": regs,
            "memory": memory}


def caller(ip, rsp):
    zeros = "".join(f" r{number}=0" for number in range(8, 16))
    return f"step {ip:x}\nregs ip={ip:x} rax=0 rdx=0 rcx=0 rbx=0 rsi=0 rdi=0 rbp=20 rsp={rsp:x}{zeros}\n"


last = 16 * FDES + 0xFF0
commands = [{"do": "new"}, module, *map(step, [0x1008, last - 8, last + 8, last + 16])]
INPUT = '{"arch":"x86_64","policy":"both","caches":1,"commands":' + json.dumps(commands) + "}"
EXPECTED = "new 0\nadd\n" + caller(0x40, 0x28) * 2 + caller(0x500, 0x30) + caller(0x300, 0x18)
