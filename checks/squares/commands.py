"""commands.py KIND ITEMS FOLDER: a list of commands for framehop-walk with many items of one kind, each made to cost a square where a program is
careless.

Each function of KINDS returns the commands of a number of items.
"""
import json
import os
import struct
import sys


def add(unwinder, at):
    """A module without sections, one page at its own address."""
    start = 0x10000000 + 0x1000 * at
    return {
        "do": "add", "unwinder": unwinder, "name": "m", "start": f"{start:x}", "end": f"{start + 0x1000:x}", "base": f"{start:x}",
        "base_svma": "0", "sections": [], "segments": [],
    }


def modules(count):
    """An unwinder with so many modules."""
    return [{"do": "new"}] + [add(0, at) for at in range(count)]


def clones(count):
    """So many clones of an unwinder with as many modules; none is changed."""
    return modules(count) + [{"do": "clone", "unwinder": 0} for _ in range(count)]


def clones_of_clones(count):
    """The same, each a clone of the one before."""
    return modules(count) + [{"do": "clone", "unwinder": at} for at in range(count)]


def clones_of_a_changed_one(count):
    """The same, and then the unwinder that all are clones of is changed."""
    return clones(count) + [add(0, count), {"do": "remove", "unwinder": 0, "start": "10000000"}]


def changed_clones(count):
    """So many clones of an unwinder with one module, each with one module more."""
    made = [{"do": "clone", "unwinder": 0} for _ in range(count)]
    return modules(1) + made + [add(1 + at, 1) for at in range(count)]


def uleb128(number):
    low, rest = number & 0x7F, number >> 7
    return bytes([low | 0x80]) + uleb128(rest) if rest else bytes([low])


def entry(body):
    """An entry of `.eh_frame`, with its length."""
    body += bytes(-len(body) % 8)
    return struct.pack("<I", len(body)) + body


def rule(register):
    """`DW_CFA_offset_extended`."""
    return b"\x05" + uleb128(register) + b"\x01"


def walk_by_row(instructions):
    """A walk by the row that these instructions make."""
    cie = entry(bytes(4) + bytes([1, 0, 1, 0x78, 16]))
    fde = entry(struct.pack("<IQQ", len(cie) + 4, 0x1000, 0x1000) + instructions)
    section = {"name": ".eh_frame", "svma": ["2000", f"{0x2000 + len(cie) + len(fde):x}"], "data": (cie + fde).hex()}
    module = add(0, 0) | {"start": "1000", "end": "2000", "base": "0", "sections": [section]}
    regs = {"ip": "1100", "sp": "10", "bp": "20"}
    step = {"do": "walk", "unwinder": 0, "cache": 0, "pc": "1100", "regs": regs, "memory": {"base": "0", "words": []}, "limit": 2}
    return [{"do": "new"}, module, step]


def remembered_rows(count):
    """A walk by a row that has so many rules and is remembered as often, before the rules are written once more."""
    return walk_by_row(b"".join(map(rule, range(20, 20 + count))) + b"\x0a" * count + rule(20))


def written_remembered_rows(count):
    """The same, but each time it is remembered a rule is written; then all that was remembered is restored."""
    return walk_by_row(b"".join(map(rule, range(20, 20 + count))) + (b"\x0a" + rule(20)) * count + b"\x0b" * count)


KINDS = {
    "modules": modules,
    "clones": clones,
    "clones-of-clones": clones_of_clones,
    "clones-of-a-changed-one": clones_of_a_changed_one,
    "changed-clones": changed_clones,
    "remembered-rows": remembered_rows,
    "written-remembered-rows": written_remembered_rows,
}


def document(commands):
    """The input of the program."""
    return json.dumps({"arch": "x86_64", "policy": "may", "caches": 1, "commands": commands})


if __name__ == "__main__":
    if len(sys.argv) != 4 or sys.argv[1] not in KINDS:
        sys.exit(__doc__ + "\nKinds: " + ", ".join(KINDS))
    with open(os.path.join(sys.argv[3], "commands.json"), "w") as file:
        file.write(document(KINDS[sys.argv[1]](int(sys.argv[2]))))
