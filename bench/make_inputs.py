#!/usr/bin/env python3
"""Makes the inputs of compare.py, in the format of docs/PROGRAMS.md.

    make_inputs.py frame-pointers ARCH      a walk of 400 frames that are linked by frame pointers
    make_inputs.py scattered COUNT          a walk of COUNT frames that are linked by frame pointers
                                            and whose return addresses are scattered over 16 MB
    make_inputs.py offsets COUNT            a walk of COUNT frames of one function whose rows have the
                                            CFA rbp + 32 and rbp at CFA - 16
    make_inputs.py sections ELF [header]    a module with the file's .eh_frame, and where its
                                            .text and .got are; with its .eh_frame_hdr, too
    make_inputs.py fdes COUNT               a module with an .eh_frame of COUNT FDEs, in no order
    make_inputs.py compact ARCH COUNT       a module with an __unwind_info of COUNT functions
    make_inputs.py pe COUNT                 a module with a .pdata of COUNT functions, and their
                                            code and unwind codes
    make_inputs.py cold SECTIONS ELF COUNT  a walk of COUNT frames, each of another row of the
                                            file's .eh_frame; SECTIONS is what `sections ELF`
                                            prints, and `readelf -wF ELF` tells the rows
    make_inputs.py many WALKS               short walks by frame pointers, one after another

They are written to standard output, and are the same in each run.
"""

import json
import random
import re
import struct
import subprocess
import sys

STACK = 0x7FFE_0000_0000
CODE = 0x5500_0000_1000


def linked_frames(count):
    """The words of frames with four words each: the next frame's address, the return address and
    two more; the last two words are 0."""
    words = []
    for frame in range(1, count + 1):
        words += [STACK + 32 * frame, CODE + 16 * frame + 1, 0, 0]
    return words + [0, 0]


def walk(arch, pc, sp, fp, words, limit):
    """A walk of unwinder 0 over stack words that begin at `STACK`."""
    if arch == "aarch64":
        regs = {"lr": f"{pc:x}", "sp": f"{sp:x}", "fp": f"{fp:x}"}
    else:
        regs = {"ip": f"{pc:x}", "sp": f"{sp:x}", "bp": f"{fp:x}"}
    memory = {"base": f"{STACK:x}", "words": [f"{word:x}" for word in words]}
    return {
        "do": "walk",
        "unwinder": 0,
        "cache": 0,
        "pc": f"{pc:x}",
        "regs": regs,
        "memory": memory,
        "limit": limit,
    }


def session(arch, commands):
    return {"arch": arch, "policy": "may", "caches": 1, "commands": [{"do": "new"}, *commands]}


def frame_pointers(arch):
    return session(arch, [walk(arch, CODE, STACK, STACK, linked_frames(400), 1000)])


def scattered(count):
    """A walk whose addresses share sets of the cache. They are made by a linear congruential
    generator modulo 2^64, with the factors of Knuth's MMIX."""
    words, state = [], 1
    for frame in range(1, count + 1):
        state = (state * 6364136223846793005 + 1442695040888963407) % 2**64
        words += [STACK + 32 * frame, CODE + (state >> 32) % 2**24, 0, 0]
    return session("x86_64", [walk("x86_64", CODE, STACK, STACK, words + [0, 0], count + 10)])


def with_offsets(count):
    """A module with one FDE of 64 KiB of code, and frames of 32 bytes in it: in the last two words
    of each are the next frame's rbp, which is 0 in the last one, and the return address."""
    start, section, size = 0x1000, 0x30000, 0x10000
    entry = struct.pack("<IIiIB", 0x14, 0x1C, start - section - 0x20, size, 0)
    eh_frame = bytes.fromhex("1400000000000000017a5200017810011b0c070890010000") + entry
    eh_frame += bytes.fromhex("0c06208602000000000000")
    module = {
        "name": "made",
        "start": f"{start:x}",
        "end": f"{start + size:x}",
        "base": "0",
        "base_svma": "0",
        "sections": [
            {
                "name": ".eh_frame",
                "svma": [f"{section:x}", f"{section + len(eh_frame):x}"],
                "data": eh_frame.hex(),
            }
        ],
        "segments": [],
    }
    words = []
    for frame in range(1, count + 1):
        last = frame == count
        words += [0, 0, 0 if last else STACK + 32 * frame, start + 16 * frame + 1]
    commands = [
        {"do": "add", "unwinder": 0, **module},
        walk("x86_64", start, STACK, STACK, words, count + 10),
    ]
    return session("x86_64", commands)


def module(arch, size, base, sections):
    """A session with one module of `size` bytes from `base` on, with sections by name, address relative to the base,
    size, and bytes or None."""
    listed = []
    for name, at, length, data in sections:
        section = {"name": name, "svma": [f"{base + at:x}", f"{base + at + length:x}"]}
        if data is not None:
            section["data"] = data.hex()
        listed.append(section)
    made = {"name": "made", "start": f"{base:x}", "end": f"{base + size:x}", "base": f"{base:x}"}
    made |= {"base_svma": f"{base:x}", "sections": listed, "segments": []}
    return session(arch, [{"do": "add", "unwinder": 0, **made}])


def fdes(count):
    """Functions of 16 to 64 bytes, whose rows have the CFA rsp + 8."""
    numbers = random.Random(1)
    functions, end = [], 0x1000
    for _ in range(count):
        size = numbers.randrange(16, 65)
        functions.append((end, size))
        end += size
    code = end
    numbers.shuffle(functions)
    section = (code + 0xFFF) // 0x1000 * 0x1000
    made = bytearray(bytes.fromhex("1400000000000000017a5200017810011b0c070890010000"))
    for start, size in functions:
        at = len(made)
        made += struct.pack("<IIiIB3x", 0x10, at + 4, start - section - at - 8, size, 0)
    made += bytes(4)
    sections = [(".text", 0x1000, code - 0x1000, None), (".eh_frame", section, len(made), bytes(made))]
    return module("x86_64", section + len(made), 0, sections)


COMPACT_OPCODES = {
    # RBP_FRAME, STACK_IMMD of 16 and of 64 bytes, the last with rbx and r14 saved
    "x86_64": [0x01000000, 0x02020000, 0x02080000 | 2 << 10],
    # FRAME, FRAME with x19 and x20, FRAMELESS of 32 bytes
    "aarch64": [0x04000000, 0x04000001, 0x02002000],
}


def compact(arch, count):
    """Functions of 64 bytes, 500 to a compressed page."""
    opcodes = COMPACT_OPCODES[arch]
    pages = [range(first, min(first + 500, count)) for first in range(0, count, 500)]
    index_at = 28 + 4 * len(opcodes)
    at = index_at + 12 * (len(pages) + 1)
    index, second = b"", b""
    for page in pages:
        index += struct.pack("<III", 0x1000 + 64 * page[0], at + len(second), 0)
        second += struct.pack("<IHHHH", 3, 12, len(page), 12 + 4 * len(page), 0)
        for place in page:
            second += struct.pack("<I", place % len(opcodes) << 24 | 64 * (place - page[0]))
    index += struct.pack("<III", 0x1000 + 64 * count, 0, 0)
    info = struct.pack("<IIIIIII", 1, 28, len(opcodes), 28, 0, index_at, len(pages) + 1)
    info += struct.pack(f"<{len(opcodes)}I", *opcodes) + index + second
    section = 0x1000 + 64 * count
    sections = [("__text", 0x1000, 64 * count, None), ("__unwind_info", section, len(info), info)]
    return module(arch, section + len(info), 0x1_0000_0000, sections)


# For each function: its unwind info, and the end of its code.
PE_FUNCTIONS = [
    # push rbp; sub rsp, 32; lea rbp, [rsp + 32]: and lea rsp, [rbp]; pop rbp; ret
    (bytes.fromhex("010a0325 0a03 0532 0150 0000".replace(" ", "")), bytes.fromhex("488d65005dc3")),
    # sub rsp, 40, and add rsp, 40; ret
    (bytes.fromhex("0104010004420000"), bytes.fromhex("4883c428c3")),
    # push rbx; push rsi; sub rsp, 32, and its reverse
    (bytes.fromhex("01060300063202600130 0000".replace(" ", "")), bytes.fromhex("4883c4205e5bc3")),
]


def pe(count):
    """Functions of 64 bytes."""
    infos, places = b"", []
    for info, _ in PE_FUNCTIONS:
        places.append(len(infos))
        infos += info
    code_at, info_at = 0x1000, 0x1000 + 64 * count
    code, table = bytearray(), b""
    table_at = info_at + len(infos)
    for place in range(count):
        end = PE_FUNCTIONS[place % len(PE_FUNCTIONS)][1]
        code += bytes([0x90]) * (64 - len(end)) + end
        start = code_at + 64 * place
        table += struct.pack("<III", start, start + 64, info_at + places[place % len(PE_FUNCTIONS)])
    sections = [
        (".text", code_at, len(code), bytes(code)),
        (".xdata", info_at, len(infos), infos),
        (".pdata", table_at, len(table), table),
    ]
    return module("x86_64", table_at + len(table), 0x1_4000_0000, sections)


def many(walks):
    """Walks of 40 frames through 8 functions, at some 3 kB each."""
    commands = [walk("x86_64", CODE, STACK, STACK, linked_frames(40), 1000) for _ in range(walks)]
    return session("x86_64", commands)


def sections_of(elf, names=(".eh_frame", ".text", ".got")):
    """A session with one module: the sections of a 64-bit ELF file, as `readelf -SW` lists them."""
    listed = subprocess.run(["readelf", "-SW", elf], capture_output=True, text=True, check=True).stdout
    row = re.compile(r"\[ *[0-9]+\] (\S+) +\S+ +([0-9a-f]{16}) ([0-9a-f]+) ([0-9a-f]+) ")
    with open(elf, "rb") as file:
        contents = file.read()
    found = []
    for name, *numbers in row.findall(listed):
        address, offset, size = (int(digits, 16) for digits in numbers)
        if name in names:
            section = {"name": name, "svma": [f"{address:x}", f"{address + size:x}"]}
            if name.startswith(".eh_frame"):
                section["data"] = contents[offset : offset + size].hex()
            found.append(section)
    module = {"name": "elf", "start": "0", "end": "100000000", "base": "0", "base_svma": "0"}
    return session("x86_64", [{"do": "add", "unwinder": 0, **module, "sections": found, "segments": []}])


def rows_of(elf):
    """The rows of the file's .eh_frame whose return address lies below the CFA and whose CFA is
    rsp and an offset: the first address, the one after the last, and the offset."""
    rows = []
    block, end = [], None

    def finish():
        stops = [start for start, _ in block[1:]] + [end]
        rows.extend((start, stop, cfa) for (start, cfa), stop in zip(block, stops) if cfa)

    for line in subprocess.run(["readelf", "-wF", elf], capture_output=True, text=True).stdout.splitlines():
        head = re.match(r"[0-9a-f]+ [0-9a-f]+ [0-9a-f]+ (?:CIE|FDE)(?:.* pc=[0-9a-f]+\.\.([0-9a-f]+))?", line)
        if head:
            if end is not None:
                finish()
            block, end = [], head.group(1) and int(head.group(1), 16)
        elif end is not None and re.match(r"[0-9a-f]{16} ", line):
            columns = line.split()
            cfa = re.fullmatch(r"rsp\+([0-9]+)", columns[1])
            good = cfa and columns[-1] == "c-8" and int(cfa.group(1)) % 8 == 0
            block.append((int(columns[0], 16), int(cfa.group(1)) if good else None))
    if end is not None:
        finish()
    return [row for row in rows if row[1] - row[0] > 1 and row[2] <= 1024]


def cold(sections, elf, count):
    """A walk through rows that are all different, at addresses that are all different."""
    with open(sections) as file:
        made = json.load(file)
    numbers = random.Random(1)
    addresses, sizes = [], []
    for start, stop, size in numbers.sample(rows_of(elf), count):
        addresses.append(numbers.randrange(start, stop))
        sizes.append(size)
    words = [0x1111] * (sum(sizes) // 8)
    top = 0
    for size, caller in zip(sizes, addresses[1:] + [-1]):
        top += size // 8
        words[top - 1] = caller + 1
    made["commands"].append(walk(made["arch"], addresses[0], STACK, STACK, words, count + 10))
    return made


def main(arguments):
    match arguments:
        case ["frame-pointers", arch]:
            made = frame_pointers(arch)
        case ["scattered", count]:
            made = scattered(int(count))
        case ["offsets", count]:
            made = with_offsets(int(count))
        case ["sections", elf]:
            made = sections_of(elf)
        case ["sections", elf, "header"]:
            made = sections_of(elf, (".eh_frame", ".eh_frame_hdr", ".text", ".got"))
        case ["fdes", count]:
            made = fdes(int(count))
        case ["compact", arch, count]:
            made = compact(arch, int(count))
        case ["pe", count]:
            made = pe(int(count))
        case ["cold", sections, elf, count]:
            made = cold(sections, elf, int(count))
        case ["many", walks]:
            made = many(int(walks))
        case _:
            sys.exit(__doc__)
    json.dump(made, sys.stdout)


main(sys.argv[1:])
