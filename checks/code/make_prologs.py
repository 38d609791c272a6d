#!/usr/bin/env python3
"""make_prologs.py FILE: writes a PE file of x86_64 with eight functions, made by hand (crates/framehop_check_cli/data/prologs.dll).

The first has a right prolog; the next four have the same code with one mistake each in their codes: an allocation 8 bytes too small, a
frame register 16 bytes too high, a push without a code, an allocation that ends inside its instruction. Then come a prolog that probes
the stack, a fragment whose frame was made before, and unwind info with an unknown code.
"""
import struct
import sys

PUSH, ALLOC_LARGE, ALLOC_SMALL, SET_FPREG, SAVE, UNKNOWN = 0, 1, 2, 3, 4, 15
RBX, RBP, RSI, RDI = 3, 5, 6, 7
TEXT, XDATA, PDATA = 0x1000, 0x2000, 0x3000
ALIGNMENT = 512

text, xdata, pdata = bytearray(), bytearray(), bytearray()


def function(code, codes, prolog, frame=0):
    """A function with its codes, from the last one to the first: offset, number, info and what follows."""
    begin, info = len(text), len(xdata)
    text.extend(code + b"\xcc" * (-len(code) % 16))
    slots = b"".join(struct.pack("<BB", code[0], code[1] | code[2] << 4) + b"".join(code[3:]) for code in codes)
    xdata.extend(struct.pack("<BBBB", 1, prolog, len(slots) // 2, frame) + slots + bytes(-len(slots) % 4))
    pdata.extend(struct.pack("<III", TEXT + begin, TEXT + begin + len(code), XDATA + info))


def padded(data):
    return bytes(data) + bytes(-len(data) % ALIGNMENT)


def image():
    sections = [(b".text", TEXT, text, 0x60000020), (b".xdata", XDATA, xdata, 0x40000040), (b".pdata", PDATA, pdata, 0x40000040)]
    headers, body = b"", b""
    for name, rva, data, flags in sections:
        place = ALIGNMENT + len(body)
        headers += struct.pack("<8sIIIIIIHHI", name, len(data), rva, len(padded(data)), place, 0, 0, 0, 0, flags)
        body += padded(data)
    directories = bytearray(16 * 8)
    struct.pack_into("<II", directories, 3 * 8, PDATA, len(pdata))
    sizes = (0x20B, 1, 0, len(text), 0, 0, 0, TEXT, 0x180000000, 0x1000, ALIGNMENT, 6, 0, 0, 0, 6, 0, 0, 0x4000, ALIGNMENT, 0, 3)
    stacks = (0x160, 0x100000, 0x1000, 0x100000, 0x1000, 0, 16)
    optional = struct.pack("<HBBIIIIIQIIHHHHHHIIIIHHQQQQII", *sizes, *stacks) + directories
    coff = struct.pack("<IHHIIIHH", 0x4550, 0x8664, len(sections), 0, 0, 0, len(optional), 0x2022)
    return padded(b"MZ" + bytes(58) + struct.pack("<I", 64) + coff + optional + headers) + body


# push rbp; push rbx; sub rsp, 0x28; lea rbp, [rsp+0x20]; nop; lea rsp, [rbp+8]; pop rbx; pop rbp; ret
FRAMED = bytes.fromhex("55 53 4883ec28 488d6c2420 90 488d6508 5b 5d c3")
SET, ALLOCATE, SECOND, FIRST = (11, SET_FPREG, 0), (6, ALLOC_SMALL, 4), (2, PUSH, RBX), (1, PUSH, RBP)
function(FRAMED, [SET, ALLOCATE, SECOND, FIRST], 11, RBP | 2 << 4)
function(FRAMED, [SET, (6, ALLOC_SMALL, 3), SECOND, FIRST], 11, RBP | 2 << 4)
function(FRAMED, [SET, ALLOCATE, SECOND, FIRST], 11, RBP | 3 << 4)
function(FRAMED, [SET, ALLOCATE, FIRST], 11, RBP | 2 << 4)
function(FRAMED, [SET, (5, ALLOC_SMALL, 4), SECOND, FIRST], 11, RBP | 2 << 4)
# push rsi; mov eax, 0x2000; call (the probe); sub rsp, rax; mov [rsp+0x30], rdi; ud2
PROBED = bytes.fromhex("56 b800200000 e800000000 4829c4 48897c2430 0f0b")
function(PROBED, [(19, SAVE, RDI, struct.pack("<H", 6)), (14, ALLOC_LARGE, 0, struct.pack("<H", 0x400)), (1, PUSH, RSI)], 19)
# nop; xor eax, eax; ret
function(bytes.fromhex("90 31c0 c3"), [(0, ALLOC_SMALL, 4), (0, PUSH, RBX)], 0)
function(bytes.fromhex("c3"), [(1, UNKNOWN, 0)], 1)
with open(sys.argv[1], "wb") as file:
    file.write(image())
