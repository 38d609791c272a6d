#!/usr/bin/env python3
"""Walks the stack of an example through a shared object of the archive: walk.py LIBFRAMEHOP.so EXAMPLE.json"""

import ctypes
import json
import sys
from ctypes import POINTER, Structure, byref, c_bool, c_size_t, c_uint8, c_uint64, c_void_p


class Handle(Structure):
    _fields_ = [("address", c_void_p)]


class Section(Structure):
    _fields_ = [
        ("svma_start", c_uint64),
        ("svma_end", c_uint64),
        ("start", POINTER(c_uint8)),
        ("length", c_size_t),
        ("has_range", c_bool),
        ("has_bytes", c_bool),
    ]


NAMES = (
    "text stubs stub_helper got unwind_info eh_frame eh_frame_hdr debug_frame text_segment pdata rdata xdata"
).split()


class Sections(Structure):
    _fields_ = [("base_svma", c_uint64)] + [(name, Section) for name in NAMES]


REGISTERS = "ip rax rdx rcx rbx rsi rdi rbp rsp r8 r9 r10 r11 r12 r13 r14 r15".split()


class Registers(Structure):
    _fields_ = [(name, c_uint64) for name in REGISTERS]


class Window(Structure):
    _fields_ = [("base", c_uint64), ("words", POINTER(c_uint64)), ("word_count", c_size_t)]


class Walk(Structure):
    _fields_ = [("frame_count", c_size_t), ("unreadable", c_uint64)]


def call(function, *arguments):
    status = function(*arguments)
    if status < 0:
        sys.exit(f"{function.__name__}: {status}")
    return status


def main():
    library = ctypes.CDLL(sys.argv[1])
    _, add, walk = json.load(open(sys.argv[2]))["commands"]
    generations, cache, unwinder = Handle(), Handle(), Handle()
    call(library.framehop_generations_new, byref(generations))
    call(library.framehop_cache_x86_64_new, c_bool(True), byref(cache))
    call(library.framehop_unwinder_x86_64_new, byref(generations), c_bool(True), byref(unwinder))

    sections, kept = Sections(base_svma=int(add["base_svma"], 16)), []
    for section in add["sections"]:
        start, end = (int(end, 16) for end in section.get("svma", ("0", "0")))
        data = bytes.fromhex(section.get("data", ""))
        kept.append((c_uint8 * len(data)).from_buffer_copy(data))
        place = ctypes.cast(kept[-1], POINTER(c_uint8))
        name = section["name"].lstrip(".")
        setattr(sections, name, Section(start, end, place, len(data), "svma" in section, bool(data)))
    addresses = [c_uint64(int(add[field], 16)) for field in ("start", "end", "base")]
    call(library.framehop_unwinder_x86_64_add_module, byref(unwinder), byref(generations), *addresses, byref(sections))

    words = [int(word, 16) for word in walk["memory"]["words"]]
    stack = (c_uint64 * len(words))(*words)
    window = Window(int(walk["memory"]["base"], 16), stack, len(words))
    regs = walk["regs"]
    registers = Registers(ip=int(walk["pc"], 16), rsp=int(regs["sp"], 16), rbp=int(regs["bp"], 16))
    frames, told = (c_uint64 * walk["limit"])(), Walk()
    status = call(
        library.framehop_unwinder_x86_64_walk, byref(unwinder), byref(cache), c_uint64(int(walk["pc"], 16)),
        byref(registers), byref(window), frames, c_size_t(walk["limit"]), byref(told),
    )
    for index, address in enumerate(frames[: told.frame_count]):
        print("ra" if index else "ip", f"{address:x}")
    print({2: "end", 1: "limit"}.get(status, status))
    for handle in (unwinder, cache, generations):
        library.framehop_free(handle)


main()
