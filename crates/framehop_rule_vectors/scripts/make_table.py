#!/usr/bin/env python3
"""Writes the case pe_of_a_dll of checks/cases/rules: a DLL's sections, and what unwinding gives at addresses of it.

The DLL is made of functions.c by mingw's gcc (Debian: gcc-mingw-w64-x86-64-posix). What unwinding gives is worked out here
from the codes that llvm-readobj prints and the instructions that objdump prints, and not by the library.
"""
import json
import os
import re
import struct
import subprocess
import tempfile
from pathlib import Path

CASES = Path(__file__).resolve().parents[3] / "checks/cases/rules"
HERE = os.path.dirname(os.path.abspath(__file__))
NUMBERS = "RAX RCX RDX RBX RSP RBP RSI RDI R8 R9 R10 R11 R12 R13 R14 R15".split()
PRINTED = "RAX RDX RCX RBX RSI RDI RBP RSP R8 R9 R10 R11 R12 R13 R14 R15".split()
EIGHT = "RBX RBP RDI RSI R12 R13 R14 R15".split()


def word(address):
    return address ^ 0x8000


START = {name: 0x1000 + 0x100 * number for number, name in enumerate(NUMBERS)}


def run(*command):
    return subprocess.run(command, check=True, capture_output=True, text=True).stdout


def make_dll(folder):
    dll, definitions, library = (os.path.join(folder, name) for name in ("t.dll", "t.def", "t.a"))
    with open(definitions, "w") as f:
        f.write("LIBRARY outside.dll\nEXPORTS\noutside\nfails\nmeasured\nfills\n")
    run("x86_64-w64-mingw32-dlltool", "-d", definitions, "-l", library)
    run("x86_64-w64-mingw32-gcc-posix", "-O2", "-mno-stack-arg-probe", "-shared", "-nostdlib", "-s",
        "-Wl,--no-insert-timestamp,-e,0", "-o", dll, os.path.join(HERE, "functions.c"), library)
    return dll


def sections_of(dll):
    data = open(dll, "rb").read()
    head = struct.unpack_from("<I", data, 0x3C)[0]
    count, optional = struct.unpack_from("<H", data, head + 6)[0], struct.unpack_from("<H", data, head + 20)[0]
    image_base = struct.unpack_from("<Q", data, head + 24 + 24)[0]
    found = {}
    for i in range(count):
        at = head + 24 + optional + 40 * i
        name = data[at:at + 8].rstrip(b"\0").decode()
        size, rva, raw_size, raw = struct.unpack_from("<IIII", data, at + 8)
        found[name] = (rva, data[raw:raw + min(size, raw_size)])
    return image_base, found


def functions_of(dll, image_base):
    """Begin, end, frame register and offset, and the codes, as llvm-readobj prints them."""
    functions = []
    for block in run("llvm-readobj", "--unwind", dll).split("RuntimeFunction {")[1:]:
        begin, end = (int(re.search(name + r".*\((0x[0-9A-F]+)\)", block)[1], 16) - image_base
                      for name in ("StartAddress", "EndAddress"))
        frame = re.search(r"FrameRegister: (\w+)", block)
        offset = re.search(r"FrameOffset: (0x\w+)", block)
        codes = [(int(m[1], 16), m[2], m[3] and m[3].upper(), m[4] and int(m[4], 0)) for m in re.finditer(
            r"(0x\w\w): (\w+)(?: reg=(\w+))?,?(?: (?:size|offset)=(\w+))?", block)]
        functions.append((begin, end, frame and frame[1], offset and int(offset[1], 16) * 16, codes))
    return functions


def instructions_of(dll, image_base):
    """Addresses and texts, as objdump prints them."""
    return [(int(m[1], 16) - image_base, m[2].split("#")[0].strip()) for m in re.finditer(
        r"^ *([0-9a-f]+):\t(?:[0-9a-f]{2} )+ *\t(.*)$", run("objdump", "-d", "--wide", dll), re.M)]


def epilog_at(instructions, place, function, image_base):
    """The instructions of an epilog but for the last, or None."""
    begin, end, frame, _, _ = function
    steps = []
    for first, (address, text) in enumerate(instructions[place:]):
        if address >= end:
            return None
        if m := re.fullmatch(r"add +\$(0x\w+),%rsp", text):
            step = ("add", int(m[1], 16))
        elif m := re.fullmatch(r"lea +(-?0x\w+)\(%(\w+)\),%rsp", text):
            step = ("lea", int(m[1], 16)) if m[2].upper() == frame else None
        elif m := re.fullmatch(r"pop +%(\w+)", text):
            step = ("pop", m[1].upper())
        elif text == "ret" or re.fullmatch(r"(rex\.W )?jmp +\*0x\w+\(%rip\)", text):
            return steps
        elif m := re.fullmatch(r"jmp +0x(\w+)", text):
            return None if begin <= int(m[1], 16) - image_base < end else steps
        else:
            return None
        if step is None or (step[0] != "pop" and first > 0):
            return None
        steps.append(step)
    return None


def run_steps(steps, frame):
    r = dict(START)
    for kind, value in steps:
        if kind == "add":
            r["RSP"] += value
        elif kind == "lea":
            r["RSP"] = r[frame] + value
        else:
            r[value], r["RSP"] = word(r["RSP"]), r["RSP"] + 8
    return word(r["RSP"]), {**r, "RSP": r["RSP"] + 8}


def resolve(codes, frame, offset, established):
    r = dict(START)
    for _, kind, name, value in codes:
        if kind.startswith("ALLOC"):
            r["RSP"] += value
        elif kind == "PUSH_NONVOL":
            r[name], r["RSP"] = word(r["RSP"]), r["RSP"] + 8
        elif kind == "SET_FPREG":
            r["RSP"] = r[frame] - offset
        elif kind == "SAVE_NONVOL":
            base = r[frame] - offset if frame and established else r["RSP"]
            r[name] = word(base + value)
    return word(r["RSP"]), {**r, "RSP": r["RSP"] + 8}


def number_of(pops):
    """The number of a list of registers: at each place how far on the register is that is exchanged with the one there, with
    8, 7 .. choices."""
    order, number, weight = ["RBX", "RBP", "RDI", "RSI", "R12", "R13", "R14", "R15"], 0, 1
    for place, name in enumerate(pops):
        found = order.index(name, place)
        number, weight = number + (found - place) * weight, weight * (8 - place)
        order[place], order[found] = order[found], order[place]
    return number


def rule_of(steps):
    """The rule of an offset and pops as framehop-explain prints it, or None."""
    offset, pops = 0, []
    for place, (kind, value) in enumerate(steps):
        if kind == "add" and place == 0 and value % 8 == 0 and value < 8 << 16:
            offset = value
        elif kind == "pop" and value in EIGHT and value not in pops:
            pops.append(value)
        else:
            return None
    below = 8 * len(pops) + 8
    saved = "".join(f"; {name.lower()} at CFA - {below - 8 * place}" for place, name in enumerate(pops))
    name = f"OffsetSpAndPopRegisters {{ sp_offset_by_8: {offset // 8}, register_count: {len(pops)}, " \
        f"encoded_registers_to_pop: {number_of(pops)} }}" if offset or pops else "JustReturn"
    return f"{name}: CFA = rsp + {offset + below}{saved}; return address at CFA - 8"


def step(address, first, caller_rsp):
    """The step of a frame, over the thirty words below the caller's stack pointer."""
    base = caller_rsp - 240
    names = {"RSP": "sp", "RBP": "bp"}
    return {
        "do": "step", "unwinder": 0, "cache": 0, "kind": "ip" if first else "ra",
        "address": f"{address if first else address + 1:x}",
        "regs": {"ip": "1", **{names.get(name, name.lower()): f"{START[name]:x}" for name in NUMBERS}},
        "memory": {"base": f"{base:x}", "words": [f"{word(at):x}" for at in range(base, caller_rsp, 8)]},
    }


def row(function, address, first, instructions, image_base):
    begin, end, frame, offset, codes = function
    place = [a for a, _ in instructions].index(address)
    steps = epilog_at(instructions, place, function, image_base) if first else None
    kind = "unwind codes" if steps is None else "epilog"
    if steps is not None:
        answer, registers = run_steps(steps, frame)
    else:
        left = codes
        while left and left[0][0] > address - begin:
            left = left[1:]
        skipped = codes[:len(codes) - len(left)]
        established = not any(kind == "SET_FPREG" for _, kind, _, _ in skipped)
        answer, registers = resolve(left, frame, offset, established)
        steps = [("add", v) if k.startswith("ALLOC") else ("pop", n) if k == "PUSH_NONVOL" else ("", None)
                 for _, k, n, v in left]
    rule = rule_of(steps)
    source = f"{kind} of function 0x{begin:x}..0x{end:x}"
    told = f"  m+0x{address:x}: {source}: {rule or f'computed: return address 0x{answer:x}'}"
    line = f"regs ip={answer:x} " + " ".join(f"{name.lower()}={registers[name]:x}" for name in PRINTED)
    return step(address, first, registers["RSP"]), [f"step {answer:x}", told, line]


def rows_of(function, instructions, image_base):
    begin, end, _, _, codes = function
    inside = [a for a, _ in instructions if begin <= a < end]
    ends = [a for place, (a, _) in enumerate(instructions)
            if begin <= a < end and epilog_at(instructions, place, function, image_base) is not None]
    prolog = [a for a in inside if codes and begin < a <= begin + codes[0][0]]
    after_prolog = prolog[-1] if prolog else begin
    body = [a for a in inside if a > after_prolog and a not in ends] or inside[-1:]
    chosen = [(begin, True)]
    chosen += [(a, True) for a in prolog[:-1][2::5]] + [(a, False) for a in prolog[1:-1][2::5]]
    chosen += [(body[len(body) // 3], False)] + ([(prolog[-1], True)] if prolog else [])
    chosen += [(a, True) for a in ends[:1] + ends[2::4]]
    return [row(function, a, f, instructions, image_base) for a, f in sorted(set(chosen))]


def write(sections, text_end, rows):
    parts = []
    for name in (".pdata", ".xdata", ".text"):
        rva, data = sections[name]
        held = data[:text_end] if name == ".text" else data
        svma = {} if name == ".pdata" else {"svma": [f"{rva:x}", f"{rva + 0x1000:x}"]}
        parts.append({"name": name, **svma, "data": held.hex()})
    commands = [{"do": "new"}, {
        "do": "add", "unwinder": 0, "name": "m", "start": "0", "end": "10000", "base": "0", "base_svma": "0",
        "sections": parts, "segments": [],
    }]
    commands += [command for command, _ in rows]
    about = (
        "Addresses of a DLL that mingw's gcc made, as first frames and as callers'; the word at each address is the address with "
        "the bit 0x8000 turned. The rules and the callers are worked out from what llvm-readobj prints of its unwind info and "
        "objdump of its code.")
    text = ",\n  ".join(json.dumps(it, separators=(",", ":")) for it in commands)
    head = f'{{"about":{json.dumps(about)},\n "arch":"x86_64","policy":"both","caches":1,"commands":[\n  '
    (CASES / "pe_of_a_dll.json").write_text(head + text + "\n ]}\n")
    count = len(sections[".pdata"][1]) // 12
    lines = ["new 0", "add", f"  m: PE unwind info, {count} functions", *(line for _, told in rows for line in told)]
    (CASES / "pe_of_a_dll.expected").write_text("\n".join(lines) + "\n")


def main():
    with tempfile.TemporaryDirectory() as folder:
        dll = make_dll(folder)
        image_base, sections = sections_of(dll)
        functions, instructions = functions_of(dll, image_base), instructions_of(dll, image_base)
    rows = []
    for function in functions:
        # a part that restores its own frame register in the middle is left to a test of its own
        names = [name for _, kind, name, _ in function[4] if kind == "SAVE_NONVOL"]
        if function[2] not in names:
            rows += rows_of(function, instructions, image_base)
    text_end = functions[-1][1] - sections[".text"][0]
    write(sections, text_end, rows)


main()
