#!/usr/bin/env python3
"""Writes the cases compact_info_by_a_linker of checks/cases/rules: `__unwind_info` of two dylibs, and for each of their functions,
as llvm-objdump prints it, what its opcode tells of a caller's frame at its first and its last byte.

Needs clang, ld64.lld (LLVM 14), llvm-objcopy and llvm-objdump.
"""
import json, os, re, subprocess, tempfile
from pathlib import Path

CASES = Path(__file__).resolve().parents[3] / "checks/cases/rules"

KINDS = [
    "u leaf{k}(u a,u b){{return a*{m}+b;}}",
    "u call{k}(u a){{return ext(a+{k})+ext(a);}}",
    "u buf{k}(u a){{char b[{s}];fill(b,a);return b[a&31]+ext(a);}}",
    "u regs{k}(u a,u b,u c,u d){{u x=ext(a),y=ext(b),z=ext(c),w=ext(d);return x*y+z*w+{k}+ext(x+y)*z+a*b;}}",
    "u big{k}(u a){{char b[{t}];fill(b,a);return b[a&31];}}",
    "u loop{k}(u a){{u s=0;for(u i=0;i<a;i++)s+=ext(i^{k});return s;}}",
]
SOURCE = "typedef unsigned long u; extern u ext(u); extern void fill(char*,u);\n" + "\n".join(
    KINDS[k % 6].format(k=k, m=k + 3, s=64 + 16 * k, t=5000 + 16 * k) for k in range(60))


def run(*words):
    return subprocess.run(words, check=True, capture_output=True, text=True).stdout


def info(folder, arch, flags):
    source, made, dylib, section = (os.path.join(folder, n) for n in ("many.c", "many.o", "many.dylib", "info"))
    open(source, "w").write(SOURCE)
    run("clang", "-target", arch + "-apple-macos11", "-O2", *flags, "-c", source, "-o", made)
    run("ld64.lld-14", "-dylib", "-arch", arch, "-platform_version", "macos", "11.0", "11.0",
        "-undefined", "dynamic_lookup", made, "-o", dylib)
    run("llvm-objcopy", "--dump-section", "__TEXT,__unwind_info=" + section, dylib)
    printed = run("llvm-objdump", "--macho", "--unwind-info", dylib)
    printed = printed[printed.index("Contents of __unwind_info"):]
    functions = re.findall(r"function offset=(0x[0-9a-f]+), encoding(?:\[\d+\])?=(0x[0-9a-f]+)", printed)
    end = re.findall(r"function offset=(0x[0-9a-f]+), 2nd level page offset=0x00000000", printed)[-1]
    # the linker pads the page with zeros
    data = open(section, "rb").read().rstrip(b"\0")
    return data + bytes(-len(data) % 4), functions, end


def saved_registers(count, permutation):
    """The registers that a frameless function saves, lowest first (Apple's compact_unwind_encoding.h)."""
    divisors = {6: (120, 24, 6, 2, 1, 1), 5: (120, 24, 6, 2, 1), 4: (60, 12, 3, 1), 3: (20, 4, 1), 2: (5, 1), 1: (1,)}
    left, registers = "rbx r12 r13 r14 r15 rbp".split(), []
    for place, divisor in enumerate(divisors.get(count, ())):
        digit = 0 if place == 5 else permutation // divisor
        permutation %= divisor
        registers.append(left.pop(digit))
    return registers


def rule_of(arch, opcode):
    """The rule of a caller's frame: its CFA, and where its frame pointer is saved, if it is; or why there is none."""
    kind = opcode >> 24 & 15
    if arch == "aarch64":
        return ("fp + 16", 16) if kind == 4 else "CallerCannotBeFrameless"
    if kind != 2:
        return "FunctionHasNoInfo" if kind == 0 else "NoTextBytesToLookUpIndirectStackOffset"
    size, count = opcode >> 16 & 0xFF, opcode >> 10 & 7
    registers = saved_registers(count, opcode & 0x3FF)
    saved = 8 * (1 + count - registers.index("rbp")) if "rbp" in registers else None
    return f"rsp + {8 * size}", saved


def step(arch, address, rule):
    """The step of a caller's frame, and the lines for the reply and the registers. Each word is 0x5000 more than its address,
    but where a frame pointer points; where there is no rule the frame pointer is followed, whose words can't be read."""
    regs = {"ip": "1000", "sp": "100", "bp": "200"} if arch == "x86_64" else {"lr": "3000", "sp": "100", "fp": "200"}
    if isinstance(rule, str):
        base, words = 0, [0]
        reply = f"stopped: Could not read stack memory at 0x{0x200 if arch == 'x86_64' else 0x208:x}"
        found = (0x1000, 0x200, 0x100) if arch == "x86_64" else (0x3000, 0x100, 0x200)
    elif arch == "x86_64":
        base, cfa = 0x100, 0x100 + int(rule[0].split()[-1])
        words = [0x5000 + at for at in range(base, cfa, 8)]
        bp = 0x200 if rule[1] is None else 0x5000 + cfa - rule[1]
        reply, found = f"{0x5000 + cfa - 8:x}", (0x5000 + cfa - 8, bp, cfa)
    else:
        base, words, reply, found = 0x200, [0x300, 0x8000], "8000", (0x8000, 0x210, 0x300)
    command = {
        "do": "step", "unwinder": 0, "cache": 0, "kind": "ra", "address": f"{address + 1:x}", "regs": regs,
        "memory": {"base": f"{base:x}", "words": [f"{it:x}" for it in words]},
    }
    others = " ".join(f"r{number}=0" for number in range(8, 16))
    line = "regs lr={:x} sp={:x} fp={:x}" if arch == "aarch64" else (
        "regs ip={:x} rax=0 rdx=0 rcx=0 rbx=0 rsi=0 rdi=0 rbp={:x} rsp={:x} " + others)
    return command, f"step {reply}", line.format(*found)


def name_of(arch, rule):
    """The rule as the library has it."""
    if arch == "aarch64":
        return "UseFramePointer"
    words = int(rule[0].split()[-1]) // 8
    if rule[1]:
        return f"OffsetSpAndRestoreBp {{ sp_offset_by_8: {words}, bp_storage_offset_from_sp_by_8: {words - rule[1] // 8} }}"
    return "JustReturn" if words == 1 else f"OffsetSp {{ sp_offset_by_8: {words} }}"


def text_of(arch, rule):
    """The rule, or the refusal, as framehop-explain prints it."""
    pointer = "rbp" if arch == "x86_64" else "fp"
    if isinstance(rule, str):
        follow = f"CFA = {pointer} + 16; {pointer} at CFA - 16; return address at CFA - 8"
        return f"CompactUnwindInfo({rule}): fallback: UseFramePointer: {follow}"
    saved = f"; {pointer} at CFA - {rule[1]}" if rule[1] else ""
    return f"{name_of(arch, rule)}: CFA = {rule[0]}{saved}; return address at CFA - 8"


def write(name, arch, data, functions, end):
    about = (
        "__unwind_info of a dylib that ld64.lld made (scripts/real_info.py): callers' frames at the first and the last byte of "
        f"its {len(functions)} functions, whose starts and opcodes llvm-objdump prints.")
    section = {"name": "__unwind_info", "svma": ["5000", f"{0x5000 + len(data):x}"], "data": data.hex()}
    commands = [{"do": "new"}, {
        "do": "add", "unwinder": 0, "name": "m", "start": "0", "end": "10000", "base": "0", "base_svma": "0",
        "sections": [section], "segments": [],
    }]
    # the last entry of the index is a sentinel; it has one page before that
    assert int.from_bytes(data[24:28], "little") == 2
    lines = ["new 0", "add", "  m: compact unwind info without __eh_frame, 1 page"]
    starts = [int(start, 16) for start, _ in functions] + [int(end, 16)]
    for (start, opcode), following in zip(functions, starts[1:]):
        start, opcode = int(start, 16), int(opcode, 16)
        rule = rule_of(arch, opcode)
        for address in (start, following - 1):
            command, reply, registers = step(arch, address, rule)
            commands.append(command)
            source = f"opcode 0x{opcode:x} of function 0x{start:x}"
            lines += [reply, f"  m+0x{address:x}: {source}: {text_of(arch, rule)}", registers]
    rows = ",\n  ".join(json.dumps(it, separators=(",", ":")) for it in commands)
    head = f'{{"about":{json.dumps(about)},\n "arch":"{arch}","policy":"both","caches":1,"commands":[\n  '
    (CASES / f"{name}.json").write_text(head + rows + "\n ]}\n")
    (CASES / f"{name}.expected").write_text("\n".join(lines) + "\n")


with tempfile.TemporaryDirectory() as folder:
    write("compact_info_by_a_linker", "x86_64", *info(folder, "x86_64", ["-fomit-frame-pointer"]))
    write("compact_info_by_a_linker_of_aarch64", "aarch64", *info(folder, "arm64", []))
