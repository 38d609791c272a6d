#!/usr/bin/env python3
"""Sweeps over unwind sections, for programs that read the input of framehop-walk.

    checks/sweeps.py totals PROGRAM [SWEEP..]
        what each sweep of crates/framehop_format_vectors comes to by PROGRAM: the numbers that src/bytes.rt asks for
    checks/sweeps.py rules
        what the sweeps over rules come to, by the table of rules as it is written here
    checks/sweeps.py pairs ONE OTHER [--count N] [--seed N]
        two bytes of a section at once: N modules of each section, on which both programs are to print the same
    checks/sweeps.py file ONE OTHER FILE [--count N] [--seed N]
        the .eh_frame and .eh_frame_hdr of an ELF file for x86-64, each time with one to eight bytes changed
    checks/sweeps.py crashes PROGRAM [--count N] [--seed N]
        the same pairs by one program: each run is to end with status 0

A program is a command with blanks between its words; the path of an input follows it. The sections are read from the
crate's src/sections.rt. Each step has a cache of its own, so no answer is an earlier one.
"""
import argparse
import json
import os
import random
import re
import shlex
import struct
import subprocess
import sys
import tempfile

TOP = os.path.dirname(os.path.dirname(os.path.abspath(__file__)))
SOURCE = os.path.join(TOP, "crates/framehop_format_vectors/src/sections.rt")
STACK = "1 2 100300 4 40 100200 5 6 70 100100 7 8 9 a 0 0".split()
MEMORY = json.dumps({"base": "0", "words": STACK})
STEPS_IN_A_RUN = 1800

CALL_FRAMES = [0xFFF, 0x1000, 0x1001, 0x1004, 0x101F, 0x1020]
PE_FUNCTION = [0x1000, 0x1001, 0x1002, 0x1006, 0x103A, 0x103E, 0x103F, 0x1040]
COMPACT_FUNCTION = [0x100FFF, 0x101000, 0x101001, 0x101FFF, 0x102000]

# name, format, sections, which of them is swept over, addresses that are looked up
SWEEPS = [
    ("one_fde", "eh_frame", ["ONE_FDE"], 0, CALL_FRAMES),
    ("two_fdes", "eh_frame", ["TWO_FDES"], 0, CALL_FRAMES),
    ("header", "eh_frame_hdr", ["ONE_FDE", "HEADER"], 1, CALL_FRAMES),
    ("debug_frame", "debug_frame", ["DEBUG_FRAME"], 0, CALL_FRAMES),
    ("linkage_table", "eh_frame", ["LINKAGE_TABLE"], 0, [0x1000, 0x100B, 0x1020]),
    ("unwind_info", "unwind_info", ["UNWIND_INFO"], 0, COMPACT_FUNCTION),
    ("pdata", "pe", ["PDATA", "PUSHES_RBX", "TEXT"], 0, PE_FUNCTION),
    ("rdata", "pe", ["PDATA", "PUSHES_RBX", "TEXT"], 1, PE_FUNCTION),
    ("text", "pe", ["PDATA", "PUSHES_RBX", "TEXT"], 2, PE_FUNCTION),
]

# By sweep: a place and its value in a variant that is refused here (docs/DIFFERENCES.md says why) and that a program with
# the original's readers may read, and the place and value of a variant that every reader refuses, which stands for it.
# Both have the same steps here: a count of the header that is relative to the text, and a header of version 0; a page
# of kind 3 whose own opcodes do not lie in the bytes, and a page of kind 4.
REFUSED_HERE = {
    "header": {(2, 0x23): (0, 0), (2, 0x2B): (0, 0)},
    "unwind_info": {(0x34, 3): (0x34, 4)},
}


def read_sections():
    """The constants of the crate: names and bytes."""
    with open(SOURCE, encoding="utf-8") as file:
        text = file.read()
    found = re.findall(r"const (\w+): &str\s*=\s*\"([0-9a-f\\\s]*)\";", text)
    return {name: bytes.fromhex(re.sub(r"[\\\s]", "", digits)) for name, digits in found}


def section(name, data, svma=None):
    made = {"name": name, "data": data.hex()}
    if svma:
        made["svma"] = [f"{svma[0]:x}", f"{svma[1]:x}"]
    return made


def add(kind, contents, number):
    """The command that adds a module with these sections."""
    start, end = 0, 0x4000
    if kind == "eh_frame":
        sections = [section(".eh_frame", contents[0], (0x2000, 0x2100))]
    elif kind == "eh_frame_hdr":
        sections = [
            section(".eh_frame", contents[0], (0x2000, 0x2100)),
            section(".eh_frame_hdr", contents[1], (0x3000, 0x3100)),
        ]
    elif kind == "debug_frame":
        sections = [section(".debug_frame", contents[0])]
    elif kind == "unwind_info":
        start, end = 0x100000, 0x110000
        sections = [section("__unwind_info", contents[0])]
    else:
        sections = [
            section(".pdata", contents[0]),
            section(".rdata", contents[1], (0x2000, 0x2008)),
            section(".text", contents[2], (0x1000, 0x1040)),
        ]
    return json.dumps(
        {
            "do": "add", "unwinder": number, "name": "", "start": f"{start:x}", "end": f"{end:x}",
            "base": f"{start:x}", "base_svma": "0", "sections": sections, "segments": [],
        }
    )


def step(number, cache, lookup, is_caller, memory=MEMORY, sp=0x10, bp=0x20):
    kind, address = ("ra", lookup + 1) if is_caller else ("ip", lookup)
    return (
        f'{{"do":"step","unwinder":{number},"cache":{cache},"kind":"{kind}","address":"{address:x}",'
        f'"regs":{{"ip":"{address:x}","sp":"{sp:x}","bp":"{bp:x}"}},"memory":{memory}}}'
    )


def run(program, commands, caches, policy="may"):
    """The lines that a program prints for commands."""
    with tempfile.NamedTemporaryFile("w", suffix=".json", delete=False) as file:
        file.write(f'{{"arch":"x86_64","policy":"{policy}","caches":{caches},"commands":[')
        file.write(",".join(commands))
        file.write("]}")
    try:
        ended = subprocess.run(shlex.split(program) + [file.name], capture_output=True, text=True, timeout=600)
    finally:
        os.unlink(file.name)
    if ended.returncode:
        sys.exit(f"{program}: status {ended.returncode}: {ended.stderr.strip()}")
    return ended.stdout.splitlines()


def variants(data, refused_here):
    """Each byte set to each other value, and then each shorter length; the variants of REFUSED_HERE by those for them."""
    for index, was in enumerate(data):
        for value in range(256):
            if value != was:
                place, other = refused_here.get((index, value), (index, value))
                yield data[:place] + bytes([other]) + data[place + 1:]
    for length in reversed(range(len(data))):
        yield data[:length]


def in_runs(modules, addresses, step_at=step):
    """Commands for some modules at a time, and their number of caches. A module is the command that adds it, by number."""
    commands, caches, number = [], 0, 0
    for module in modules:
        commands += ['{"do":"new"}', module(number)]
        for lookup in addresses:
            for is_caller in (False, True):
                commands.append(step_at(number, caches, lookup, is_caller))
                caches += 1
        number += 1
        if caches >= STEPS_IN_A_RUN:
            yield commands, caches
            commands, caches, number = [], 0, 0
    if commands:
        yield commands, caches


ENDS = [
    ("Could not read stack memory at 0x", 3), ("Frame pointer unwinding moved backwards", 4),
    ("Neither the code address nor the stack pointer changed, would loop", 5),
    ("Unwinding caused integer overflow", 6), ("Return address is null", 7), ("Out of memory", 8),
]


class Totals:
    """As in the crate's src/totals.rt."""

    def __init__(self):
        self.answered = self.roots = self.refused = 0
        self.digest = 0xCBF29CE484222325

    def add_word(self, word):
        self.digest = (self.digest ^ word) * 0x100000001B3 % (1 << 64)

    def add_end(self, line):
        word = line[len("step "):]
        if word == "end":
            self.roots += 1
            end, address = 2, 0
        elif word.startswith("stopped: "):
            self.refused += 1
            error = word[len("stopped: "):]
            start, end = next((start, end) for start, end in ENDS if error.startswith(start))
            address = int(error[len(start):], 16) if end == 3 else 0
        else:
            self.answered += 1
            end, address = 1, int(word, 16)
        self.add_word(end)
        self.add_word(address)

    def add_lines(self, lines):
        for line in lines:
            if line.startswith("step "):
                self.add_end(line)
            elif line.startswith("regs "):
                for register in line.split()[1:]:
                    self.add_word(int(register.split("=")[1], 16))
            elif not line.startswith(("new ", "add")):
                sys.exit(f"another line: {line}")

    def print(self, name, cases):
        print(
            f"{name}: {cases} cases, {self.answered + self.roots + self.refused} steps: answered: {self.answered}, "
            f"roots: {self.roots}, refused: {self.refused}, digest: 0x{self.digest:016x}", flush=True,
        )


def totals(program, only):
    sections = read_sections()
    for name, kind, names, place, addresses in SWEEPS:
        if only and name not in only:
            continue
        contents = [sections[each] for each in names]
        count, found = 0, Totals()

        def modules():
            nonlocal count
            for variant in variants(contents[place], REFUSED_HERE.get(name, {})):
                count += 1
                changed = contents[:place] + [variant] + contents[place + 1:]
                yield lambda number, changed=changed: add(kind, changed, number)

        for commands, caches in in_runs(modules(), addresses):
            found.add_lines(run(program, commands, caches))
        found.print(name, count)


# ---- rules, as the documentation of UnwindRuleX86_64 and UnwindRuleAarch64 says them

VALUES = [0, 7, 8, 2**63 - 1, 2**63, 2**64 - 16, 2**64 - 8, 2**64 - 1]
FAILING = [lambda number: False, lambda number: True] + [lambda number, k=k: number == k for k in (1, 2, 3)]
# a kind, and its fields
RULES_X86_64 = [
    ("end",), ("return",), ("return or bp",), ("sp", 0), ("sp", 1), ("sp", 2), ("sp", 0xFFFF),
    ("sp, bp", 0, -1), ("sp, bp", 1, -1), ("sp, bp", 2, 0), ("sp, bp", 1, 2), ("sp, bp", 0xFFFF, 0x7FFF),
    ("sp, bp", 0, -0x8000), ("bp",), ("bp with", 4, 2), ("bp with", 0, 0), ("bp with", 0xFFFF, 0x7FFF),
    ("bp with", 1, -0x8000), ("pop", 0, 0, 0), ("pop", 4, 1, 0), ("pop", 0, 2, 55), ("pop", 0xFFFF, 8, 40319),
]
RULES_AARCH64 = [
    ("none",), ("none or fp",), ("sp", 0), ("sp", 1), ("sp", 0xFFFF), ("sp or end", 0), ("sp or end", 1),
    ("sp or end", 0xFFFF), ("sp, lr", 0, -1), ("sp, lr", 0, 0), ("sp, lr", 1, 1), ("sp, lr", 0xFFFF, 0x7FFF),
    ("sp, lr", 1, -0x8000), ("sp, fp, lr", 1, 0, 1), ("sp, fp, lr", 0, -2, -1), ("sp, fp, lr", 0xFFFF, 0x7FFF, -0x8000),
    ("fp",), ("fp with", 2, 0, 1), ("fp with", 0, 0, 0), ("fp with", 4, -2, -1), ("fp with", 0xFFFF, 0x7FFF, 0x7FFE),
    ("fp with", 1, -0x8000, 0),
]
ORDER = "rax rdx rcx rbx rsi rdi rbp rsp r8 r9 r10 r11 r12 r13 r14 r15".split()


class Refused(Exception):
    """A refusal, as the end of a step and an address."""


def fitting(number):
    if not 0 <= number < 1 << 64:
        raise Refused(6, 0)
    return number


def above(number, other):
    if number <= other:
        raise Refused(4, 0)


class Words:
    """A stack whose word at each address is 0x30 more than that."""

    def __init__(self, fails):
        self.fails, self.number = fails, 0

    def at(self, address):
        fitting(address)
        self.number += 1
        if self.fails(self.number):
            raise Refused(3, address)
        return (address + 0x30) % (1 << 64)


def ordering(count, number):
    """The registers of an ordering: the digits of the number, lowest first, are places that are exchanged."""
    registers = "rbx rbp rdi rsi r12 r13 r14 r15".split()
    for place in range(8):
        number, digit = divmod(number, 8 - place)
        registers[place], registers[place + digit] = registers[place + digit], registers[place]
    return registers[:count]


def exec_x86_64(rule, first, sp, bp, words):
    """The return address, sp and the registers that are restored; None at the root."""
    kind, fields, restored = rule[0], [8 * field for field in rule[1:]], {}
    if kind == "end" or kind == "bp" and bp == 0 or kind == "bp with" and bp == 0:
        return None
    if kind == "return" or kind == "return or bp" and first:
        new = fitting(sp + 8)
    elif kind in ("bp", "return or bp"):
        new = fitting(bp + 16)
        above(new, sp)
        restored["rbp"] = words.at(bp)
    elif kind == "bp with":
        new = fitting(bp + fields[0])
        above(new, sp)
        restored["rbp"] = words.at(bp + fields[1])
    elif kind == "pop":
        new = sp + fields[0]
        for register in ordering(*rule[2:]):
            restored[register] = words.at(new)
            new += 8
        new = fitting(new + 8)
    else:
        new = fitting(sp + fields[0])
        if kind == "sp, bp":
            try:
                restored["rbp"] = words.at(sp + fields[1])
            except Refused as refused:
                if refused.args[0] != 3 or not first or fields[1] >= 0:
                    raise
    address = words.at(new - 8)
    if address == 0:
        return None
    if new == sp and address == 0x1000:
        raise Refused(5, 0)
    return address, new, restored


def exec_aarch64(rule, first, sp, fp, words):
    """The return address, sp and fp; None at the root."""
    kind, lr, fields = rule[0], 0x1234, [8 * field for field in rule[1:]]
    if kind in ("none", "sp") and not first:
        raise Refused(5, 0)
    if kind == "none" or kind == "none or fp" and first:
        new, new_fp = sp, fp
    elif kind in ("fp", "none or fp", "fp with"):
        x, y, z = fields if kind == "fp with" else (16, 0, 8)
        new = fitting(fp + x)
        lr = words.at(fp + z)
        new_fp = words.at(fp + y)
        if kind != "none or fp":
            if new_fp == 0:
                return None
            above(new_fp, fp)
        above(new, sp)
    elif kind == "sp or end" and not first:
        return None
    else:
        new, new_fp = fitting(sp + 2 * fields[0]), fp
        if kind in ("sp, lr", "sp, fp, lr"):
            lr = words.at(sp + fields[-1])
        if kind == "sp, fp, lr":
            new_fp = words.at(sp + fields[1])
    lr %= 1 << 40
    if lr == 0:
        return None
    if not first and new == sp:
        raise Refused(5, 0)
    return lr, new, new_fp


def add_found(found, run_rule):
    """Adds the end of a rule, and returns what it gives where it gives an address."""
    try:
        given = run_rule()
    except Refused as refused:
        found.refused += 1
        end, given = refused.args, None
    else:
        found.answered += given is not None
        found.roots += given is None
        end = (2, 0) if given is None else (1, given[0])
    for word in end:
        found.add_word(word)
    return given


def rules():
    found, cases = Totals(), 0
    for fails in FAILING:
        for rule in RULES_X86_64:
            for first, sp, bp in ((first, sp, bp) for first in (True, False) for sp in VALUES for bp in VALUES):
                given = add_found(found, lambda: exec_x86_64(rule, first, sp, bp, Words(fails)))
                address, new, restored = given or (0x1000, sp, {})
                registers = {"rbp": bp, **restored, "rsp": new}
                for word in [address] + [registers.get(register, 0) for register in ORDER]:
                    found.add_word(word)
                cases += 1
    found.print("rules_of_x86_64", cases)
    found, cases = Totals(), 0
    for fails in FAILING:
        for rule in RULES_AARCH64:
            for first, sp, fp in ((first, sp, fp) for first in (True, False) for sp in VALUES for fp in VALUES):
                given = add_found(found, lambda: exec_aarch64(rule, first, sp, fp, Words(fails)))
                for word in given or (0x1234, sp, fp):
                    found.add_word(word)
                cases += 1
    found.print("rules_of_aarch64", cases)


def changed_pairs(rng, sections, count):
    """Modules of each sweep with two bytes changed."""
    for _name, kind, names, place, addresses in SWEEPS:
        contents = [sections[each] for each in names]

        def modules():
            for _ in range(count):
                data = bytearray(contents[place])
                for index in rng.sample(range(len(data)), 2):
                    data[index] = rng.randrange(256)
                changed = contents[:place] + [bytes(data)] + contents[place + 1:]
                yield lambda number, changed=changed: add(kind, changed, number)

        yield modules(), addresses, step


def sections_of_elf(path):
    """The sections of an ELF file: name to address and bytes."""
    with open(path, "rb") as file:
        data = file.read()
    if data[:6] != b"\x7fELF\x02\x01":
        sys.exit(f"{path}: not an ELF file of 64 bits")
    at, = struct.unpack_from("<Q", data, 0x28)
    size, count, names = struct.unpack_from("<HHH", data, 0x3A)
    heads = [struct.unpack_from("<IIQQQQIIQQ", data, at + size * index) for index in range(count)]
    texts = data[heads[names][4]:]
    return {
        texts[head[0]:texts.index(b"\0", head[0])].decode(): (head[3], data[head[4]:head[4] + head[5]])
        for head in heads if head[1] != 8
    }


def changed_file(rng, path, count):
    """Modules of a file: the entries around an FDE of its .eh_frame, with one to eight bytes changed."""
    found = sections_of_elf(path)
    svma, eh_frame = found[".eh_frame"]
    hdr_svma, header = found[".eh_frame_hdr"]
    rows = struct.unpack_from("<I", header, 8)[0]
    for _ in range(count):
        row = rng.randrange(rows)
        start, fde = (hdr_svma + each for each in struct.unpack_from("<ii", header, 12 + 8 * row))
        at = fde - svma
        length, = struct.unpack_from("<I", eh_frame, at)
        cie, = struct.unpack_from("<I", eh_frame, at + 4)
        cie_at = at + 4 - cie
        cie_length, = struct.unpack_from("<I", eh_frame, cie_at)
        piece = bytearray(eh_frame[cie_at:cie_at + 4 + cie_length] + eh_frame[at:at + 4 + length] + bytes(4))
        struct.pack_into("<I", piece, 4 + cie_length + 4, 4 + cie_length + 4)
        for _change in range(rng.randrange(1, 9)):
            piece[rng.randrange(len(piece))] = rng.randrange(256)
        here = fde - 4 - cie_length
        extent = max(1, struct.unpack_from("<I", eh_frame, at + 12)[0])
        stated = [section(".eh_frame", bytes(piece), (here, here + len(piece)))]

        def module(number, stated=stated):
            return json.dumps(
                {
                    "do": "add", "unwinder": number, "name": "", "start": "0", "end": "100000000", "base": "0",
                    "base_svma": "0", "sections": stated, "segments": [],
                }
            )

        addresses = sorted({start, start + 1, start + extent // 2, start + extent - 1, start + extent})
        yield iter([module]), addresses, step


def joined(sweeps):
    """Modules with addresses of their own, some in a run."""
    commands, caches, number = [], 0, 0
    for modules, addresses, step_at in sweeps:
        for module in modules:
            commands += ['{"do":"new"}', module(number)]
            for lookup in addresses:
                for is_caller in (False, True):
                    commands.append(step_at(number, caches, lookup, is_caller))
                    caches += 1
            number += 1
            if caches >= STEPS_IN_A_RUN:
                yield commands, caches, number
                commands, caches, number = [], 0, 0
    if commands:
        yield commands, caches, number


def compare(one, other, sweeps):
    """Runs both programs under each policy; the first difference ends the run, with its input in a file."""
    modules = steps = 0
    for commands, caches, count in joined(sweeps):
        for policy in ("may", "must"):
            found = run(one, commands, caches, policy)
            if other is not None and found != run(other, commands, caches, policy):
                with open("sweeps-difference.json", "w", encoding="utf-8") as file:
                    file.write(f'{{"arch":"x86_64","policy":"{policy}","caches":{caches},"commands":[')
                    file.write(",\n".join(commands) + "]}")
                sys.exit("the programs differ: sweeps-difference.json")
        modules += count
        steps += caches
    print(f"{modules} modules, {2 * steps} steps: no difference")


def main():
    arguments = argparse.ArgumentParser(description=__doc__, formatter_class=argparse.RawDescriptionHelpFormatter)
    arguments.add_argument("what", choices=["totals", "rules", "pairs", "file", "crashes"])
    arguments.add_argument("words", nargs="*")
    arguments.add_argument("--count", type=int, default=10000)
    arguments.add_argument("--seed", type=int, default=1)
    asked = arguments.parse_args()
    rng = random.Random(asked.seed)
    if asked.what == "totals":
        totals(asked.words[0], asked.words[1:])
    elif asked.what == "rules":
        rules()
    elif asked.what == "pairs":
        compare(asked.words[0], asked.words[1], changed_pairs(rng, read_sections(), asked.count))
    elif asked.what == "crashes":
        compare(asked.words[0], None, changed_pairs(rng, read_sections(), asked.count))
    else:
        one, other, path = asked.words
        compare(one, other, changed_file(rng, path, asked.count))


if __name__ == "__main__":
    main()
