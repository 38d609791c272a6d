#!/usr/bin/env python3
"""Writes src/real_code.rt: places in compiled functions, and what is true of the stack there.

Compiles the C code below with gcc and clang for x86_64 and with clang for aarch64, with and without frame pointers and
pointer authentication. It then runs the disassembled instructions by hand, in two directions:

- from the function's start to a place, as long as no branch or call is met;
- from a place to the return or tail call that ends the function, as long as no other branch or call is met.

Each run says where the caller's stack pointer, frame pointer and return address are. Where both know a place they must
agree. Nothing here knows any rule: every instruction is read from the text of the disassembly, and an instruction that
could write one of these registers in another way ends the run.

A place is "interrupted" where the instructions from the function's start to it are not all of the kind that a prologue
read backwards can know: `push`, `stp` to the stack, `sub` of the stack pointer, the frame's set-up after `push rbp`, and
the signing of lr. Compilers put others among them, as moves of arguments and stores of single registers.

Needs gcc, clang, objdump and llvm-objdump. Run it in the crate's folder: scripts/real_code.py
"""
import os
import re
import subprocess
import sys
import tempfile

SOURCE = r"""
#include <stddef.h>
extern long get(long); extern void use(long, ...); extern void fill(char *, size_t); extern void *lookup(const char *);
struct node { struct node *left, *right; long key, value; };
long leaf(long a, long b) { return a * b + 7; }
long once(long a) { return get(a) + 1; }
long keep_two(long a, long b) { long c = get(a); return get(b) + c + a + b; }
long keep_four(long a, long b, long c, long d) { long e = get(a); long f = get(b); return get(c) * e + f * d + a + b + c; }
long buffer(long n) { char b[200]; fill(b, sizeof b); return b[n & 127] + get(n); }
long small_buffer(long n) { char b[40]; fill(b, sizeof b); return b[n & 31]; }
void tail(long a) { long b = get(a); use(b + a); }
void tail_of_pointer(void (*f)(long), long a) { f(get(a)); }
long sum(struct node *n) { return n ? sum(n->left) + sum(n->right) + n->value : 0; }
long loop(long n) { long s = 0; for (long i = 0; i < n; i++) s += get(i) * s + i; return s; }
long many(long a, long b, long c, long d, long e, long f) {
  long g = get(a), h = get(b), i = get(c), j = get(d);
  use(g, h, i, j, e, f);
  return g + h * i - j + a + b + c + d + e + f;
}
"""

COMMON = ["-c", "-ffreestanding", "-fno-stack-protector", "-fno-asynchronous-unwind-tables"]
BUILDS = {
    "x86_64": [
        ["gcc", "-O2", "-fomit-frame-pointer", "-fcf-protection=none"],
        ["gcc", "-O2", "-fno-omit-frame-pointer"],
        ["gcc", "-O1"],
        ["clang", "-O2", "-fomit-frame-pointer"],
        ["clang", "-O2", "-fno-omit-frame-pointer"],
        ["clang", "-Os"],
    ],
    "aarch64": [
        ["clang", "--target=aarch64-linux-gnu", "-O2", "-fomit-frame-pointer"],
        ["clang", "--target=aarch64-linux-gnu", "-O2", "-fno-omit-frame-pointer"],
        ["clang", "--target=aarch64-linux-gnu", "-O2", "-fno-omit-frame-pointer", "-mbranch-protection=pac-ret+b-key"],
        ["clang", "--target=aarch64-linux-gnu", "-Os", "-fomit-frame-pointer", "-mbranch-protection=pac-ret+b-key"],
        ["clang", "--target=arm64-apple-macos", "-O2"],
        ["clang", "--target=aarch64-linux-gnu", "-O0"],
    ],
}


class Unknown(Exception):
    """The run has met an instruction of which it cannot tell what it does to the registers at hand."""


def disassemble(architecture, command, folder):
    """Yields (function's name, its bytes, list of (offset, size, text of the instruction, has a relocation))."""
    source, target = os.path.join(folder, "code.c"), os.path.join(folder, "code.o")
    with open(source, "w") as file:
        file.write(SOURCE)
    subprocess.run(command + COMMON + ["-o", target, source], check=True)
    tool = "objdump" if architecture == "x86_64" else "llvm-objdump"
    text = subprocess.run([tool, "-d", "-r", target], check=True, capture_output=True, text=True).stdout
    name, start, code, instructions = None, 0, bytearray(), []
    for line in text.splitlines() + ["0000000000000000 <end>:"]:
        head = re.match(r"^([0-9a-f]+) <(.*)>:$", line)
        if head:
            if name is not None and not name.startswith(("ltmp", ".")):
                yield name, bytes(code), instructions
            name, start, code, instructions = head[2], int(head[1], 16), bytearray(), []
            continue
        if re.match(r"^\s+[0-9a-f]+:?\s+(R_|ARM64_RELOC)", line) and instructions:
            at, size, instruction, _ = instructions[-1]
            instructions[-1] = (at, size, instruction, True)
            continue
        row = re.match(r"^\s*([0-9a-f]+):\s+((?:[0-9a-f]{2} )+)\s*(.*)$", line)
        if row and name is not None:
            data = bytes.fromhex(row[2].replace(" ", ""))
            if row[3]:
                instructions.append((int(row[1], 16) - start, len(data), row[3].split("#")[0] if architecture == "x86_64" else row[3], False))
            elif instructions:
                at, size, instruction, relocation = instructions[-1]
                instructions[-1] = (at, size + len(data), instruction, relocation)
            code += data


# A state tells where things are, in bytes from the entry's or the place's stack pointer ("base"):
#   sp: the stack pointer; fp: the frame pointer register, "old" or a number; saved_fp, saved_ra: the stack words that
#   hold them; ra: the return address register of aarch64, "old" or ("word", n).
def new_state():
    return {"sp": 0, "fp": "old", "saved_fp": None, "ra": "old", "saved_ra": None}


def number(text):
    return int(text, 16) if "0x" in text else int(text)


def step_x86_64(state, text):
    """Runs one instruction that is no branch or call."""
    words = text.replace(",", " ").split()
    operation, operands = words[0], words[1:]
    if operation == "push":
        state["sp"] -= 8
        state.setdefault("words", {})[state["sp"]] = ("fp", state["fp"]) if operands == ["%rbp"] else None
        if operands == ["%rbp"] and state["fp"] == "old":
            state["saved_fp"] = state["sp"]
    elif operation == "pop":
        if operands == ["%rbp"]:
            state["fp"] = ("word", state["sp"])
        elif operands == ["%rsp"]:
            raise Unknown(text)
        state["sp"] += 8
    elif operation in ("sub", "add") and operands[-1] == "%rsp":
        if not operands[0].startswith("$"):
            raise Unknown(text)
        amount = number(operands[0][1:])
        if amount >= 2**63:
            amount -= 2**64
        state["sp"] += amount if operation == "add" else -amount
    elif operation == "mov" and operands == ["%rsp", "%rbp"]:
        state["fp"] = state["sp"]
    elif operation == "leave" or (operation == "lea" and operands[-1] in ("%rsp", "%rbp")) or (operation == "mov" and operands[-1] in ("%rsp", "%rbp")):
        raise Unknown(text)
    elif re.search(r"%(rsp|esp|rbp|ebp|bp|bpl|sp|spl)$", text.strip()) and operation not in ("cmp", "test", "cmpq", "testq"):
        raise Unknown(text)


def step_aarch64(state, text):
    words = re.sub(r"[\[\],!]", " ", text).split()
    operation, operands = words[0], words[1:]
    registers = {"x29": "fp", "x30": "ra", "fp": "fp", "lr": "ra"}

    def access(pair):
        names, rest = operands[: 2 if pair else 1], operands[2 if pair else 1 :]
        if rest[0] != "sp":
            return names, None
        amount = number(rest[1][1:]) if len(rest) > 1 else 0
        before = state["sp"]
        if "]!" in text:
            state["sp"] += amount
            return names, state["sp"]
        if re.search(r"\], #", text):
            state["sp"] += amount
            return names, before
        return names, before + amount

    if operation in ("stp", "str"):
        names, at = access(operation == "stp")
        if at is not None:
            for index, register in enumerate(names):
                if registers.get(register) == "fp" and state["fp"] == "old":
                    state["saved_fp"] = at + 8 * index
                if registers.get(register) == "ra" and state["ra"] == "old":
                    state["saved_ra"] = at + 8 * index
    elif operation in ("ldp", "ldr"):
        names, at = access(operation == "ldp")
        for index, register in enumerate(names):
            if register in registers:
                if at is None:
                    raise Unknown(text)
                state[registers[register]] = ("word", at + 8 * index)
    elif operation in ("sub", "add") and operands[:2] == ["sp", "sp"]:
        if not operands[2].startswith("#"):
            raise Unknown(text)
        amount = number(operands[2][1:]) << (int(operands[4][1:]) if len(operands) > 3 else 0)
        state["sp"] += amount if operation == "add" else -amount
    elif operation in ("add", "mov") and operands[0] in ("x29", "fp") and operands[1] == "sp":
        state["fp"] = state["sp"] + (number(operands[2][1:]) if operation == "add" else 0)
    elif operation in ("hint", "pacibsp", "autibsp", "paciasp", "autiasp"):
        pass  # signs or authenticates lr: its address stays
    elif operands and operands[0] in ("sp", "x29", "x30", "fp", "lr", "w29", "w30", "wsp"):
        raise Unknown(text)


STEP = {"x86_64": step_x86_64, "aarch64": step_aarch64}
BRANCH = {
    "x86_64": re.compile(r"^(bnd |notrack )?(j|call|ret|loop|ud2|hlt|rep ret)"),
    "aarch64": re.compile(r"^(b|bl|br|blr|ret|retab|retaa|braa|b\.\w+|cbz|cbnz|tbz|tbnz|brk)\b"),
}

PROLOGUE = {
    "x86_64": re.compile(r"^(push|sub .*,%rsp$|mov %rsp,%rbp)"),
    "aarch64": re.compile(r"^(stp .*\[sp|sub sp, sp|hint #27|pacibsp)"),
}


def is_end(architecture, text, relocation):
    """Whether the branch leaves the function for its caller: a return, or a jump to another function."""
    if architecture == "x86_64":
        return bool(re.match(r"^(ret|rep ret|jmp \*|jmpq \*)", text) or (text.startswith("jmp") and relocation))
    return bool(re.match(r"^(ret|br)\b", text) or (re.match(r"^b\s", text) and relocation))


def from_start(architecture, instructions):
    """Yields (offset, facts) from the function's start on: what has been pushed is where the caller's values are."""
    state, interrupted = new_state(), False
    for at, _, text, _ in instructions:
        up = -state["sp"]
        size = 8 if architecture == "x86_64" else 0
        fp = None if state["fp"] == "old" else (state["saved_fp"] + up if state["saved_fp"] is not None else "lost")
        frame = state["fp"] + up if isinstance(state["fp"], int) else None
        if isinstance(state["fp"], tuple) or isinstance(state["ra"], tuple):
            return
        if fp != "lost":
            yield at, (up + size, fp, up if size else None, frame, interrupted)
        if BRANCH[architecture].match(text):
            return
        try:
            STEP[architecture](state, text)
        except Unknown:
            return
        interrupted = interrupted or not PROLOGUE[architecture].match(re.sub(r"\s+", " ", text))


def to_end(architecture, instructions, index):
    """Returns the facts at an instruction, from the run to the function's end, or None."""
    state = new_state()
    for _, _, text, relocation in instructions[index:]:
        if BRANCH[architecture].match(text):
            if not is_end(architecture, text, relocation):
                return None
            size = 8 if architecture == "x86_64" else 0
            fp = state["fp"][1] if isinstance(state["fp"], tuple) else None
            ra = state["sp"] if size else (state["ra"][1] if isinstance(state["ra"], tuple) else None)
            return (state["sp"] + size, fp, ra, None, False)
        try:
            STEP[architecture](state, text)
        except Unknown:
            return None
        if isinstance(state["fp"], int):
            return None
    return None


def places(architecture, instructions):
    known = {}
    for at, facts in from_start(architecture, instructions):
        known[at] = facts
    for index, (at, _, _, _) in enumerate(instructions):
        facts = to_end(architecture, instructions, index)
        if facts is None:
            continue
        if at in known:
            # Both runs know the place: a leaf, or a function without a call. A register that the first run has found
            # on the stack may be the same in the register for the second.
            assert known[at][0] == facts[0], (instructions, at, known[at], facts)
        else:
            known[at] = facts
    return sorted(known.items())


def option(value):
    return "None" if value is None else "Some(%d)" % value


def main():
    # how many bytes of each build are kept
    limits = {"x86_64": 160, "aarch64": 240}
    out = [
        "//! Places in functions that gcc and clang have compiled, and what is true of the stack there. Written by",
        "//! `scripts/real_code.py`, which runs the disassembled instructions by hand.",
        "",
        "/// A place: the function's first byte in the code and the end of its bytes, the offset of the pc in the function;",
        "/// and, in bytes from the stack pointer, the caller's stack pointer, the stack words with the caller's frame pointer",
        "/// and with the return address (`None` where the register has it), and where the frame pointer register points, if",
        "/// into this frame; and whether other instructions than a prologue's are before it in the function.",
        "pub type Place = (usize, usize, usize, u64, Option<u64>, Option<u64>, Option<u64>, bool);",
        "",
    ]
    for architecture, builds in BUILDS.items():
        code, rows, seen, functions = bytearray(), [], set(), 0
        for command in builds:
            kept = 0
            with tempfile.TemporaryDirectory() as folder:
                for name, data, instructions in disassemble(architecture, command, folder):
                    if data in seen or not instructions or kept + len(data) > limits[architecture]:
                        continue
                    found = places(architecture, instructions)
                    if not found:
                        continue
                    seen.add(data)
                    functions += 1
                    kept += len(data)
                    start = len(code)
                    code += data
                    for at, facts in found:
                        rows.append((start, start + len(data), at) + facts)
        upper = architecture.upper()
        out.append("/// The code of %d functions for %s." % (functions, architecture))
        out.append("pub const %s_CODE: [u8; %d] = [" % (upper, len(code)))
        for index in range(0, len(code), 12):
            out.append("    " + ", ".join("0x%02x" % byte for byte in code[index : index + 12]) + ",")
        out.append("];")
        out.append("")
        out.append("/// Places in these functions.")
        out.append("pub const %s_PLACES: [Place; %d] = [" % (upper, len(rows)))
        for start, end, at, sp, fp, ra, frame, interrupted in rows:
            row = (str(start), str(end), str(at), str(sp), option(fp), option(ra), option(frame), str(interrupted).lower())
            out.append("    (" + ", ".join(row) + "),")
        out.append("];")
        out.append("")
        print(architecture, functions, "functions", len(code), "bytes", len(rows), "places", file=sys.stderr)
    with open("src/real_code.rt", "w") as file:
        file.write("\n".join(out))


main()
