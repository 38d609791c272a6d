#!/usr/bin/env python3
"""step_actions.py FILE..: steps instructions beside their actions.

Of the instructions that objdump prints of x86_64 files, two of each form (its text without numbers) are run on this machine, one step
each from random registers (step_actions.c). Size, where it leads, registers, memory and values must be as framehop_code's action
says (step_actions.rs). An instruction that faults, or that this processor lacks, is counted by its signal and not compared.

The sources of framehop_code are built by rustc, without their contracts. Left out are instructions that would change what the step
itself needs (FS and GS, the trap flag, segments), system calls, and those that the kernel carries out in the processor's place.
"""
import collections
import os
import random
import re
import subprocess
import sys
import tempfile

HERE = os.path.dirname(os.path.realpath(__file__))
CRATES = os.path.join(os.path.dirname(os.path.dirname(HERE)), "crates")
FILES = ["action", "instruction", "opcode", "operand", "operation", "written"]
LINE = re.compile(r"^ *[0-9a-f]+:\t((?:[0-9a-f]{2} )+) *\t(.*)$")
LEFT_OUT = re.compile(
    r"^(\w+ )*(popfw?|syscall|sysenter|s[gi]dt|sldt|str|smsw)\b|^(\w+ )*(v?ldmxcsr|x?rstor\w*|fxrstor\w*|xrstor\w*|fldenv|frstor|wr[fg]sbase|int\w*) "
    r"|%[fg]s:|\b[fg]s |[ ,]%[defgs]s$"
)
NUMBER = re.compile(r"0x[0-9a-f]+|<[^>]*>|[0-9a-f]{3,}")
CONTRACT = re.compile(r"^\s*(ghost use|requires|ensures|#!?\[tactic)\b.*\n", re.M)
# what framehop_code uses of the crates below it
BELOW = {
    "framehop_bytes.rs": "pub mod bytes { pub fn front(bytes: &[u8], size: usize) -> &[u8] { &bytes[..size] } }",
    "framehop_cfi.rs": "pub mod rule; pub mod x86_64; pub mod aarch64; pub mod read_error { #[derive(Clone, Copy, Debug)] pub enum ReadError { Eof, UnknownInstruction } }"
    "pub mod numbers { use super::read_error::ReadError;"
    + "".join(
        f"pub fn read_u{8 * n}(bytes: &[u8], at: usize) -> Result<(u{8 * n}, usize), ReadError>"
        f"{{ let found = bytes.get(at..at + {n}).ok_or(ReadError::Eof)?; Ok((u{8 * n}::from_le_bytes(found.try_into().unwrap()), at + {n})) }}"
        for n in (1, 2, 4, 8)
    )
    + "}",
}


def source_of(crate, name):
    """A file of a crate without its contracts, with its paths from the root of one crate."""
    with open(os.path.join(CRATES, crate, "src", name + ".rt"), encoding="utf-8") as file:
        text = CONTRACT.sub("", file.read())
    return re.sub(r"^use (framehop_\w+)", r"use crate::\1", text.replace("crate::", f"crate::{crate}::"), flags=re.M)


def write(folder, name, text):
    path = os.path.join(folder, name)
    os.makedirs(os.path.dirname(path), exist_ok=True)
    with open(path, "w", encoding="utf-8") as file:
        file.write(text)


def build_crates(folder, architecture, names):
    """Writes what is stepped of framehop_code, and what it uses of the crates below it."""
    for name, text in BELOW.items():
        write(folder, name, text)
    for name in ("rule", "x86_64", "aarch64"):
        write(folder, f"framehop_cfi/{name}.rs", source_of("framehop_cfi", name))
    effect = source_of("framehop_code", "effect")
    begin, end = effect.index("/// The instructions of an architecture."), effect.index("/// Returns the effect of an instruction of")
    write(folder, "framehop_code/effect.rs", effect[:begin] + effect[end:])
    write(folder, "framehop_code/action.rs", source_of("framehop_code", "action"))
    for name in names:
        write(folder, f"framehop_code/{architecture}/{name}.rs", source_of("framehop_code", f"{architecture}/{name}"))
    modules = "".join(f"pub mod {name};" for name in names)
    write(folder, "framehop_code.rs", f"pub mod action; pub mod effect; pub mod {architecture} {{{modules}}}")


def build(folder):
    build_crates(folder, "x86_64", FILES)
    for name in ("step_actions.rs", "steps.rs"):
        with open(os.path.join(HERE, name), encoding="utf-8") as file:
            write(folder, name.replace("step_actions", "main"), file.read())
    subprocess.run(["rustc", "--edition", "2021", "-O", "-A", "warnings", "main.rs", "-o", "compare"], cwd=folder, check=True)
    subprocess.run(["cc", "-O1", os.path.join(HERE, "step_actions.c"), "-o", os.path.join(folder, "step")], check=True)


def instructions_of(path):
    with subprocess.Popen(["objdump", "-d", "-w", "--insn-width=15", path], stdout=subprocess.PIPE, text=True, errors="replace") as run:
        for line in run.stdout:
            match = LINE.match(line)
            if match and "(bad)" not in match[2]:
                code = match[1].replace(" ", "")
                # FWAIT, which objdump prints with the x87 instruction after it
                yield code[2:] if code.startswith("9b") and len(code) > 2 else code, match[2].split("#")[0].strip()


def main(paths):
    forms = collections.defaultdict(set)
    for path in paths:
        for code, text in instructions_of(path):
            if not LEFT_OUT.search(text):
                forms[NUMBER.sub("N", text)].add(code)
    random.seed(1)
    codes = [code for _, found in sorted(forms.items()) for code in random.sample(sorted(found), min(len(found), 2))]
    print(f"{len(codes)} instructions of {len(forms)} forms")
    with tempfile.TemporaryDirectory() as folder:
        build(folder)
        write(folder, "codes", "\n".join(codes) + "\n")
        with open(os.path.join(folder, "codes"), encoding="utf-8") as given:
            with subprocess.Popen([os.path.join(folder, "step")], stdin=given, stdout=subprocess.PIPE) as steps:
                return subprocess.run([os.path.join(folder, "compare")], stdin=steps.stdout, check=False).returncode


if __name__ == "__main__":
    sys.exit(main(sys.argv[1:]))
