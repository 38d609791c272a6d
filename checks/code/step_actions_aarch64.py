#!/usr/bin/env python3
"""step_actions_aarch64.py [--unseen] [--rows N] FILE..: steps instructions of aarch64 beside their actions, below qemu-user.

Of the instructions that objdump prints of aarch64 files, two of each form (its text without numbers) are run, one step each from random
registers (step_actions_aarch64.c), and so are N random words of each encoding of framehop_code's table (64, if it is not told). Where
it leads, registers, memory and values must be as framehop_code's actions say (step_actions_aarch64.rs). An instruction that faults, or
that the processor lacks, is counted by its signal and not compared.

The sources of framehop_code are built by rustc, without their contracts. Left out are instructions that would change what the step
itself needs (system registers), system calls, and jumps to themselves. qemu has no pointer authentication here: signed registers count as
unchanged. With --unseen, words are listed of whose actions a part was not seen to happen. It wants qemu-aarch64 and aarch64-linux-gnu-gcc.
"""
import collections
import os
import random
import re
import subprocess
import sys
import tempfile

from step_actions import CRATES, HERE, build_crates, source_of, write

FILES = ["access", "action", "encoding", "field", "form", "instruction", "pair", "structure"]
LINE = re.compile(r"^ *[0-9a-f]+:\t([0-9a-f]{8}) *\t(.*)$")
NUMBER = re.compile(r"-?\b0x[0-9a-f]+|#-?[0-9.]+|<[^>]*>|\b[0-9a-f]{3,}\b|\b[wxvqdshbzp]\d+\b|\bw?sp\b|\b[xw]zr\b")
TRIALS = 3
STEP = re.compile(rb"[0-9a-f]{8} ")
ROW = re.compile(r"^ *Row\((0x[0-9a-f_]+), (0x[0-9a-f_]+), ", re.M)


def is_left_out(word):
    """System calls, MSR and SYS but for DC ZVA, and branches to themselves."""
    is_system = word >> 21 == 0xD5000000 >> 21 and word >> 12 not in (0xD5032, 0xD5033) and word >> 5 != 0xD50B7420 >> 5
    is_branch = word & 0x7FFFFFFF == 0x14000000
    is_branch |= (word >> 24 == 0x54 or word & 0x7E000000 == 0x34000000) and not word >> 5 & 0x7FFFF
    is_branch |= word & 0x7E000000 == 0x36000000 and not word >> 5 & 0x3FFF
    return word >> 24 == 0xD4 or is_system or is_branch


def words_of(path):
    with subprocess.Popen(["aarch64-linux-gnu-objdump", "-d", "-w", "-j", ".text", path], stdout=subprocess.PIPE, text=True, errors="replace") as run:
        for line in run.stdout:
            match = LINE.match(line)
            if match and "undefined" not in match[2] and "udf" not in match[2]:
                yield int(match[1], 16), match[2].split("//")[0].strip()


def random_words(count):
    with open(os.path.join(CRATES, "framehop_code/src/aarch64/form.rt"), encoding="utf-8") as file:
        rows = [(int(mask, 16), int(bits, 16)) for mask, bits in ROW.findall(file.read().replace("_", ""))]
    found = [bits | random.getrandbits(32) & ~mask for mask, bits in rows for _ in range(count)]
    return len(rows), found + [random.getrandbits(32) for _ in range(100 * count)]


def build(folder):
    build_crates(folder, "aarch64", FILES)
    for name in ("step_actions_aarch64.rs", "steps.rs"):
        with open(os.path.join(HERE, name), encoding="utf-8") as file:
            write(folder, name.replace("step_actions_aarch64", "main"), file.read())
    subprocess.run(["rustc", "--edition", "2021", "-O", "-A", "warnings", "main.rs", "-o", "compare"], cwd=folder, check=True)
    source = os.path.join(HERE, "step_actions_aarch64.c")
    subprocess.run(["aarch64-linux-gnu-gcc", "-static", "-O1", source, "-o", os.path.join(folder, "step")], check=True)


def step(folder, words):
    """Steps the words, and returns how many of them qemu itself ends at."""
    ended = 0
    with open(os.path.join(folder, "steps"), "wb") as steps:
        while words:
            given = "".join(f"{word:08x}\n" for word in words).encode()
            command = ["qemu-aarch64", "-cpu", "max,pauth=off", os.path.join(folder, "step")]
            run = subprocess.run(command, input=given, stdout=subprocess.PIPE, stderr=subprocess.DEVNULL, check=False)
            # where qemu ends, it writes a line of its own
            lines = [line for line in run.stdout.split(b"\n")[:-1] if STEP.match(line)]
            done = len(lines) // TRIALS
            steps.writelines(line + b"\n" for line in lines[: done * TRIALS])
            ended += done < len(words)
            words = words[done + 1 :]
    return ended


def main(arguments):
    listed = ["unseen"] if "--unseen" in arguments else []
    count = int(arguments[arguments.index("--rows") + 1]) if "--rows" in arguments else 64
    forms = collections.defaultdict(set)
    for path in filter(os.path.isfile, arguments):
        for word, text in words_of(path):
            forms[NUMBER.sub("N", text)].add(word)
    random.seed(1)
    chosen = [word for _, found in sorted(forms.items()) for word in random.sample(sorted(found), min(len(found), 2))]
    rows, others = random_words(count)
    words = [word for word in chosen + others if not is_left_out(word)]
    print(f"{len(chosen)} words of {len(forms)} forms, and {len(others)} random words, {count} each of {rows} encodings: {len(words)} are stepped", flush=True)
    with tempfile.TemporaryDirectory() as folder:
        build(folder)
        print(f"{step(folder, words):8} words end qemu", flush=True)
        with open(os.path.join(folder, "steps"), encoding="utf-8") as steps:
            return subprocess.run([os.path.join(folder, "compare")] + listed, stdin=steps, check=False).returncode


if __name__ == "__main__":
    sys.exit(main(sys.argv[1:]))
