#!/usr/bin/env python3
"""Random walks over the modules of checks/cases/ and examples/, by a program over the archive and by the original crate:

    random_steps.py ORIGINAL ROUNDS SEED PROGRAM..

ORIGINAL is called with a file of docs/PROGRAMS.md and prints what `framehop-walk` does, as `framehop-original run` of
bench/original; PROGRAM.. is as in cases.py, which runs it in each of its modes. Each round takes the modules of a case, and
makes up instruction pointers, registers and stack words. It prints the walks that differ, and fails then. A walk in which
the original crate panics may be printed by it as `panic`, and is passed over.
"""

import json
import random
import subprocess
import sys
import tempfile
from pathlib import Path

from cases import GENERAL, cases, words_of

WALKS = 60
STACK = 0x7000_0000


def modules_of(case):
    """The modules that are added to an unwinder by the case, as if to one."""
    return [{**it, "unwinder": 0} for it in case["commands"] if it["do"] == "add"]


def code_addresses(case, modules):
    """Addresses in and around the modules, those of the case's own steps before others."""
    own = [int(it.get("address") or it["pc"], 16) for it in case["commands"] if it["do"] in ("step", "walk")]
    ends = [int(it[end], 16) for it in modules for end in ("start", "end")]
    return own + own + ends


def some_address(addresses, modules):
    if random.random() < 0.7:
        return max(random.choice(addresses) + random.randrange(-4, 24), 0) % 2**64
    module = random.choice(modules)
    return random.randint(int(module["start"], 16), max(int(module["end"], 16) - 1, int(module["start"], 16)))


def some_word(addresses, modules, length):
    kind = random.random()
    if kind < 0.4:
        return some_address(addresses, modules)
    if kind < 0.8:
        return STACK + 8 * random.randrange(length)
    return random.choice([0, 1, 8, random.getrandbits(64), 2**64 - 1, STACK + random.randrange(8 * length)])


def some_walk(arch, addresses, modules):
    length = random.randrange(1, 64)
    words = [some_word(addresses, modules, length) for _ in range(length)]
    stack = [STACK + 8 * random.randrange(length) for _ in range(3)]
    pc = some_address(addresses, modules)
    if arch == "aarch64":
        regs = {"mask": 2**random.choice([40, 47, 64]) - 1, "lr": some_address(addresses, modules), "sp": min(stack), "fp": max(stack)}
        regs["lr"] &= regs["mask"]
    else:
        regs = {name: some_word(addresses, modules, length) for name in GENERAL}
        regs |= {"ip": pc, "sp": min(stack), "bp": max(stack)}
    return {
        "do": "walk", "unwinder": 0, "cache": 0, "pc": f"{pc:x}", "limit": random.randrange(2, 8),
        "regs": {name: f"{value:x}" for name, value in regs.items()},
        "memory": {"base": f"{STACK:x}", "words": [f"{word:x}" for word in words]},
    }


def round_of(case):
    modules = modules_of(case)
    addresses = code_addresses(case, modules)
    walks = [some_walk(case["arch"], addresses, modules) for _ in range(WALKS)]
    policy = random.choice(["may", "must"])
    return {"arch": case["arch"], "policy": policy, "caches": 1, "commands": [{"do": "new"}, *modules, *walks]}


def replies(text):
    """The lines of each reply, without the counts."""
    found = []
    for line in text.splitlines():
        if line.split(" ")[0] in ("new", "add", "ip", "panic"):
            found.append([])
        found[-1].append(line)
    return found


def main():
    original, rounds, seed, *program = sys.argv[1:]
    random.seed(int(seed))
    texts = [text for _, text, _ in cases()]
    usable = [case for case in map(json.loads, texts) if modules_of(case) and len(json.dumps(case)) < 200_000]
    walks, differing = 0, 0
    with tempfile.TemporaryDirectory() as folder:
        for number in range(int(rounds)):
            case = round_of(random.choice(usable))
            file = Path(folder) / "case.json"
            file.write_text(json.dumps(case))
            wanted = replies(subprocess.run([*original.split(), file], capture_output=True, text=True).stdout)
            for mode in ("callback", "window", "chunks", "ahead"):
                ran = subprocess.run([*program, mode], input=words_of(case, case["policy"]), capture_output=True, text=True)
                found = replies(ran.stdout)
                walks += WALKS
                for command, (one, other) in enumerate(zip(wanted, found)):
                    if one != other and one != ["panic"]:
                        differing += 1
                        print(f"round {number} by {mode}: {case['commands'][command]}\n  {one}\n  {other}")
                if ran.returncode or len(wanted) != len(found):
                    differing += 1
                    print(f"round {number} by {mode}: status {ran.returncode}, {len(found)} of {len(wanted)} {ran.stderr[-500:]}")
    print(f"{walks} walks, {differing} differ")
    sys.exit(differing > 0)


main()
