#!/usr/bin/env python3
"""record_steps_aarch64.py PROGRAM RECORDING: makes a recording of a program of aarch64 without libraries, in the place of perf.

PROGRAM is run by qemu-aarch64, an instruction at a time. At every third its registers and the front of its stack are a sample of RECORDING.
Printed are the stacks that the processor's calls and returns give, folded, by the symbols of PROGRAM.
"""

import bisect
import collections
import os
import re
import struct
import subprocess
import sys
import tempfile

import judge_code
from judge_code_aarch64 import PC, REGISTERS, SP, Ended, File, Files, Machine, is_call, is_return

EVERY, STACK = 3, 256


def symbols(path):
    listed = subprocess.run(["readelf", "--wide", "--symbols", path], stdout=subprocess.PIPE, check=True).stdout.decode()
    return sorted((int(value, 16), name) for value, name in re.findall(r": ([0-9a-f]{16}) +\d+ FUNC +\S+ +\S+ +\d+ (\S+)", listed))


def main():
    path, made = sys.argv[1:]
    named, code = symbols(path), File(path)
    name_of = lambda address: named[bisect.bisect_right(named, (address, "~")) - 1][1]
    judge_code.STACK = STACK
    samples, folded, callers = [], collections.Counter(), []
    with tempfile.TemporaryDirectory() as folder, Machine(folder, "/", [path]) as machine:
        records = [judge_code.name(1, os.path.basename(path).encode(), 1), *Files(machine, {}).mappings(1, 2)]
        try:
            for step in range(10**6):
                registers = machine.registers()
                if step % EVERY == 0:
                    samples.append(judge_code.sample(1, registers[PC], registers, machine.stack(registers[SP]), 3 + step))
                    folded[";".join(map(name_of, [*callers, registers[PC]]))] += 1
                word = code.word(registers[PC])
                if is_call(word):
                    callers.append(registers[PC])
                elif is_return(word):
                    callers.pop()
                machine.resume("s")
        except Ended:
            pass
    with open(made, "wb") as file:
        file.write(judge_code.recording(b"".join(records + samples), REGISTERS))
    for stack, count in sorted(folded.items()):
        print(os.path.basename(path) + ";" + stack, count)


if __name__ == "__main__":
    main()
