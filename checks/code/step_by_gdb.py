#!/usr/bin/env python3
"""step_by_gdb.py: steps through functions by gdb.

They are the five of crates/framehop_check_cli/data/five_functions.so, instruction by instruction.

At each instruction the CFA of its row, as readelf prints the row and as gdb sees the registers, is compared with the one at the function's
entry: the row is off by the difference. Where framehop-check tells nothing, it must be off by as much as the row that it went on from, which
is that of the entry, or of a jump's target, or by as much as it told last. Where it tells something, the row must be off by the difference
between its two numbers more. The functions are called with the arguments 0 and 1, so that both ways of a branch are gone.

The built program is out/framehop-check of this repository, or that of the variable FRAMEHOP_CHECK. It needs cc, gdb and readelf.
"""
import os
import re
import subprocess
import sys
import tempfile

TOP = os.path.dirname(os.path.dirname(os.path.dirname(os.path.realpath(__file__))))
PROGRAM = os.environ.get("FRAMEHOP_CHECK", os.path.join(TOP, "out", "framehop-check"))
LIBRARY = os.path.join(TOP, "crates", "framehop_check_cli", "data", "five_functions.so")
FUNCTIONS = ["good", "missing_epilogue", "missing_push", "late", "no_restore"]
ALARM = re.compile(r"^0x([0-9a-f]+) \w+\+0x[0-9a-f]+: row: CFA = \w+([+-]\d+), code: (?:CFA = \w+([+-]\d+)|\w+ is overwritten)", re.M)
JUMP = re.compile(r"^0x([0-9a-f]+) \w+\+0x[0-9a-f]+: jumps to 0x([0-9a-f]+), row there: CFA = \w+([+-]\d+), code: CFA = \w+([+-]\d+)", re.M)
STEP = re.compile(r"STEP (\d+) (\w+) ([0-9a-f]+) (-?\d+) (-?\d+)")
ROW = re.compile(r"^([0-9a-f]{16}) (rsp|rbp)([+-]\d+)", re.M)
FDE = re.compile(r" FDE .*pc=([0-9a-f]+)\.\.")

MAIN = "\n".join(f"long {name}(long);" for name in FUNCTIONS) + """
int main(void)
{
    long sum = 0;
    for (long argument = 0; argument < 2; argument++)
        sum += """ + " + ".join(f"({name}(argument), 0)" for name in FUNCTIONS) + """;
    return sum;
}
"""

STEPS = r"""
import gdb, re
def address(name): return int(gdb.parse_and_eval(f"(unsigned long)&{name}"))
def register(name): return int(gdb.parse_and_eval(f"(unsigned long)${name}"))
gdb.execute("set confirm off")
gdb.execute("set pagination off")
gdb.execute("break main")
gdb.execute("run", to_string=True)
for name in FUNCTIONS: gdb.execute(f"break *{address(name)}", to_string=True)
base = address("good") - 0x1000
for call in range(2 * len(FUNCTIONS)):
    gdb.execute("continue", to_string=True)
    here = register("pc") - base
    name = next(it for it in FUNCTIONS if address(it) - base == here)
    entry = register("rsp") + 8
    while register("rsp") < entry:
        print(f"STEP {call} {name} {register('pc') - base:x} {register('rsp') - entry} {register('rbp') - entry}")
        gdb.execute("stepi", to_string=True)
gdb.execute("kill")
"""


def steps():
    with tempfile.TemporaryDirectory() as folder:
        source, program, script = (os.path.join(folder, it) for it in ("main.c", "main", "steps.py"))
        with open(source, "w", encoding="utf-8") as file:
            file.write(MAIN)
        with open(script, "w", encoding="utf-8") as file:
            file.write(f"FUNCTIONS = {FUNCTIONS}\n{STEPS}")
        subprocess.run(["cc", "-g", "-O0", source, LIBRARY, "-Wl,-rpath," + os.path.dirname(LIBRARY), "-o", program], check=True)
        out = subprocess.run(["gdb", "-q", "-nx", "-batch", "-x", script, program], stdout=subprocess.PIPE, text=True, check=True).stdout
    return [(int(call), name, int(at, 16), {"rsp": int(rsp), "rbp": int(rbp)}) for call, name, at, rsp, rbp in STEP.findall(out)]


def rows():
    """Where each row begins, with its register and offset."""
    out = subprocess.run(["readelf", "--debug-dump=frames-interp", LIBRARY], stdout=subprocess.PIPE, text=True, check=True).stdout
    found = {int(start, 16): ("rsp", 8) for start in FDE.findall(out)}
    found.update((int(at, 16), (register, int(offset))) for at, register, offset in ROW.findall(out))
    return sorted((at, *row) for at, row in found.items())


def off_by(table, at, registers):
    """By how much the row is off, where registers count from the entry's CFA."""
    _, register, offset = [row for row in table if row[0] <= at][-1]
    return registers[register] + offset


def main():
    out = subprocess.run([PROGRAM, LIBRARY], stdout=subprocess.PIPE, text=True, check=False).stdout
    alarms = {int(at, 16): (int(row) - int(code) if code else None) for at, row, code in ALARM.findall(out)}
    jumps = {(int(source, 16), int(at, 16)): int(row) - int(code) for source, at, row, code in JUMP.findall(out)}
    table, came, faults, count, before = rows(), set(), 0, 0, None
    for call, name, at, registers in steps():
        count += 1
        off = off_by(table, at, registers)
        if before is None or before[0] != call:
            begun = told = 0
        elif (before[1], at) in jumps:
            begun, told = jumps[before[1], at], 0
            came.add(("jump", at))
        if at in alarms:
            told = off - begun if alarms[at] is None and off != begun else alarms[at]
            came.add(("row", at))
            is_right = told is not None and off == begun + told
        else:
            is_right = off in (begun, begun + told)
        faults += not is_right
        if not is_right or at in alarms or (before is not None and (before[1], at) in jumps):
            print(f"{name}: 0x{at:x}: the row is off by {off}" + ("" if is_right else f", and was told by {told} more than {begun}"))
        before = call, at
    print(f"{count} steps, {len(came)} of {len(alarms) + len(jumps)} alarms come to, {faults} faults")
    return 1 if faults or not count or len(came) != len(alarms) + len(jumps) else 0


sys.exit(main())
