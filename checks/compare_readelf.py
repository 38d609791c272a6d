#!/usr/bin/env python3
"""Compares `framehop-explain --elf` with `readelf --debug-dump=frames-interp`, row by row: compare_readelf.py [FILE..].

Without a FILE it takes the C library of this machine. For each FDE of .eh_frame the offset and the range are compared, and for
each row, at the address where it begins, the CFA and the registers. A register that readelf calls `u` counts as one without a
rule. An FDE whose instructions make no row has the row of its CIE. The program is the build that the gate leaves. The status is 1
where something differs.
"""

import re
import subprocess
import sys
from pathlib import Path

PROGRAM = Path(__file__).resolve().parent.parent / "crates/framehop_explain_cli/out/framehop_explain_cli"
# how many addresses one run is asked for
AT_ONCE = 1000
# how many differences are printed
SHOWN = 20


def output(*command, check=True):
    return subprocess.run(command, check=check, capture_output=True, text=True).stdout


def row_text(columns, words):
    """A row as the program prints it: the words of readelf under its columns, without registers that are `u`."""
    cfa, *registers = words
    return " ".join([f"CFA={cfa}", *(f"{name}={word}" for name, word in zip(columns, registers) if word != "u")])


def readelf_rows(file):
    """The FDEs of .eh_frame by offset: (start, end, rows), where rows are by address."""
    functions, of_cie, rows, columns, cie = {}, {}, None, [], None
    # readelf ends with status 1 after a warning
    for line in output("readelf", "--debug-dump=frames-interp", file, check=False).splitlines():
        if line.startswith("Contents of the"):
            rows = None
            if ".eh_frame" not in line:
                break
        entry = re.match(r"([0-9a-f]{8,16}) [0-9a-f]{16} [0-9a-f]{8,16} (CIE|FDE)(?: cie=([0-9a-f]+))?", line)
        if entry:
            offset, rows = int(entry[1], 16), {}
            cie = offset if entry[2] == "CIE" else None
            if cie is None:
                start, end = (int(it, 16) for it in re.search(r"pc=([0-9a-f]+)\.\.([0-9a-f]+)", line).groups())
                functions[offset] = (start, end, rows, int(entry[3], 16))
            continue
        # a register is written as its number and its name
        words = re.sub(r"r\d+ \((\w+)\)", r"\1", line).split()
        if words[:2] == ["LOC", "CFA"]:
            columns = words[2:]
        elif rows is not None and words and re.fullmatch(r"[0-9a-f]{16}", words[0]):
            text = row_text(columns, words[1:])
            rows[int(words[0], 16)] = text
            if cie is not None:
                of_cie[cie] = text
    return {
        offset: (start, end, rows or {start: of_cie.get(cie, "")})
        for offset, (start, end, rows, cie) in functions.items()
    }


def program_rows(file, addresses):
    """What the program tells of addresses: the offset of the FDE, and the row's text."""
    told = {}
    for begin in range(0, len(addresses), AT_ONCE):
        part = [f"{it:x}" for it in addresses[begin : begin + AT_ONCE]]
        address = None
        for line in output(PROGRAM, "--elf", file, *part).splitlines():
            head = re.match(r"0x([0-9a-f]+): (?:row of FDE 0x([0-9a-f]+) of \.eh_frame$)?", line)
            if head:
                address = int(head[1], 16)
                told[address] = (int(head[2], 16) if head[2] else None, "")
            elif line.startswith("  row "):
                words = [it for it in line[6:].split() if not it.endswith("=u")]
                told[address] = (told[address][0], " ".join(words))
    return told


def differences(file):
    functions = readelf_rows(file)
    listed = re.findall(r"0x([0-9a-f]+)\.\.0x([0-9a-f]+): FDE 0x([0-9a-f]+)", output(PROGRAM, "--elf", file))
    found = {int(at, 16): (int(start, 16), int(end, 16)) for start, end, at in listed}
    for offset in sorted(functions.keys() | found.keys()):
        wanted = functions[offset][:2] if offset in functions else None
        if found.get(offset) != wanted:
            yield f"FDE 0x{offset:x}: readelf {wanted}, the program {found.get(offset)}"
    rows = {
        address: (offset, text)
        for offset, (start, end, rows) in functions.items()
        for address, text in rows.items()
        if start <= address < end
    }
    told = program_rows(file, sorted(rows))
    for address, wanted in sorted(rows.items()):
        if told.get(address) != wanted:
            yield f"0x{address:x}: readelf {wanted}, the program {told.get(address)}"
    print(f"{file}: {len(functions)} FDEs, {len(rows)} rows")


def main():
    files = sys.argv[1:] or [re.search(r"libc\.so\.6 => (\S+)", output("ldd", "/bin/sh"))[1]]
    failed = False
    for file in files:
        found = list(differences(file))
        failed |= len(found) > 0
        print("".join(f"  {it}\n" for it in found[:SHOWN]), end="")
        print(f"  {len(found)} differences")
    sys.exit(1 if failed else 0)


main()
