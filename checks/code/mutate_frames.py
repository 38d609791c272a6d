#!/usr/bin/env python3
"""mutate_frames.py FILE [PLACES]: how often framehop-check notices that an operand of .eh_frame is changed.

FILE is an ELF file of x86_64 or aarch64 with few alarms. Of each kind of change so many places (60) are tried, the same ones each time:
the change counts as found where the program, with --notes, prints a line that it does not print of the file as it is.

The built program is out/framehop-check of this repository, or that of the variable FRAMEHOP_CHECK.
"""
import collections
import os
import random
import struct
import subprocess
import sys
import tempfile

TOP = os.path.dirname(os.path.dirname(os.path.dirname(os.path.realpath(__file__))))
PROGRAM = os.environ.get("FRAMEHOP_CHECK", os.path.join(TOP, "out", "framehop-check"))
OTHER = {6: 7, 7: 6, 29: 31, 31: 29}


def section(data, wanted):
    """Offset and size of a section of an ELF file of 64 bits."""
    table, = struct.unpack_from("<Q", data, 0x28)
    size, count, names = struct.unpack_from("<HHH", data, 0x3A)
    headers = [struct.unpack_from("<IIQQQQ", data, table + n * size) for n in range(count)]
    start = headers[names][4]
    for name, _, _, _, offset, length in headers:
        if data[start + name : data.index(b"\0", start + name)] == wanted:
            return offset, length
    raise SystemExit("no " + wanted.decode())


class Reader:
    def __init__(self, data, at):
        self.data, self.at = data, at

    def byte(self):
        self.at += 1
        return self.data[self.at - 1]

    def leb128(self):
        value, shift = 0, 0
        while True:
            byte = self.byte()
            value |= (byte & 0x7F) << shift
            shift += 7
            if byte < 0x80:
                return value


def places_in(data, begin, end, found):
    """The places of a program of call frame instructions where an operand can be changed, with the new bytes."""
    read = Reader(data, begin)
    while read.at < end:
        start = read.at
        opcode = read.byte()
        high, low = opcode & 0xC0, opcode & 0x3F
        if high == 0x40:
            if low > 1:
                found["an advance one unit shorter"].append((start, bytes([opcode - 1])))
            if low < 62:
                found["an advance one unit further"].append((start, bytes([opcode + 1])))
        elif high == 0x80 or opcode in (0x06, 0x07, 0x08, 0x13, 0x2E):
            read.leb128()
        elif opcode in (0x02, 0x03, 0x04):
            read.at += {2: 1, 3: 2, 4: 4}[opcode]
        elif opcode == 0x0B:
            found["DW_CFA_restore_state left out"].append((start, b"\0"))
        elif opcode == 0x0E:
            at = read.at
            value = read.leb128()
            if read.at == at + 1:
                if value < 112:
                    found["DW_CFA_def_cfa_offset by +8"].append((at, bytes([value + 8])))
                if value >= 8:
                    found["DW_CFA_def_cfa_offset by -8"].append((at, bytes([value - 8])))
                found["DW_CFA_def_cfa_offset left out"].append((start, b"\0\0"))
        elif opcode == 0x0C:
            read.leb128()
            at = read.at
            value = read.leb128()
            if read.at == at + 1 and value < 112:
                found["DW_CFA_def_cfa by +8"].append((at, bytes([value + 8])))
        elif opcode == 0x0D:
            at = read.at
            value = read.leb128()
            if value in OTHER:
                found["the register of DW_CFA_def_cfa_register exchanged"].append((at, bytes([OTHER[value]])))
        elif opcode in (0x05, 0x09, 0x11, 0x12, 0x14, 0x15):
            read.leb128()
            read.leb128()
        elif opcode == 0x0F:
            read.at += read.leb128()
        elif opcode in (0x10, 0x16):
            read.leb128()
            read.at += read.leb128()


def all_places(data):
    offset, size = section(data, b".eh_frame")
    found, at = collections.defaultdict(list), offset
    while at + 4 <= offset + size:
        length, = struct.unpack_from("<I", data, at)
        if length == 0:
            break
        if struct.unpack_from("<I", data, at + 4)[0] != 0:
            read = Reader(data, at + 16)
            read.at += read.leb128()
            places_in(data, read.at, at + 4 + length, found)
        at += 4 + length
    return found


def lines_of(data):
    with tempfile.NamedTemporaryFile(suffix=".so") as file:
        file.write(data)
        file.flush()
        out = subprocess.run([PROGRAM, "--notes", file.name], stdout=subprocess.PIPE, text=True, check=False).stdout
    return {line.split(";")[0] for line in out.splitlines()[:-1]}


def main():
    with open(sys.argv[1], "rb") as file:
        data = file.read()
    count = int(sys.argv[2]) if len(sys.argv) > 2 else 60
    before = lines_of(data)
    chosen = random.Random(1)
    for kind, places in sorted(all_places(data).items()):
        tried = chosen.sample(places, min(count, len(places)))
        alarms, notes = 0, 0
        for at, new in tried:
            lines = lines_of(data[:at] + new + data[at + len(new) :]) - before
            is_alarm = any(": note:" not in line for line in lines)
            alarms += is_alarm
            notes += bool(lines) and not is_alarm
        print(f"{kind}: {len(tried)} tried, {alarms} found by alarms, {notes} by notes only", flush=True)


if __name__ == "__main__":
    main()
